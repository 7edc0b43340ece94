// One case of each exported call: decoded, made, checked against the rule and against what header and other calls promise.
#include "calls.h"
#include "../../include/mascon.h"
#include "decode.h"
#include "lend.h"

#define MOST_FILE 16384u
#define MOST_SCRATCH 32768u // words: g 32
#define MOST_CELLS 262144u  // of a file in working form that is built: g 64
#define MOST_AGAIN 1728u    // cells of one that is built again: g 12
#define MOST_OUT (1u << 18)
#define MOST_JOURNAL 512u // words
#define MOST_LIST 8192u
#define MOST_TREE (64 + 80 * 2 * MOST_SCRATCH + 4 * MOST_SCRATCH)
#define MOST_FULL (64 + 16 * 4096u) // every cell of g 16

uint64_t calls_made[CALLS], calls_accepted[CALLS], calls_large[CALLS];

static Lent file, scratch, out, journal, triangles, kernels[2], floats;
static uint8_t want[MOST_TREE], want_journal[4 * MOST_JOURNAL], input_file[MOST_FILE], opened[MOST_OUT];
static uint32_t lookup[MOST_CELLS], order[MOST_CELLS];
static uint64_t keys[MOST_OUT / 16];
static Mesh mesh;

static void ready(const char *call_name) {
    static bool made;
    under_test = call_name;
    if (made) return;
    made = true;
    make_junk();
    make_lent(&file, "file", MOST_OUT);
    make_lent(&scratch, "scratch", 4 * MOST_CELLS);
    make_lent(&out, "out", MOST_TREE);
    make_lent(&journal, "journal", 4 * MOST_JOURNAL);
    make_lent(&triangles, "triangles", MOST_LIST);
    make_lent(&kernels[0], "Cauchy kernels", MOST_LIST);
    make_lent(&kernels[1], "elliptic kernels", MOST_LIST);
    make_lent(&floats, "floats", 8 * 256);
}

static void count(int call, bool accepted) {
    calls_made[call]++;
    calls_accepted[call] += accepted;
}

static void lend_bytes(Lent *lent, const uint8_t *bytes, size_t length, bool at_end) {
    lend(lent, length, at_end, 0);
    memcpy(lent->at, bytes, length);
    keep(lent);
}

static void lend_junk(Lent *lent, size_t length, bool at_end, uint8_t seed) {
    lend(lent, length, at_end, seed);
    keep(lent);
}

static void check_answer(uint64_t answer, uint64_t right) {
    if (answer != right) fail("the answer is %llu, not %llu", (unsigned long long)answer, (unsigned long long)right);
}

/* The number is one that the call may give: a refusal of its list, or a length of whole entries that fits. */
static void check_possible(uint64_t answer, uint32_t causes, size_t room, size_t entry) {
    if (answer < 64 ? !(answer < 32 && causes >> answer & 1) : answer > room || (answer - 64) % entry)
        fail("no call of this name may answer %llu", (unsigned long long)answer);
}

#define CAUSES_1_TO_7 0xfeu
#define CAUSE(n) (1u << (n))

static void check_only_read(const Lent *lent) {
    check_canaries(lent);
    check_kept(lent, 0, "only read");
}

/* Out as a refusal leaves it, or with what is wanted written. */
static void check_out(uint64_t answer) {
    if (answer < 64) {
        check_kept(&out, 0, "refused");
    } else {
        check_bytes(&out, want, 0, answer, "written");
        check_kept(&out, answer, "past the length");
    }
}

/* What open, fold and build have in common after a call: the answer, and the file, scratch and output. */
static void check_call(uint64_t answer, uint64_t right, uint32_t causes, size_t entry) {
    check_only_read(&file);
    check_canaries(&scratch);
    check_canaries(&out);
    check_possible(answer, CAUSES_1_TO_7 | CAUSE(8) | CAUSE(9) | causes, out.length, entry);
    check_answer(answer, right);
    check_out(answer);
    if (answer <= 8) check_kept(&scratch, 0, "refused by 1 to 8");
}

/* Opens what stands in `file`, with `scratch`, `out` and `journal` as lent, and checks all of it. */
static uint64_t open_checked(void) {
    const char *before = under_test;
    under_test = "open";
    uint64_t right = rule_open(file.at, file.length, scratch.length / 4, out.length, journal.length / 4, want, keys);
    uint64_t answer = mascon_open(given(&file, file.length), file.length, given(&scratch, scratch.length), scratch.length / 4,
                                  given(&out, out.length), out.length, given(&journal, journal.length), journal.length / 4);
    count(CALL_open, answer >= 64);
    check_canaries(&journal);
    check_call(answer, right, CAUSE(21) | CAUSE(13), 16);
    if (answer < 64) {
        check_kept(&journal, 0, "refused");
    } else {
        if (get32(journal.at) != 0) fail("journal[0] is %u", get32(journal.at));
        check_kept(&journal, 4, "past word 0");
    }
    under_test = before;
    return answer;
}

/* Folds what stands in `file`, with `scratch` and `out` as lent, and checks all of it. */
static uint64_t fold_checked(void) {
    const char *before = under_test;
    under_test = "fold";
    uint64_t right = rule_fold(file.at, file.length, scratch.length / 4, out.length, want, keys);
    uint64_t answer = mascon_fold(given(&file, file.length), file.length, given(&scratch, scratch.length), scratch.length / 4,
                                  given(&out, out.length), out.length);
    count(CALL_fold, answer >= 64);
    check_call(answer, right, 0, 16);
    under_test = before;
    return answer;
}

/* What the costliest file of a grid has. */
static MasconCost costliest_checked(uint32_t g) {
    const char *before = under_test;
    under_test = "costliest";
    uint64_t nodes, length, right = rule_costliest(g, &nodes, &length);
    MasconCost most = mascon_costliest(g);
    count(CALL_costliest, most.answer == 0);
    check_answer(most.answer, right);
    if (most.nodes != nodes || most.bytes != length)
        fail("%llu nodes and %llu bytes for grid %u, not %llu and %llu", (unsigned long long)most.nodes, (unsigned long long)most.bytes, g,
             (unsigned long long)nodes, (unsigned long long)length);
    under_test = before;
    return most;
}

/* Every float of a written tree is finite, those of its header too. */
static void check_finite(uint64_t nodes) {
    for (uint64_t at = 16; at < 64 + 80 * nodes; at += 4)
        if (at != 56 && !finite_bits(get32(out.at + at))) fail("the float at byte %llu is not finite", (unsigned long long)at);
}

/* Builds what stands in `file`, with `scratch` and `out` as lent. */
static MasconBuilt build_call(void) {
    MasconBuilt built = mascon_build(given(&file, file.length), file.length, given(&scratch, scratch.length), scratch.length / 4,
                                     given(&out, out.length), out.length);
    count(CALL_build, built.answer >= 64);
    calls_large[CALL_build] += built.answer == 22;
    return built;
}

/* What build answers and leaves: `right`, with so many nodes and order words, and the tree in `want`. */
static void check_built(MasconBuilt built, uint64_t right, uint64_t nodes, uint64_t ordered) {
    check_call(built.answer, right, CAUSE(21) | CAUSE(22), 4);
    if (built.nodes != nodes || built.order != ordered)
        fail("%llu nodes and %llu order words, not %llu and %llu", (unsigned long long)built.nodes, (unsigned long long)built.order,
             (unsigned long long)nodes, (unsigned long long)ordered);
}

/* Builds what stands in `file` again, with so many words of scratch and what the tree took: answer, counts and bytes are as before. */
static void builds_again(MasconBuilt first, uint64_t words) {
    lend_junk(&scratch, 4 * words, scratch.at_end, 8);
    lend_junk(&out, first.answer < 64 ? out.length : first.answer, out.at_end, 9);
    check_built(build_call(), first.answer, first.nodes, first.order);
}

/* Up to g 12 a file in working form that passed 8 is built again with the other size of scratch: a word for each cell where it had the fewest, else
   the fewest, which at g 1 are more than that. Then its last record has a pad, and it needs the word for each cell. */
static void builds_alike(MasconBuilt first) {
    if (first.answer <= 8 || cell_words(file.at) > MOST_AGAIN || !rule_working(file.at)) return;
    uint64_t fewest = mark_words(file.at), cells = cell_words(file.at), other = scratch.length / 4 == fewest ? cells : fewest;
    if (other >= fewest) builds_again(first, other);
    if (get32(file.at + 12) == 0) return;
    size_t pad = rule_length(file.at) - 10;
    file.at[pad] = file.was[pad] = 1;
    builds_again(first, cells);
    file.at[pad] = file.was[pad] = 0;
}

/* Builds the tree of what stands in `file`, with `scratch` and `out` as lent, and checks all of it; scratch and output may be others afterwards. */
static uint64_t build_checked(void) {
    const char *before = under_test;
    under_test = "build";
    uint64_t nodes, ordered;
    uint64_t right = rule_build(file.at, file.length, scratch.length / 4, out.length, want, lookup, order, &nodes, &ordered);
    MasconBuilt built = build_call();
    check_built(built, right, nodes, ordered);
    if (built.answer >= 64) {
        if (built.answer != tree_length(built.nodes, built.order)) fail("the length is not that of the counts");
        MasconCost most = costliest_checked(get32(file.at + 8));
        if (built.nodes > most.nodes || built.answer > most.bytes) fail("more nodes or bytes than the costliest file has");
        check_finite(built.nodes);
    }
    builds_alike(built);
    under_test = before;
    return built.answer;
}

/* What a tree of a file needs, also where it is too large; 144 where there is none. */
static uint64_t tree_needs(const uint8_t *bytes, size_t length) {
    Tree tree;
    if (rule_judge(bytes, length) != 0 || cell_words(bytes) > MOST_CELLS) return 144;
    return rule_tree(&tree, bytes, want, lookup, order) ? tree_length(tree.nodes, tree.ordered) : 144;
}

/* A file that a call wrote is in working form: it builds with the fewest words of scratch, or is refused by 22 where the rule does so, and by 8
   with a word less. Up to g 8 it has the length lent that the grid's costliest file needs, above the tree's own. Answers what build does, 0 where
   it was not called. */
static uint64_t builds(const uint8_t *bytes, size_t length, bool at_end) {
    uint32_t g = get32(bytes + 8);
    if (cube(g) > MOST_SCRATCH) return 0;
    uint64_t room = g <= 8 ? costliest_checked(g).bytes : tree_needs(bytes, length), fewest = mark_words(bytes);
    lend_bytes(&file, bytes, length, at_end);
    lend_junk(&out, room, at_end, 4);
    lend_junk(&scratch, 4 * (fewest - 1), at_end, 3);
    check_answer(build_checked(), 8);
    lend_junk(&scratch, 4 * fewest, at_end, 3);
    uint64_t answer = build_checked();
    if (answer < 64 && answer != 22) fail("build refuses what is accepted");
    return answer;
}

/* Opened again, an opened or folded file gives the same bytes, with exactly its length lent. */
static void reopens(const uint8_t *bytes, size_t length, bool at_end) {
    uint64_t cells = cube(get32(bytes + 8));
    if (cells > MOST_SCRATCH) return;
    lend_bytes(&file, bytes, length, at_end);
    lend_junk(&scratch, 4 * cells, at_end, 5);
    lend_junk(&out, length, at_end, 6);
    lend_junk(&journal, 4, at_end, 7);
    check_answer(open_checked(), length);
    check_bytes(&out, file.was, 0, length, "opened again");
}

static void count_narrow(uint64_t answer) {
    count(CALL_narrow, answer < TOO_LARGE);
    calls_large[CALL_narrow] += answer == TOO_LARGE;
}

void case_narrow(const uint8_t *bytes, size_t length) {
    ready("narrow");
    In in = {bytes, bytes + length};
    do { // every 8 bytes are a number; the last may be cut
        uint64_t bits = u64(&in);
        double x;
        memcpy(&x, &bits, 8);
        uint64_t answer = mascon_narrow(x);
        count_narrow(answer);
        if (answer > TOO_LARGE || (answer < TOO_LARGE && !finite_bits((uint32_t)answer))) fail("0x%llx for 0x%016llx", (unsigned long long)answer, (unsigned long long)bits);
        check_answer(answer, rule_narrow(x));
        float near = (float)x;
        uint32_t machine;
        memcpy(&machine, &near, 4);
        if (answer != (finite_bits(machine) ? machine : TOO_LARGE)) fail("0x%08llx for 0x%016llx, the machine has 0x%08x", (unsigned long long)answer, (unsigned long long)bits, machine);
        uint64_t negative = mascon_narrow(-x);
        count_narrow(negative);
        if (negative != (answer < TOO_LARGE ? answer ^ 0x80000000u : TOO_LARGE)) fail("0x%08llx for the negative of 0x%016llx", (unsigned long long)negative, (unsigned long long)bits);
    } while (in.at < in.end);
}

void case_inside(const uint8_t *bytes, size_t length) {
    ready("inside");
    In in = {bytes, bytes + length};
    bool at_end = u8(&in) & 1;
    static uint8_t list[MOST_LIST];
    size_t list_length = mesh_list(&in, list, MOST_LIST);
    lend_bytes(&triangles, list, list_length, at_end);
    double last = 0;
    int points = 1 + (u8(&in) & 3);
    size_t lent = length_near(&in, list_length / 72, 256);
    lend_junk(&floats, 8 * lent, at_end, 1);
    for (; points > 0; points--) {
        double point[3];
        uint8_t class = u8(&in);
        for (int a = 0; a < 3; a++) // a coordinate of a corner, or any
            point[a] = class >> a & 1 && list_length >= 72 ? getd(list + 24 * (u8(&in) % (list_length / 24)) + 8 * a) : number(&in, &last);
        keep(&floats);
        uint64_t right = rule_inside(&mesh, list, list_length, point, lent);
        uint64_t answer = mascon_inside(given(&triangles, triangles.length), triangles.length, point[0], point[1], point[2], given(&floats, lent), lent);
        count(CALL_inside, answer <= 1);
        check_only_read(&triangles);
        check_canaries(&floats);
        if (answer != 0 && answer != 1 && answer != 17 && answer != 8) fail("no call of this name may answer %llu", (unsigned long long)answer);
        check_answer(answer, right);
        if (answer > 1) check_kept(&floats, 0, "refused");
    }
}

/* The lists of a fill, lent. Those that are only read may be the same: bit 2, both lists of kernels; bit 4, the Cauchy kernels and the mesh. */
static void lend_lists(In *in, uint8_t flags, Body *body, const Lent *lists[2]) {
    static uint8_t list[MOST_LIST];
    bool at_end = flags & 1;
    lend_bytes(&triangles, list, mesh_list(in, list, MOST_LIST), at_end);
    body->triangles = triangles.was;
    body->triangles_length = triangles.length;
    lists[0] = flags & 16 ? &triangles : &kernels[0];
    lists[1] = flags & 4 ? lists[0] : &kernels[1];
    for (int k = 0; k < 2; k++) {
        if (lists[k] == &kernels[k]) lend_bytes(&kernels[k], list, kernel_list(in, list, MOST_LIST), at_end);
        body->kernels[k] = lists[k]->was;
        body->kernels_length[k] = lists[k]->length;
    }
}

/* Fills into `out`, with `floats` as lent, and checks all of it. */
static uint64_t fill_checked(const Body *body, const Lent *lists[2]) {
    uint64_t right = rule_fill(&mesh, body, floats.length / 8, out.length, want);
    uint64_t answer = mascon_fill(body->g, given(&triangles, triangles.length), triangles.length, given(lists[0], lists[0]->length), lists[0]->length,
                                  given(lists[1], lists[1]->length), lists[1]->length, body->target, body->density,
                                  given(&floats, floats.length), floats.length / 8, given(&out, out.length), out.length);
    count(CALL_fill, answer >= 64);
    check_only_read(&triangles);
    check_only_read(lists[0]);
    check_only_read(lists[1]);
    check_canaries(&floats);
    check_canaries(&out);
    check_possible(answer, CAUSE(3) | CAUSE(17) | CAUSE(8) | CAUSE(9) | CAUSE(19) | CAUSE(18) | CAUSE(20), out.length, 16);
    check_answer(answer, right);
    if (answer == 3 || answer == 17 || answer == 8) check_kept(&floats, 0, "refused by 3, 17 or 8");
    if (answer == 18 || answer == 20) {
        memset(want, 0, out.length);
        check_bytes(&out, want, 0, out.length, "refused by 18 or 20");
    } else {
        check_out(answer);
    }
    return answer;
}

void case_fill(const uint8_t *bytes, size_t length) {
    ready("fill");
    In in = {bytes, bytes + length};
    uint8_t flags = u8(&in);
    bool at_end = flags & 1;
    Body body = {.g = flags & 2 ? u32(&in) : grid(&in)};
    const Lent *lists[2];
    lend_lists(&in, flags, &body, lists);
    double last = 0;
    body.target = number(&in, &last);
    body.density = number(&in, &last);
    size_t lent = length_near(&in, triangles.length / 72, 256);
    uint64_t need = body.g >= 1 && body.g <= 12 ? rule_needed(body.g) : 64;
    size_t room = length_near(&in, need, 65536);
    if (body.g > 12 && body.g <= 256 && room >= rule_needed(body.g)) room = 64; // the larger ones take too long
    lend_junk(&floats, 8 * lent, at_end, 1);
    lend_junk(&out, room, at_end, 2);
    uint64_t answer = fill_checked(&body, lists);
    if (answer < 64) return;
    memcpy(opened, out.at, answer);
    reopens(opened, answer, at_end);
    if (flags & 8) builds(opened, answer, at_end);
}

/* Words of scratch for the input file, near those that the call needs or near the other of both sizes; always too few for a file with more
   cells than so many. */
static size_t scratch_near(In *in, bool judged, uint64_t (*words)(const uint8_t *), uint64_t most_cells) {
    if (!judged) return words_near(in, 64, 4, MOST_SCRATCH);
    uint64_t need = words(input_file), cells = cell_words(input_file);
    return words_near(in, need, need == cells ? mark_words(input_file) : cells, cells > most_cells && need <= MOST_SCRATCH ? need - 1 : MOST_SCRATCH);
}

void case_open(const uint8_t *bytes, size_t length) {
    ready("open");
    In in = {bytes, bytes + length};
    uint8_t flags = u8(&in);
    bool at_end = flags & 1;
    uint8_t lengths[18]; // lengths stand before the file, whose own takes the rest
    take(&in, lengths, sizeof lengths);
    In of = {lengths, lengths + sizeof lengths};
    size_t file_length = point_file(&in, input_file, MOST_FILE);
    bool judged = rule_judge(input_file, file_length) == 0;
    uint64_t occupied = judged ? rule_occupied(input_file, keys) : 1;
    lend_bytes(&file, input_file, file_length, at_end);
    lend_junk(&scratch, 4 * scratch_near(&of, judged, cell_words, MOST_SCRATCH), at_end, 1);
    lend_junk(&out, length_near(&of, 64 + 16 * occupied, MOST_OUT), at_end, 2);
    lend_junk(&journal, 4 * length_near(&of, 1, MOST_JOURNAL), at_end, flags);
    uint64_t answer = open_checked();
    if (answer < 64) return;
    memcpy(opened, out.at, answer);
    reopens(opened, answer, at_end);
    if (flags & 2) builds(opened, answer, at_end);
}

/* What a folded file needs; 80 where it has none. */
static uint64_t folded_needs(const uint8_t *bytes, size_t length) {
    return rule_judge(bytes, length) == 0 ? 64 + 16 * rule_occupied(bytes, keys) : 80;
}

/* An input file with scratch and output near what is needed, lent; answers the first byte. */
static uint8_t lend_near(const uint8_t *bytes, size_t length, uint64_t (*words)(const uint8_t *), uint64_t (*needs)(const uint8_t *, size_t)) {
    In in = {bytes, bytes + length};
    uint8_t flags = u8(&in), lengths[12]; // lengths stand before the file, whose own takes the rest
    bool at_end = flags & 1;
    take(&in, lengths, sizeof lengths);
    In of = {lengths, lengths + sizeof lengths};
    size_t file_length = point_file(&in, input_file, MOST_FILE);
    bool judged = rule_judge(input_file, file_length) == 0;
    uint64_t most_cells = flags < 240 ? MOST_SCRATCH : MOST_CELLS; // seldom above g 32, up to 64: those take long
    lend_bytes(&file, input_file, file_length, at_end);
    lend_junk(&scratch, 4 * scratch_near(&of, judged, words, most_cells), at_end, 1);
    lend_junk(&out, length_near(&of, needs(input_file, file_length), MOST_OUT), at_end, 2);
    return flags;
}

void case_fold(const uint8_t *bytes, size_t length) {
    ready("fold");
    uint8_t flags = lend_near(bytes, length, cell_words, folded_needs);
    uint64_t answer = fold_checked();
    if (answer < 64) return;
    memcpy(opened, out.at, answer);
    reopens(opened, answer, flags & 1);
    if (flags & 2) builds(opened, answer, flags & 1);
}

void case_build(const uint8_t *bytes, size_t length) {
    ready("build");
    lend_near(bytes, length, build_words, tree_needs);
    build_checked();
}

void case_costliest(const uint8_t *bytes, size_t length) {
    ready("costliest");
    In in = {bytes, bytes + length};
    int calls = 0;
    do {
        costliest_checked(any_grid(&in));
    } while (in.at < in.end && ++calls < 8);
}

/* Writes the costliest file of a grid into `out` as lent, and checks all of it. */
static uint64_t write_checked(uint32_t g) {
    uint64_t right = rule_write_costliest(g, out.length, want);
    uint64_t answer = mascon_write_costliest(g, given(&out, out.length), out.length);
    count(CALL_write_costliest, answer >= 64);
    check_canaries(&out);
    check_possible(answer, CAUSE(3) | CAUSE(9), out.length, 16);
    check_answer(answer, right);
    check_out(answer);
    return answer;
}

/* The costliest file of a grid builds to exactly what is said of it; up to g 8, 9 refuses a byte less. */
static void builds_costliest(const uint8_t *bytes, size_t length, bool at_end) {
    uint32_t g = get32(bytes + 8);
    MasconCost most = costliest_checked(g);
    check_answer(builds(bytes, length, at_end), most.bytes);
    if (get32(out.at + 56) != most.nodes) fail("a tree of %u nodes, not %llu", get32(out.at + 56), (unsigned long long)most.nodes);
    if (g > 8) return;
    lend_junk(&scratch, 4 * mark_words(bytes), at_end, 3);
    lend_junk(&out, most.bytes - 1, at_end, 4);
    check_answer(build_checked(), 9);
}

void case_write_costliest(const uint8_t *bytes, size_t length) {
    ready("write_costliest");
    In in = {bytes, bytes + length};
    uint8_t flags = u8(&in);
    bool at_end = flags & 1;
    uint32_t g = any_grid(&in);
    size_t most = flags < 240 ? MOST_FULL : MOST_TREE; // seldom above g 16, up to 69: those take long
    uint64_t need = g <= 256 ? 64 + 16 * cube(g) : 64;
    lend_junk(&out, length_near(&in, need <= most ? need : 64, most), at_end, 2);
    uint64_t answer = write_checked(g);
    if (answer < 64 || answer > MOST_OUT) return;
    memcpy(opened, out.at, answer);
    reopens(opened, answer, at_end);
    if (flags & 2) builds_costliest(opened, answer, at_end);
}

static uint64_t edit_call(const Edit *edit, size_t file_length, size_t words) {
    float masses[2];
    memcpy(&masses[0], &edit->cauchy, 4);
    memcpy(&masses[1], &edit->elliptic, 4);
    uint8_t *bytes = given(&file, file_length);
    uint32_t *entries = given(&journal, words);
    switch (edit->kind) {
    case PUT: return mascon_put(bytes, file_length, entries, words, edit->x, edit->y, edit->z, masses[0], masses[1]);
    case REMOVE: return mascon_remove(bytes, file_length, entries, words, edit->x, edit->y, edit->z);
    default: return mascon_undo(bytes, file_length, entries, words);
    }
}

/* An edit with so many bytes and words lent, of buffers that may go on; both whole buffers are checked. */
static uint64_t edit_checked(const Edit *edit, size_t file_length, size_t words) {
    static const uint32_t causes[] = {CAUSE(13) | CAUSE(14), CAUSE(12) | CAUSE(13), CAUSE(14) | CAUSE(15) | CAUSE(16)};
    static const char *const names[] = {"put", "remove", "undo"};
    const char *before = under_test;
    under_test = names[edit->kind];
    keep(&file);
    keep(&journal);
    memcpy(want, file.at, file.length);
    memcpy(want_journal, journal.at, journal.length);
    uint64_t right = rule_edit(want, file_length, want_journal, words, edit);
    uint64_t answer = edit_call(edit, file_length, words);
    count(edit->kind == PUT ? CALL_put : edit->kind == REMOVE ? CALL_remove : CALL_undo, answer >= 64);
    check_canaries(&file);
    check_canaries(&journal);
    check_possible(answer, CAUSES_1_TO_7 | CAUSE(10) | CAUSE(11) | causes[edit->kind], file_length, 16);
    check_answer(answer, right);
    check_bytes(&file, want, 0, file.length, answer < 64 ? "refused" : "edited");
    check_bytes(&journal, want_journal, 0, journal.length, answer < 64 ? "refused" : "entered");
    under_test = before;
    return answer;
}

/* Put and remove are restored by an undo: file up to its length, journal. */
static void undone_at_once(uint64_t answer, size_t file_length, size_t words) {
    static uint8_t file_before[MOST_OUT], journal_before[4 * MOST_JOURNAL];
    if (answer < 64) return;
    memcpy(file_before, file.was, file.length);
    memcpy(journal_before, journal.was, journal.length);
    uint64_t length_before = rule_length(file_before);
    uint32_t e = get32(journal_before);
    check_answer(edit_checked(&(Edit){.kind = UNDO}, file_length, words), length_before);
    check_bytes(&file, file_before, 0, length_before, "undone");
    check_bytes(&journal, journal_before, 0, 4 + 12ull * e, "undone");
}

static size_t less(size_t length, size_t by) { return length > by ? length - by : 0; }

/* Any file and journal, then calls, the first of them of one kind. */
static void case_edit(const uint8_t *bytes, size_t length, int kind) {
    In in = {bytes, bytes + length};
    bool at_end = u8(&in) & 1;
    size_t file_length = point_file(&in, input_file, MOST_FILE);
    static uint8_t words[4 * MOST_JOURNAL];
    size_t count = journal_words(&in, input_file, file_length, words, MOST_JOURNAL);
    lend_bytes(&file, input_file, file_length, at_end);
    lend_bytes(&journal, words, 4 * count, at_end);
    int calls = 0;
    do {
        Call next = call(&in, file.at, file.length);
        if (calls == 0) next.edit.kind = kind;
        size_t lent = less(file.length, next.less_file), lent_words = less(journal.length / 4, next.less_journal);
        uint64_t answer = edit_checked(&next.edit, lent, lent_words);
        if (next.undone && next.edit.kind != UNDO) undone_at_once(answer, lent, lent_words);
    } while (in.at < in.end && ++calls < 32);
}

void case_put(const uint8_t *bytes, size_t length) { ready("put"); case_edit(bytes, length, PUT); }
void case_remove(const uint8_t *bytes, size_t length) { ready("remove"); case_edit(bytes, length, REMOVE); }
void case_undo(const uint8_t *bytes, size_t length) { ready("undo"); case_edit(bytes, length, UNDO); }

/* Folds what stands in `input_file`, with just enough lent; what comes out stands there afterwards. Answers its length. */
static size_t fold_input(size_t length, uint64_t cells, bool at_end) {
    lend_bytes(&file, input_file, length, at_end);
    lend_junk(&scratch, 4 * cells, at_end, 1);
    lend_junk(&out, folded_needs(input_file, length), at_end, 2);
    uint64_t answer = fold_checked();
    if (answer < 64) fail("fold refuses what is accepted");
    memcpy(input_file, out.at, answer);
    return answer;
}

/* Opens a file, folded where a cell is named twice, into a buffer with so many bytes to spare. Answers the length, below 64 where it is
   refused. */
static uint64_t open_to_edit(In *in, size_t spare, size_t words, uint8_t flags) {
    bool at_end = flags & 1;
    size_t file_length = point_file(in, input_file, MOST_FILE);
    bool judged = rule_judge(input_file, file_length) == 0;
    uint64_t cells = judged ? cube(get32(input_file + 8)) : 1, occupied = judged ? rule_occupied(input_file, keys) : 0;
    bool held = cells <= MOST_SCRATCH;
    if (judged && held && occupied < get32(input_file + 12)) file_length = fold_input(file_length, cells, at_end);
    lend_bytes(&file, input_file, file_length, at_end);
    lend_junk(&scratch, 4 * (held ? cells : MOST_SCRATCH), at_end, 1);
    lend_junk(&out, 64 + 16 * occupied + spare, at_end, flags);
    lend_junk(&journal, 4 * words, at_end, 3);
    uint64_t answer = open_checked();
    if (answer < 64 && judged && held) fail("an accepted file is refused");
    return answer;
}

/* The edited file opens to itself and builds, with or without the bytes past it, unless its tree is too large; then it and its journal are lent
   again. Answers whether it is. */
static bool edited_too_large(bool at_end) {
    static uint8_t edited[MOST_OUT], kept_journal[4 * MOST_JOURNAL];
    size_t whole = file.length, kept_length = journal.length;
    uint64_t now = rule_length(file.at);
    memcpy(edited, file.at, whole);
    memcpy(kept_journal, journal.at, kept_length);
    reopens(edited, now, at_end);
    bool large = builds(edited, at_end ? now : whole, at_end) == 22;
    lend_bytes(&file, edited, whole, at_end);
    lend_bytes(&journal, kept_journal, kept_length, at_end);
    return large;
}

/* A call on what open and earlier calls left, with so many entries. Answers how many there are then. */
static uint32_t history_call(const Call *next, uint32_t entries) {
    bool undo = next->edit.kind == UNDO;
    size_t lent = less(file.length, next->less_file), lent_words = less(journal.length / 4, next->less_journal);
    uint64_t answer = edit_checked(&next->edit, lent, lent_words);
    if (undo && !next->shorter && answer < 64 && (answer != 15 || entries)) fail("undo of %u entries answers %llu", entries, (unsigned long long)answer);
    if (next->undone && !undo)
        undone_at_once(answer, lent, lent_words);
    else if (answer >= 64)
        entries = undo ? entries - 1 : entries + 1;
    if (get32(journal.at) != entries) fail("journal[0] is %u, not %u", get32(journal.at), entries);
    return entries;
}

/* Undoes every entry; where the tree was too large, it is built again after each of the first eight, until it is not. */
static void undo_all(uint32_t entries, bool large, bool at_end) {
    const Edit undo = {.kind = UNDO};
    for (int undone = 0; entries > 0; entries--, undone++) {
        if (edit_checked(&undo, file.length, journal.length / 4) < 64) fail("undo of %u entries is refused", entries);
        if (large && undone < 8) large = edited_too_large(at_end);
    }
    check_answer(edit_checked(&undo, file.length, journal.length / 4), 15);
}

/* A file opened, a list of edits on what open left, then every entry undone: the file is as open wrote it. */
void case_history(const uint8_t *bytes, size_t length) {
    ready("history");
    In in = {bytes, bytes + length};
    uint8_t flags = u8(&in);
    bool at_end = flags & 1;
    size_t spare = u8(&in), words = 1 + u8(&in);
    if (flags & 2) spare *= 16;
    uint64_t opened_length = open_to_edit(&in, spare, words, flags);
    if (opened_length < 64) return;
    static uint8_t as_opened[MOST_OUT];
    memcpy(as_opened, out.at, out.length);
    lend_bytes(&file, as_opened, out.length, at_end); // the whole buffer that open wrote into
    uint32_t entries = 0;
    bool large = false; // the tree last built
    for (int calls = 0; in.at < in.end && calls < 64; calls++) {
        Call next = call(&in, file.at, file.length);
        entries = history_call(&next, entries);
        if (next.built && calls < 8) large = edited_too_large(at_end);
    }
    undo_all(entries, large, at_end);
    check_bytes(&file, as_opened, 0, opened_length, "every entry undone");
}
