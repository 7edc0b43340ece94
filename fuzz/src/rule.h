// The rules of the formats and calls in plain C: what each call has to answer and to leave in what it is lent.
#ifndef RULE_H
#define RULE_H

#include <math.h>
#include <stdbool.h>
#include <stdint.h>
#include <stdlib.h>
#include <string.h>

#define MARK 0x314d5952u
#define MOST_ENTRIES (1u << 24)

static uint16_t get16(const uint8_t *at) { uint16_t v; memcpy(&v, at, 2); return v; }
static uint32_t get32(const uint8_t *at) { uint32_t v; memcpy(&v, at, 4); return v; }
static float getf(const uint8_t *at) { float v; memcpy(&v, at, 4); return v; }
static double getd(const uint8_t *at) { double v; memcpy(&v, at, 8); return v; }
static void set16(uint8_t *at, uint16_t v) { memcpy(at, &v, 2); }
static void set32(uint8_t *at, uint32_t v) { memcpy(at, &v, 4); }
static void setf(uint8_t *at, float v) { memcpy(at, &v, 4); }
static void setd(uint8_t *at, double v) { memcpy(at, &v, 8); }

static bool finite_bits(uint32_t bits) { return (bits >> 23 & 255) != 255; }

static uint64_t cube(uint64_t g) { return g * g * g; }

#define TOO_LARGE (1ull << 32)

/* Narrowing: too large from 2^128 - 2^103 up and for a NaN; else a pattern, from the bits: 24 significant bits, or fewer below 2^-126, ties
   to even. */
static uint64_t rule_narrow(double x) {
    if (!(fabs(x) < 0x1.ffffffp127)) return TOO_LARGE;
    uint64_t bits;
    memcpy(&bits, &x, 8);
    uint32_t sign = (uint32_t)(bits >> 63) << 31;
    int exponent = (int)(bits >> 52 & 2047);
    uint64_t fraction = bits & ((1ull << 52) - 1);
    if (exponent < 800) return sign;
    uint64_t whole = fraction | 1ull << 52; // times 2^(exponent - 1075)
    int to = exponent - 1023 + 127;         // exponent field in binary32
    int drop = to >= 1 ? 29 : 29 + 1 - to;
    if (drop > 54) return sign;
    uint64_t quotient = whole >> drop, rest = whole & ((1ull << drop) - 1), half = 1ull << (drop - 1);
    if (rest > half || (rest == half && (quotient & 1))) quotient++;
    return sign | (to >= 1 ? ((uint64_t)(to - 1) << 23) + quotient : quotient);
}

/* Causes 1 to 7 of a point file, 0 for none. */
static unsigned rule_judge(const uint8_t *file, size_t length) {
    if (length < 64) return 1;
    if (get32(file) != MARK || get32(file + 4) != 1) return 2;
    uint32_t g = get32(file + 8);
    if (g == 0 || g > 256) return 3;
    uint64_t n = get32(file + 12);
    if (length < 64 + 16 * n) return 4;
    static const int floats[] = {16, 20, 24, 32, 36, 40, 44, 48, 52};
    for (int i = 0; i < 9; i++)
        if (!finite_bits(get32(file + floats[i]))) return 5;
    for (int axis = 0; axis < 3; axis++)
        if (!(getf(file + 32 + 4 * axis) < getf(file + 44 + 4 * axis))) return 5;
    for (uint64_t i = 0; i < n; i++) {
        const uint8_t *record = file + 64 + 16 * i;
        for (int axis = 0; axis < 3; axis++)
            if (get16(record + 2 * axis) >= g) return 6;
        if (!finite_bits(get32(record + 8)) || !finite_bits(get32(record + 12))) return 7;
    }
    return 0;
}

/* Causes 1 to 7 and 8, 0 for none: what open, fold and build have in common, 8 by the words that the call needs for a judged file. */
static unsigned rule_judge_lent(const uint8_t *file, size_t length, size_t scratch, uint64_t (*words)(const uint8_t *)) {
    unsigned cause = rule_judge(file, length);
    return cause ? cause : scratch < words(file) ? 8 : 0;
}

static uint32_t cell_number(uint32_t g, uint32_t x, uint32_t y, uint32_t z) { return (z * g + y) * g + x; }

static uint32_t record_cell(const uint8_t *file, uint64_t i) {
    const uint8_t *record = file + 64 + 16 * i;
    return cell_number(get32(file + 8), get16(record), get16(record + 2), get16(record + 4));
}

static bool rule_working(const uint8_t *file) {
    uint64_t n = get32(file + 12);
    for (uint64_t i = 0; i < n; i++) {
        if (get16(file + 64 + 16 * i + 6) != 0) return false;
        if (i > 0 && record_cell(file, i - 1) >= record_cell(file, i)) return false;
    }
    return true;
}

/* Words of scratch: one for each cell, in open and fold; for every 32 cells, rounded up, a word of marks and a running total. */
static uint64_t cell_words(const uint8_t *file) { return cube(get32(file + 8)); }
static uint64_t mark_words(const uint8_t *file) { return 2 * ((cell_words(file) + 31) / 32); }

/* Those that build needs: the marks and totals for a file in working form, else one for each cell. */
static uint64_t build_words(const uint8_t *file) { return rule_working(file) ? mark_words(file) : cell_words(file); }

static int by_key(const void *a, const void *b) {
    uint64_t left = *(const uint64_t *)a, right = *(const uint64_t *)b;
    return left < right ? -1 : left > right;
}

/* The last record of each occupied cell, ascending by cell: cell << 32 | record. Answers how many. */
static size_t rule_occupied(const uint8_t *file, uint64_t *keys) {
    size_t n = get32(file + 12), kept = 0;
    bool sorted = true;
    for (size_t i = 0; i < n; i++) {
        keys[i] = (uint64_t)record_cell(file, i) << 32 | i;
        if (i > 0 && keys[i - 1] > keys[i]) sorted = false;
    }
    if (!sorted) qsort(keys, n, sizeof *keys, by_key);
    for (size_t i = 0; i < n; i++)
        if (i + 1 == n || keys[i] >> 32 != keys[i + 1] >> 32) keys[kept++] = keys[i];
    return kept;
}

/* The working form with these records of a file; answers its length. */
static uint64_t rule_written(const uint8_t *file, const uint64_t *keys, size_t n, uint8_t *want) {
    memcpy(want, file, 64);
    set32(want + 12, (uint32_t)n);
    for (size_t i = 0; i < n; i++) {
        memcpy(want + 64 + 16 * i, file + 64 + 16 * (uint32_t)keys[i], 16);
        set16(want + 64 + 16 * i + 6, 0);
    }
    return 64 + 16 * n;
}

/* Opening: the answer; where it is accepted, the file in `want`. */
static uint64_t rule_open(const uint8_t *file, size_t length, size_t scratch, size_t room, size_t journal, uint8_t *want, uint64_t *keys) {
    unsigned cause = rule_judge_lent(file, length, scratch, cell_words);
    if (cause) return cause;
    size_t n = rule_occupied(file, keys);
    if (n < get32(file + 12)) return 21;
    if (room < 64 + 16 * n) return 9;
    if (journal < 1) return 13;
    return rule_written(file, keys, n, want);
}

/* Folding: the same, but that of a cell's records the last counts. */
static uint64_t rule_fold(const uint8_t *file, size_t length, size_t scratch, size_t room, uint8_t *want, uint64_t *keys) {
    unsigned cause = rule_judge_lent(file, length, scratch, cell_words);
    if (cause) return cause;
    size_t n = rule_occupied(file, keys);
    if (room < 64 + 16 * n) return 9;
    return rule_written(file, keys, n, want);
}

enum { PUT, REMOVE, UNDO };

typedef struct {
    int kind;
    uint32_t x, y, z, cauchy, elliptic; // masses as float bits
} Edit;

/* The first record whose cell is not below this one. */
static uint32_t place_of(const uint8_t *file, uint32_t cell) {
    uint32_t n = get32(file + 12), i = 0;
    while (i < n && record_cell(file, i) < cell) i++;
    return i;
}

static void insert_record(uint8_t *file, uint32_t place, uint32_t cell, uint32_t cauchy, uint32_t elliptic) {
    uint32_t n = get32(file + 12), g = get32(file + 8);
    uint8_t *record = file + 64 + 16ull * place;
    memmove(record + 16, record, 16ull * (n - place));
    set16(record, (uint16_t)(cell % g));
    set16(record + 2, (uint16_t)(cell / g % g));
    set16(record + 4, (uint16_t)(cell / g / g));
    set16(record + 6, 0);
    set32(record + 8, cauchy);
    set32(record + 12, elliptic);
    set32(file + 12, n + 1);
}

static void delete_record(uint8_t *file, uint32_t place) {
    uint32_t n = get32(file + 12);
    uint8_t *record = file + 64 + 16ull * place;
    memmove(record, record + 16, 16ull * (n - place - 1));
    memset(file + 64 + 16ull * (n - 1), 0, 16);
    set32(file + 12, n - 1);
}

static uint64_t rule_length(const uint8_t *file) { return 64 + 16ull * get32(file + 12); }

/* A header with word 0, version and grid, all else 0. */
static void bare_header(uint8_t *file, uint32_t g) {
    memset(file, 0, 64);
    set32(file, MARK);
    set32(file + 4, 1);
    set32(file + 8, g);
}

/* An edit on both buffers: the answer; both are changed where it is accepted. */
static uint64_t rule_edit(uint8_t *file, size_t length, uint8_t *journal, size_t words, const Edit *edit) {
    unsigned cause = rule_judge(file, length);
    if (cause) return cause;
    if (!rule_working(file)) return 10;
    uint32_t e = words ? get32(journal) : 0, g = get32(file + 8), n = get32(file + 12);
    if (words == 0 || e > MOST_ENTRIES || words < 1 + 3ull * e) return 11;
    bool room = length >= 64 + 16 * (n + 1ull);
    if (edit->kind == UNDO) {
        if (e == 0) return 15;
        uint8_t *entry = journal + 4 + 12ull * (e - 1);
        uint32_t head = get32(entry), cauchy = get32(entry + 4), elliptic = get32(entry + 8);
        uint32_t kind = head >> 30, cell = head & 0xffffff;
        if (kind == 0 || (head >> 24 & 63) || cell >= cube(g)) return 16;
        if (kind != 1 && (!finite_bits(cauchy) || !finite_bits(elliptic))) return 16;
        uint32_t place = place_of(file, cell);
        bool held = place < n && record_cell(file, place) == cell;
        if (held != (kind != 3)) return 16;
        if (kind == 3 && !room) return 14;
        if (kind == 1) delete_record(file, place);
        if (kind == 3) insert_record(file, place, cell, cauchy, elliptic);
        if (kind == 2) {
            set32(file + 64 + 16ull * place + 8, cauchy);
            set32(file + 64 + 16ull * place + 12, elliptic);
        }
        memset(entry, 0, 12);
        set32(journal, e - 1);
        return rule_length(file);
    }
    if (edit->x >= g || edit->y >= g || edit->z >= g) return 6;
    if (edit->kind == PUT && (!finite_bits(edit->cauchy) || !finite_bits(edit->elliptic))) return 7;
    uint32_t cell = cell_number(g, edit->x, edit->y, edit->z), place = place_of(file, cell);
    bool held = place < n && record_cell(file, place) == cell;
    if (edit->kind == REMOVE && !held) return 12;
    if (e == MOST_ENTRIES || words < 1 + 3ull * (e + 1)) return 13;
    if (edit->kind == PUT && !held && !room) return 14;
    uint8_t *record = file + 64 + 16ull * place, *entry = journal + 4 + 12ull * e;
    set32(entry, (edit->kind == REMOVE ? 3u : held ? 2u : 1u) << 30 | cell);
    set32(entry + 4, held ? get32(record + 8) : 0);
    set32(entry + 8, held ? get32(record + 12) : 0);
    set32(journal, e + 1);
    if (edit->kind == REMOVE) {
        delete_record(file, place);
    } else if (held) {
        set32(record + 8, edit->cauchy);
        set32(record + 12, edit->elliptic);
    } else {
        insert_record(file, place, cell, edit->cauchy, edit->elliptic);
    }
    return rule_length(file);
}

/* Trees. */
typedef struct {
    const uint8_t *file;
    const uint32_t *lookup; // record + 1 of each cell, 0 for an empty one
    uint8_t *out;           // nodes from byte 64 on
    uint32_t *order;
    uint32_t g, nodes, ordered;
    bool large; // a float of a node is too large
    double min[3], cell[3];
} Tree;

/* Writes a number narrowed; false, and nothing written, where it is too large. */
static bool put_float(uint8_t *at, double x) {
    uint64_t narrowed = rule_narrow(x);
    if (narrowed == TOO_LARGE) return false;
    set32(at, (uint32_t)narrowed);
    return true;
}

/* The axis along which a box is halved: the first of the widest. */
static uint32_t widest(const uint32_t width[3]) {
    uint32_t axis = 0;
    for (uint32_t a = 1; a < 3; a++)
        if (width[a] > width[axis]) axis = a;
    return axis;
}

/* Whether a box with so many points, its widest side so wide, is halved. */
static bool halved(uint64_t count, uint32_t width) { return count > 8 && width > 1; }

/* Builds a box's node and what is below it; answers its point count. */
static uint32_t rule_node(Tree *tree, const uint32_t low[3], const uint32_t high[3]) {
    uint8_t *node = tree->out + 64 + 80ull * tree->nodes++;
    double sums[2] = {0, 0}, moments[3][3] = {{0}}, centres[3][3] = {{0}}, links[2] = {-1, -1}, half = 0;
    uint32_t count = 0, start = tree->ordered, width[3], leaf = 0;
    for (uint32_t z = low[2]; z < high[2]; z++)
        for (uint32_t y = low[1]; y < high[1]; y++)
            for (uint32_t x = low[0]; x < high[0]; x++) {
                uint32_t index = tree->lookup[cell_number(tree->g, x, y, z)];
                if (!index--) continue;
                double at[3] = {x, y, z}, masses[2];
                for (int m = 0; m < 2; m++) sums[m] += masses[m] = getf(tree->file + 64 + 16ull * index + 8 + 4 * m);
                for (int a = 0; a < 3; a++) {
                    moments[0][a] += at[a] * masses[0];
                    moments[1][a] += at[a] * masses[1];
                    moments[2][a] += at[a];
                }
                tree->order[start + count++] = index; // kept only where this is a leaf
            }
    for (int a = 0; a < 3; a++) {
        width[a] = high[a] - low[a];
        double side = width[a] * 0.5 * tree->cell[a];
        if (a == 0 || side > half) half = side;
        if (count == 0) continue;
        for (int m = 0; m < 2; m++)
            centres[m][a] = fabs(sums[m]) > 1e-30 ? moments[m][a] / sums[m] : (low[a] + high[a] - 1) * 0.5;
        centres[2][a] = moments[2][a] / count;
    }
    uint32_t axis = widest(width);
    if (!halved(count, width[axis])) { // a leaf, or empty
        leaf = count;
        tree->ordered += count;
    } else {
        uint32_t middle = low[axis] + width[axis] / 2, left_high[3], right_low[3];
        memcpy(left_high, high, sizeof left_high);
        memcpy(right_low, low, sizeof right_low);
        left_high[axis] = right_low[axis] = middle;
        uint32_t place = tree->nodes;
        if (rule_node(tree, low, left_high)) links[0] = place;
        place = tree->nodes;
        if (rule_node(tree, right_low, high)) links[1] = place;
    }
    double floats[20] = {[3] = half, [4] = sums[0], [5] = sums[1], [6] = links[0], [7] = links[1],
                         [11] = leaf ? start : 0, [15] = leaf, [19] = count};
    for (int a = 0; a < 3; a++) {
        floats[a] = tree->min[a] + (low[a] + high[a]) * 0.5 * tree->cell[a];
        for (int m = 0; m < 3; m++) floats[8 + 4 * m + a] = tree->min[a] + (centres[m][a] + 0.5) * tree->cell[a];
    }
    for (int i = 0; i < 20; i++) tree->large |= !put_float(node + 4 * i, floats[i]); // the five whole numbers never are
    return count;
}

static uint64_t tree_length(uint64_t nodes, uint64_t ordered) { return 64 + 80 * nodes + 4 * ordered; }

/* Works out the nodes and the order of a judged file, too large or not: false where two records name one cell. `want`, `lookup` and `order`
   have room for any tree of the grid. */
static bool rule_tree(Tree *tree, const uint8_t *file, uint8_t *want, uint32_t *lookup, uint32_t *order) {
    uint32_t g = get32(file + 8), n = get32(file + 12);
    memset(lookup, 0, cube(g) * sizeof *lookup);
    for (uint32_t i = 0; i < n; i++) {
        uint32_t *held = &lookup[record_cell(file, i)];
        if (*held) return false;
        *held = i + 1;
    }
    *tree = (Tree){.file = file, .lookup = lookup, .out = want, .order = order, .g = g};
    for (int a = 0; a < 3; a++) {
        tree->min[a] = getf(file + 32 + 4 * a);
        tree->cell[a] = ((double)getf(file + 44 + 4 * a) - tree->min[a]) / g;
    }
    rule_node(tree, (uint32_t[]){0, 0, 0}, (uint32_t[]){g, g, g});
    return true;
}

/* Building: the answer with both counts; the tree in `want` where it is accepted. */
static uint64_t rule_build(const uint8_t *file, size_t length, size_t scratch, size_t room, uint8_t *want, uint32_t *lookup,
                           uint32_t *order, uint64_t *nodes, uint64_t *ordered) {
    *nodes = *ordered = 0;
    unsigned cause = rule_judge_lent(file, length, scratch, build_words);
    if (cause) return cause;
    Tree tree;
    if (!rule_tree(&tree, file, want, lookup, order)) return 21;
    if (tree.large) return 22;
    uint64_t whole = tree_length(tree.nodes, tree.ordered);
    if (room < whole) return 9;
    uint32_t g = get32(file + 8), n = get32(file + 12);
    const uint32_t words[] = {0x314d5452u, 2, g, n, get32(file + 24), get32(file + 16), get32(file + 20), 0};
    memcpy(want, words, 32);
    memcpy(want + 32, file + 32, 24);
    set32(want + 56, tree.nodes);
    set32(want + 60, 0);
    memcpy(want + 64 + 80ull * tree.nodes, order, 4ull * tree.ordered);
    *nodes = tree.nodes;
    *ordered = tree.ordered;
    return whole;
}

/* The nodes of a box whose every cell is occupied; equal halves are counted once. */
static uint64_t full_nodes(const uint32_t width[3]) {
    uint32_t axis = widest(width), left[3], right[3];
    if (!halved((uint64_t)width[0] * width[1] * width[2], width[axis])) return 1;
    memcpy(left, width, sizeof left);
    memcpy(right, width, sizeof right);
    left[axis] = width[axis] / 2;
    right[axis] -= left[axis];
    uint64_t nodes = full_nodes(left);
    return 1 + nodes + (left[axis] == right[axis] ? nodes : full_nodes(right));
}

/* The costliest file of a grid: 0 with the nodes and the length of its tree, or 3. */
static uint64_t rule_costliest(uint32_t g, uint64_t *nodes, uint64_t *length) {
    static uint64_t counted[257];
    *nodes = *length = 0;
    if (g == 0 || g > 256) return 3;
    if (!counted[g]) counted[g] = full_nodes((uint32_t[]){g, g, g});
    *nodes = counted[g];
    *length = tree_length(*nodes, cube(g));
    return 0;
}

/* Writing it: the answer; the file in `want` where it is accepted. */
static uint64_t rule_write_costliest(uint32_t g, size_t room, uint8_t *want) {
    const uint32_t one = 0x3f800000u;
    if (g == 0 || g > 256) return 3;
    if (room < 64 + 16 * cube(g)) return 9;
    bare_header(want, g);
    for (int a = 0; a < 3; a++) set32(want + 44 + 4 * a, one);
    for (uint32_t cell = 0; cell < cube(g); cell++) insert_record(want, cell, cell, one, one);
    return rule_length(want);
}

/* Meshes. */
#define MOST_TRIANGLES (1u << 20)
#define HELD_TRIANGLES 4096u

typedef struct {
    size_t count;
    double corner[HELD_TRIANGLES][3][3];
    int least[HELD_TRIANGLES][3], greatest[HELD_TRIANGLES][3];
    double from[3], to[3]; // least and greatest coordinates
    double low[3], high[3];
} Mesh;

static bool within(double x, double most) { return fabs(x) <= most; }

static int rule_index(const Mesh *mesh, int axis, double v) {
    double scaled = (v - mesh->low[axis]) / (mesh->high[axis] - mesh->low[axis]) * 96.0;
    return scaled >= 95 ? 95 : scaled >= 1 ? (int)scaled : 0;
}

/* False where 17 refuses the list. The harness lends at most HELD_TRIANGLES good ones. */
static bool rule_mesh(Mesh *mesh, const uint8_t *list, size_t length) {
    mesh->count = length / 72;
    if (length % 72 || mesh->count == 0 || mesh->count > MOST_TRIANGLES) return false;
    for (size_t i = 0; i < length / 8; i++)
        if (!within(getd(list + 8 * i), 1e6)) return false;
    if (mesh->count > HELD_TRIANGLES) abort();
    memcpy(mesh->corner, list, length);
    for (int a = 0; a < 3; a++) {
        mesh->from[a] = INFINITY;
        mesh->to[a] = -INFINITY;
        for (size_t t = 0; t < mesh->count; t++)
            for (int c = 0; c < 3; c++) {
                double v = mesh->corner[t][c][a];
                if (v < mesh->from[a]) mesh->from[a] = v;
                if (v > mesh->to[a]) mesh->to[a] = v;
            }
        double outward = 1e-3 * (mesh->to[a] - mesh->from[a] + 1.0);
        mesh->low[a] = mesh->from[a] - outward;
        mesh->high[a] = mesh->to[a] + outward;
        for (size_t t = 0; t < mesh->count; t++) {
            double least = INFINITY, greatest = -INFINITY;
            for (int c = 0; c < 3; c++) {
                double v = mesh->corner[t][c][a];
                if (v < least) least = v;
                if (v > greatest) greatest = v;
            }
            mesh->least[t][a] = rule_index(mesh, a, least);
            mesh->greatest[t][a] = rule_index(mesh, a, greatest);
        }
    }
    return true;
}

static void minus(double out[3], const double a[3], const double b[3]) { for (int i = 0; i < 3; i++) out[i] = a[i] - b[i]; }
static double dot(const double a[3], const double b[3]) { return a[0] * b[0] + a[1] * b[1] + a[2] * b[2]; }
static void cross(double out[3], const double a[3], const double b[3]) {
    out[0] = a[1] * b[2] - a[2] * b[1];
    out[1] = a[2] * b[0] - a[0] * b[2];
    out[2] = a[0] * b[1] - a[1] * b[0];
}

static int by_number(const void *a, const void *b) {
    double left = *(const double *)a, right = *(const double *)b;
    return left < right ? -1 : left > right;
}

static bool rule_is_inside(const Mesh *mesh, const double point[3]) {
    static const double along[3] = {1, 0, 0};
    static double crossings[HELD_TRIANGLES];
    size_t count = 0, retained = 0;
    int index[3];
    for (int a = 0; a < 3; a++) index[a] = rule_index(mesh, a, point[a]);
    for (size_t t = 0; t < mesh->count; t++) {
        const int *least = mesh->least[t], *greatest = mesh->greatest[t];
        if (index[0] > greatest[0] || index[1] < least[1] || index[1] > greatest[1] || index[2] < least[2] || index[2] > greatest[2]) continue;
        double e1[3], e2[3], p[3], s[3], q[3];
        minus(e1, mesh->corner[t][1], mesh->corner[t][0]);
        minus(e2, mesh->corner[t][2], mesh->corner[t][0]);
        cross(p, along, e2);
        double determinant = dot(e1, p);
        if (fabs(determinant) < 1e-12) continue;
        double inverse = 1.0 / determinant;
        minus(s, point, mesh->corner[t][0]);
        double u = inverse * dot(s, p);
        cross(q, s, e1);
        double v = inverse * dot(along, q), distance = inverse * dot(e2, q);
        if (u < 0 || u > 1 || v < 0 || u + v > 1 || !(distance > 1e-12)) continue;
        crossings[count++] = distance;
    }
    qsort(crossings, count, sizeof *crossings, by_number);
    double last = 0;
    for (size_t i = 0; i < count; i++) {
        double tolerance = fmax(8e-7 * fmax(fmax(fabs(crossings[i]), fabs(last)), 1.0), 1e-5);
        if (retained && fabs(crossings[i] - last) <= tolerance) continue;
        last = crossings[i];
        retained++;
    }
    return retained % 2;
}

static uint64_t rule_inside(Mesh *mesh, const uint8_t *list, size_t length, const double point[3], size_t floats) {
    if (!rule_mesh(mesh, list, length)) return 17;
    for (int a = 0; a < 3; a++)
        if (!within(point[a], 4e6)) return 17;
    return floats < mesh->count ? 8 : rule_is_inside(mesh, point);
}

static bool rule_kernels(const uint8_t *list, size_t length) {
    if (length % 40 || length / 40 > 4096) return false;
    for (size_t at = 0; at < length; at += 40) {
        for (int a = 0; a < 3; a++)
            if (!within(getd(list + at + 8 * a), 1e6)) return false;
        double sigma = getd(list + at + 24);
        if (!(sigma >= 0 && sigma <= 1e6) || !within(getd(list + at + 32), 1e30)) return false;
    }
    return true;
}

static double rule_density(const uint8_t *list, size_t length, const double point[3]) {
    double density = 0;
    for (size_t at = 0; at < length; at += 40) {
        double centre[3], d[3], sigma = getd(list + at + 24);
        memcpy(centre, list + at, 24);
        minus(d, point, centre);
        density += getd(list + at + 32) / (1.0 + sigma * sigma * dot(d, d));
    }
    return density;
}

static uint64_t rule_needed(uint64_t g) { return 64 + 16 * ((cube(g) + 1) / 2); }

typedef struct {
    uint32_t g;
    const uint8_t *triangles, *kernels[2];
    size_t triangles_length, kernels_length[2];
    double target, density;
} Body;

/* Filling: the answer; the file in `want` where it is accepted. */
static uint64_t rule_fill(Mesh *mesh, const Body *body, size_t floats, size_t room, uint8_t *want) {
    if (body->g == 0 || body->g > 256) return 3;
    if (!rule_mesh(mesh, body->triangles, body->triangles_length)) return 17;
    for (int k = 0; k < 2; k++)
        if (!rule_kernels(body->kernels[k], body->kernels_length[k])) return 17;
    if (!within(body->target, 1e30) || !within(body->density, 1e30)) return 17;
    if (floats < mesh->count) return 8;
    if (room < rule_needed(body->g)) return 9;
    double min[3], max[3], cell[3], g = body->g, shortest = INFINITY, raw[2] = {0, 0}, scale[2] = {1, 1};
    for (int a = 0; a < 3; a++) shortest = fmin(shortest, mesh->to[a] - mesh->from[a]);
    for (int a = 0; a < 3; a++) {
        min[a] = mesh->from[a] - 0.5 * shortest / g;
        max[a] = mesh->to[a] + 0.5 * shortest / g;
        cell[a] = (max[a] - min[a]) / g;
    }
    double volume = cell[0] * cell[1] * cell[2];
    for (int a = 0; a < 3; a++)
        if (!((float)min[a] < (float)max[a])) return 19;
    uint64_t count = 0, most = (cube(body->g) + 1) / 2;
    bool large = false; // said after 18
    for (uint32_t z = 0; z < body->g; z++)
        for (uint32_t y = 0; y < body->g; y++)
            for (uint32_t x = 0; x < body->g; x++) {
                double point[3] = {min[0] + (x + 0.5) * cell[0], min[1] + (y + 0.5) * cell[1], min[2] + (z + 0.5) * cell[2]};
                if (!rule_is_inside(mesh, point)) continue;
                if (count == most) return 18;
                uint8_t *record = want + 64 + 16 * count++;
                set16(record, (uint16_t)x);
                set16(record + 2, (uint16_t)y);
                set16(record + 4, (uint16_t)z);
                set16(record + 6, 0);
                for (int k = 0; k < 2; k++) {
                    double mass = rule_density(body->kernels[k], body->kernels_length[k], point) * volume;
                    raw[k] += mass;
                    large |= !put_float(record + 8 + 4 * k, mass);
                }
            }
    for (int k = 0; k < 2; k++)
        if (body->target > 0 && fabs(raw[k]) > 1e-30) scale[k] = body->target / raw[k];
    const uint32_t words[] = {MARK, 1, body->g, (uint32_t)count};
    memcpy(want, words, 16);
    const double floats_at_16[] = {body->density, volume, scale[0], 0, min[0], min[1], min[2], max[0], max[1], max[2], raw[0], raw[1]};
    for (int i = 0; i < 12; i++) large |= !put_float(want + 16 + 4 * i, floats_at_16[i]);
    uint8_t factors[8];
    for (int k = 0; k < 2; k++) large |= !put_float(factors + 4 * k, scale[k]);
    if (large) return 20;
    for (uint64_t i = 0; i < count; i++)
        for (int k = 0; k < 2; k++) {
            uint8_t *mass = want + 64 + 16 * i + 8 + 4 * k;
            setf(mass, getf(mass) * getf(factors + 4 * k));
            if (!finite_bits(get32(mass))) return 20;
        }
    return 64 + 16 * count;
}

#endif
