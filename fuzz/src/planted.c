// A library that misbehaves: the calls are wrapped by the linker (--wrap) and one fault, FAULT, is planted in what they do.
#include "../../include/mascon.h"
#include <math.h>
#include <string.h>

static uint32_t word(const uint8_t *at) { uint32_t v; memcpy(&v, at, 4); return v; }
static void set_word(uint8_t *at, uint32_t v) { memcpy(at, &v, 4); }
static int fault(int n) { return FAULT == n; }

static uint64_t cells(uint32_t g) { return (uint64_t)g * g * g; }

// Whether a file has as many records as its grid has cells, more than one.
static int full(const uint8_t *file) { return word(file + 8) > 1 && word(file + 12) == cells(word(file + 8)); }

// Whether a record names the cell of the one before it.
static int neighbours(const uint8_t *file) {
    for (const uint8_t *record = file + 80; record < file + 64 + 16ull * word(file + 12); record += 16)
        if (memcmp(record, record - 16, 6) == 0) return 1;
    return 0;
}

static uint32_t half(const uint8_t *at) { return at[0] | (uint32_t)at[1] << 8; }

// A record's cell number, the coordinate at byte `slowest` of it counted slowest: z, at 4, as it is, or x, at 0.
static uint32_t number(const uint8_t *file, uint64_t i, int slowest) {
    const uint8_t *record = file + 64 + 16 * i;
    return (half(record + slowest) * word(file + 8) + half(record + 2)) * word(file + 8) + half(record + 4 - slowest);
}

// Whether so many records have numbers that go up, each by so much at least.
static int ascending(const uint8_t *file, uint64_t n, uint32_t by, int slowest) {
    for (uint64_t i = 1; i < n; i++)
        if (number(file, i, slowest) < number(file, i - 1, slowest) + by) return 0;
    return 1;
}

// Whether so many records have no pad.
static int unpadded(const uint8_t *file, uint64_t n) {
    for (uint64_t i = 0; i < n; i++)
        if (half(file + 64 + 16 * i + 6)) return 0;
    return 1;
}

static int working(const uint8_t *file, uint64_t n) { return ascending(file, n, 1, 4) && unpadded(file, n); }

// Two words for every 32 cells, rounded up.
static uint64_t marks(const uint8_t *file) { return 2 * ((cells(word(file + 8)) + 31) / 32); }

// Scratch that no caller sees.
#define OWN (1u << 18)
static uint32_t own[OWN];

static double plain(double x) { return x; }
static double negated(double x) { return -x; }

// What a file's masses of one kind, the Cauchy ones at 8 or the elliptic ones at 12, add up to once each is changed so.
static double total(const uint8_t *file, int at, double (*changed)(double)) {
    double sum = 0;
    for (const uint8_t *record = file + 64; record < file + 64 + 16ull * word(file + 12); record += 16) {
        float mass;
        memcpy(&mass, record + at, 4);
        sum += changed(mass);
    }
    return sum;
}

static double greater(const uint8_t *file, double (*changed)(double)) { return fmax(total(file, 8, changed), total(file, 12, changed)); }
static double root_sum(const uint8_t *file) { return fmax(greater(file, plain), greater(file, negated)); } // the greater magnitude
static int large(double x) { return fabs(x) >= 0x1.ffffffp127; }
static int root_large(const uint8_t *file) { return large(root_sum(file)); }

uint64_t __real_mascon_narrow(double x);
uint64_t __wrap_mascon_narrow(double x) {
    uint64_t answer = __real_mascon_narrow(x), bits;
    memcpy(&bits, &x, 8);
    if (fault(1) && (bits & 0x1fffffff) == 0x10000000) answer ^= 1; // ties
    int too_large = answer == 1ull << 32;
    if (fault(48) && too_large && !isnan(x)) answer = bits >> 63 << 31 | 0x7f800000;
    if (fault(49) && isnan(x)) answer = 0x7fc00000;
    if (fault(50) && too_large && fabs(x) < 0x1p128) answer = bits >> 63 << 31 | 0x7f7fffff; // from 2^128 alone
    if (fault(51) && too_large) answer |= bits >> 63 << 31;
    if (fault(52) && (answer & 0x7fffffff) == 0x7f7fffff) answer = 1ull << 32; // the greatest float
    return answer;
}

uint64_t __real_mascon_inside(const uint8_t *triangles, size_t triangles_length, double x, double y, double z, double *floats, size_t floats_length);
uint64_t __wrap_mascon_inside(const uint8_t *triangles, size_t triangles_length, double x, double y, double z, double *floats, size_t floats_length) {
    uint64_t answer = __real_mascon_inside(triangles, triangles_length, x, y, z, floats, floats_length);
    if (fault(2) && answer == 8 && floats_length) floats[0] = 1;
    if (fault(3) && answer == 1 && triangles_length > 72 * 12) answer = 0;
    if (fault(4) && answer <= 1) floats[floats_length] = 0; // past the end
    if (fault(25) && answer <= 1) floats[-1] = 0;
    return answer;
}

// Whether a single kernel, the same everywhere, gives a cell of the mesh's box a mass that is too large.
static int heavy_cells(uint32_t g, const uint8_t *triangles, size_t triangles_length, const uint8_t *kernels, size_t kernels_length) {
    double volume = 1, kernel[5], corner[3];
    if (kernels_length != 40) return 0;
    memcpy(kernel, kernels, 40);
    for (int axis = 0; axis < 3; axis++) {
        double low = INFINITY, high = -INFINITY;
        for (size_t at = 0; at < triangles_length; at += 24) {
            memcpy(corner, triangles + at, 24);
            low = fmin(low, corner[axis]);
            high = fmax(high, corner[axis]);
        }
        volume *= (high - low) / g;
    }
    return kernel[3] == 0 && large(kernel[4] * volume);
}

uint64_t __real_mascon_fill(uint32_t g, const uint8_t *triangles, size_t triangles_length, const uint8_t *cauchy_kernels, size_t cauchy_kernels_length,
                            const uint8_t *elliptic_kernels, size_t elliptic_kernels_length, double target_mass, double constant_density,
                            double *floats, size_t floats_length, uint8_t *out, size_t out_length);
uint64_t __wrap_mascon_fill(uint32_t g, const uint8_t *triangles, size_t triangles_length, const uint8_t *cauchy_kernels, size_t cauchy_kernels_length,
                            const uint8_t *elliptic_kernels, size_t elliptic_kernels_length, double target_mass, double constant_density,
                            double *floats, size_t floats_length, uint8_t *out, size_t out_length) {
    uint64_t answer = __real_mascon_fill(g, triangles, triangles_length, cauchy_kernels, cauchy_kernels_length, elliptic_kernels, elliptic_kernels_length,
                                         target_mass, constant_density, floats, floats_length, out, out_length);
    if (fault(5) && answer == 18) out[out_length - 1] = 1; // not all zeroed
    if (fault(6) && answer > 64 && target_mass > 0) out[answer - 1] ^= 0x80;
    if (fault(26) && answer == 20) out[out_length - 1] = 1;
    if (fault(27) && answer == 19) memset(out, 0, out_length);
    if (fault(28) && answer >= 64 && elliptic_kernels_length) ((uint8_t *)elliptic_kernels)[elliptic_kernels_length - 1] ^= 1;
    if (fault(29) && answer == 19) answer = 18;
    if (fault(53) && answer == 18 && heavy_cells(g, triangles, triangles_length, cauchy_kernels, cauchy_kernels_length)) answer = 20;
    return answer;
}

uint64_t __real_mascon_open(const uint8_t *file, size_t file_length, uint32_t *scratch, size_t scratch_length, uint8_t *out, size_t out_length, uint32_t *journal, size_t journal_length);
uint64_t __wrap_mascon_open(const uint8_t *file, size_t file_length, uint32_t *scratch, size_t scratch_length, uint8_t *out, size_t out_length, uint32_t *journal, size_t journal_length) {
    volatile uint8_t seen;
    if (fault(7) && file_length) seen = file[file_length]; // reads past the end
    if (fault(30) && file_length) seen = file[-1];
    uint64_t answer = __real_mascon_open(file, file_length, scratch, scratch_length, out, out_length, journal, journal_length);
    if (fault(8) && answer >= 64 && answer < out_length) out[answer] ^= 1;
    if (fault(9) && answer >= 64 && answer == out_length) out[answer] ^= 1;
    if (fault(10) && answer == 8 && scratch_length) scratch[scratch_length - 1] ^= 1;
    if (fault(11) && answer > 64) answer++;
    if (fault(24) && answer >= 64 && word(file + 12) == 29 && word(file + 8) == 7) out[answer - 1] ^= 1; // one grid and count
    if (fault(12) && answer >= 64 && journal_length > 1) journal[1] = 0;
    if (fault(31) && answer == 9 && journal_length == 0) answer = 13;
    if (fault(35) && answer == 21 && journal_length == 0) answer = 13;
    if (fault(36) && answer == 21 && !neighbours(file)) answer = mascon_fold(file, file_length, scratch, scratch_length, out, out_length);
    if (fault(54) && answer >= 64 && root_large(file)) answer = 22;
    if (fault(102) && answer >= 64 && full(file)) answer = 21;
    if (fault(128) && answer == 8 && scratch_length >= marks(file) && working(file, word(file + 12)))
        answer = __real_mascon_open(file, file_length, own, OWN, out, out_length, journal, journal_length);
    (void)seen;
    return answer;
}

uint64_t __real_mascon_fold(const uint8_t *file, size_t file_length, uint32_t *scratch, size_t scratch_length, uint8_t *out, size_t out_length);
uint64_t __wrap_mascon_fold(const uint8_t *file, size_t file_length, uint32_t *scratch, size_t scratch_length, uint8_t *out, size_t out_length) {
    uint64_t answer = __real_mascon_fold(file, file_length, scratch, scratch_length, out, out_length);
    uint32_t n = answer >= 64 || answer == 9 ? word(file + 12) : 0;
    if (fault(37) && answer >= 64 && word(out + 12) < n) answer = 21;
    if (fault(38) && answer >= 64 && out_length < 64 + 16ull * n) answer = 9; // by the records
    if (fault(39) && answer >= 64) memcpy(out + 12, file + 12, 4);
    if (fault(40) && answer > 64 && n == 1) memcpy(out + 70, file + 70, 2);
    if (fault(41) && answer == 80 && n > 1) memcpy(out + 72, file + 72, 8); // the first record's masses
    if (fault(42) && answer >= 64) memset(out + 56, 0, 8);
    if (fault(43) && answer == 8 && scratch_length) scratch[0] ^= 1;
    if (fault(44) && answer == 9 && out_length) out[out_length - 1] ^= 1;
    if (fault(129) && answer == 8 && scratch_length >= marks(file) && working(file, word(file + 12)))
        answer = __real_mascon_fold(file, file_length, own, OWN, out, out_length);
    return answer;
}

uint64_t __real_mascon_put(uint8_t *file, size_t file_length, uint32_t *journal, size_t journal_length, uint32_t x, uint32_t y, uint32_t z, float cauchy, float elliptic);
uint64_t __wrap_mascon_put(uint8_t *file, size_t file_length, uint32_t *journal, size_t journal_length, uint32_t x, uint32_t y, uint32_t z, float cauchy, float elliptic) {
    uint64_t answer = __real_mascon_put(file, file_length, journal, journal_length, x, y, z, cauchy, elliptic);
    if (fault(13) && answer >= 64 && journal[3 * journal[0] - 2] >> 30 == 2) journal[3 * journal[0]] = 0; // the mass before is lost
    if (fault(14) && answer == 14) journal[0] = 0;
    if (fault(45) && answer == 10 && neighbours(file)) answer = 21;
    if (fault(32) && answer == 13 && file_length < 80 + 16ull * word(file + 12)) answer = 14;
    if (fault(55) && answer >= 64 && root_large(file)) answer = 22;
    if (fault(23) && answer >= 64 && x == 5 && y == 1 && z == 4 && cauchy == 3.0f) file[24] ^= 1; // one cell and mass
    return answer;
}

uint64_t __real_mascon_remove(uint8_t *file, size_t file_length, uint32_t *journal, size_t journal_length, uint32_t x, uint32_t y, uint32_t z);
uint64_t __wrap_mascon_remove(uint8_t *file, size_t file_length, uint32_t *journal, size_t journal_length, uint32_t x, uint32_t y, uint32_t z) {
    uint64_t answer = __real_mascon_remove(file, file_length, journal, journal_length, x, y, z);
    if (fault(15) && answer >= 64) file[answer] = 1; // a freed byte not 0
    if (fault(16) && answer == 12) answer = 13;
    return answer;
}

// Whether build refused by 22, 1, and something was undone since, 2.
static int refused_by_22;

uint64_t __real_mascon_undo(uint8_t *file, size_t file_length, uint32_t *journal, size_t journal_length);
uint64_t __wrap_mascon_undo(uint8_t *file, size_t file_length, uint32_t *journal, size_t journal_length) {
    uint64_t answer = __real_mascon_undo(file, file_length, journal, journal_length);
    if (fault(17) && answer > 64 + 16) { // the last record is lost
        set_word(file + 12, word(file + 12) - 1);
        answer -= 16;
    }
    if (fault(33) && answer == 16 && file_length < 80 + 16ull * word(file + 12)) answer = 14;
    if (answer >= 64 && refused_by_22) refused_by_22 = 2;
    if (fault(18) && answer >= 64 && journal[0] >= 3) file[answer - 1] ^= 1; // only with three entries left
    return answer;
}

// The words of scratch that build wants for a judged file by a fault.
static uint64_t wanted(const uint8_t *file, size_t file_length) {
    uint64_t n = word(file + 12), each = cells(word(file + 8));
    int is = working(file, n);
    if (fault(104)) return each;
    if (fault(105)) return marks(file);
    if (fault(106)) return is ? (2 * each + 31) / 32 : each; // two bits a cell
    if (fault(107)) return is ? each / 32 * 2 : each; // rounded down
    if (fault(108)) return is && marks(file) < each ? marks(file) : each; // the lesser
    if (fault(109)) is = is && n > 0;
    if (fault(110)) is = ascending(file, n, 1, 4);
    if (fault(111)) is = unpadded(file, n);
    if (fault(112)) is = ascending(file, n, 0, 4) && unpadded(file, n); // a cell twice
    if (fault(113)) is = working(file, (file_length - 64) / 16); // the bytes past n
    if (fault(114)) is = n == 0 || working(file, n - 1);
    if (fault(115)) is = ascending(file, n, 1, 0) && unpadded(file, n);
    return is ? marks(file) : each;
}

// How far an order word is off by a fault, where it names this cell.
static uint32_t off(const uint8_t *file, uint32_t cell) {
    uint32_t before = 0; // records in the words before its own
    if (fault(121)) return cell == 31;
    if (fault(122)) return cell == 32;
    if (fault(123)) return cell == 63;
    if (fault(124)) return cell == 64;
    if (fault(125))
        for (uint64_t i = 0; i < word(file + 12); i++) before += number(file, i, 4) < cell / 32 * 32;
    return -before;
}

MasconBuilt __real_mascon_build(const uint8_t *file, size_t file_length, uint32_t *scratch, size_t scratch_length, uint8_t *out, size_t out_length);
// A good file in working form without the rows that a fault of the search takes for empty.
static const uint8_t *searched(const uint8_t *file, size_t file_length) {
    static uint8_t thinned[1 << 20];
    if (FAULT < 130 || FAULT > 131 || file_length > sizeof thinned) return file;
    if (__real_mascon_build(file, file_length, own, OWN, NULL, 0).answer != 9 || !working(file, word(file + 12))) return file;
    uint64_t g = word(file + 8), kept = 0, row = UINT64_MAX;
    int lost = 0;
    memcpy(thinned, file, file_length);
    for (uint64_t i = 0; i < word(file + 12); i++) {
        uint64_t cell = number(file, i, 4), x = cell % g;
        if (cell / g != row) lost = fault(130) ? (cell - x) / 32 != cell / 32 : x == g - 1; // of each row its first mark
        row = cell / g;
        if (!lost) memcpy(thinned + 64 + 16 * kept++, file + 64 + 16 * i, 16);
    }
    set_word(thinned + 12, kept);
    return thinned;
}

MasconBuilt __wrap_mascon_build(const uint8_t *file, size_t file_length, uint32_t *scratch, size_t scratch_length, uint8_t *out, size_t out_length) {
    MasconBuilt built = __real_mascon_build(searched(file, file_length), file_length, scratch, scratch_length, out, out_length);
    MasconBuilt other = {out_length < 144 ? 9 : 144, 1, 0}; // for 22
    if (fault(19) && built.answer >= 64 && built.nodes > 1) built.nodes--;
    if (fault(20) && built.answer >= 64 && built.order > 8) { // two order words exchanged
        uint32_t last = word(out + built.answer - 4), before = word(out + built.answer - 8);
        set_word(out + built.answer - 4, before);
        set_word(out + built.answer - 8, last);
    }
    if (fault(21) && built.answer == 9 && out_length) out[0] ^= 1;
    if (fault(46) && built.answer == 21 && out_length < 144) built.answer = 9;
    if (fault(47) && built.answer == 21 && out_length) out[0] ^= 1;
    if (fault(34) && built.answer == 9) built.nodes = built.order = 1;
    if (fault(56) && built.answer == 22 && out_length < 144) built.answer = 9;
    if (fault(57) && built.answer == 22 && out_length) out[out_length - 1] ^= 1;
    if (fault(58) && built.answer == 22) built.nodes = built.order = 1;
    if (fault(59) && built.answer == 21 && root_large(file)) built.answer = 22;
    if (fault(60) && built.answer == 8 && root_large(file)) built.answer = 22;
    if (fault(61) && built.answer == 22 && !root_large(file) && large(greater(file, fabs))) return other; // a child's sum
    if (fault(62) && built.answer == 22 && !large(greater(file, fabs))) return other;                     // a centre
    if (fault(63) && built.answer == 22 && !large(total(file, 8, fabs))) return other;
    if (fault(64) && built.answer == 22 && root_large(file) && greater(file, plain) < 0x1p127) return other;
    if (fault(65) && built.answer == 22 && root_large(file) && root_sum(file) < 0x1p128) return other;
    if (fault(66) && built.answer >= 64 && root_sum(file) >= 0x1.fffffep127) built.answer = 22;
    if (fault(67) && built.answer >= 64 && large(greater(file, fabs))) built.answer = 22; // by the magnitudes
    if (fault(68) && built.answer >= 64 && refused_by_22 == 2) built.answer = 22;
    if (built.answer != 8) refused_by_22 = built.answer == 22;
    if (fault(103) && built.answer == out_length && full(file)) built = (MasconBuilt){9, 0, 0};
    if (FAULT >= 104 && FAULT <= 115 && built.answer > 7) {
        if (scratch_length < wanted(file, file_length))
            built = (MasconBuilt){8, 0, 0};
        else if (built.answer == 8)
            built = __real_mascon_build(file, file_length, own, OWN, out, out_length);
    }
    int in_form = built.answer > 7 && working(file, word(file + 12));
    if (fault(116) && built.answer == 8 && scratch_length) scratch[scratch_length - 1] ^= 1;
    if (fault(117) && built.answer == 8 && in_form) memset(scratch, 0, 4 * scratch_length);
    if (fault(118) && built.answer == 7 && scratch_length) scratch[0] ^= 1;
    if (fault(119) && built.answer == 7 && scratch_length < marks(file)) built.answer = 8;
    if (fault(120) && built.answer == 8 && neighbours(file)) built.answer = 21;
    if (FAULT >= 121 && FAULT <= 125 && built.answer >= 64 && in_form)
        for (uint8_t *at = out + 64 + 80 * built.nodes; at < out + built.answer; at += 4) set_word(at, word(at) + off(file, number(file, word(at), 4)));
    if (fault(126) && built.answer >= 64 && scratch_length == marks(file) && cells(word(file + 8)) % 32 == 0) scratch[scratch_length] = built.order;
    if (fault(127) && built.order > 1 && in_form && scratch_length >= cells(word(file + 8))) set_word(out + built.answer - 4, word(out + built.answer - 8));
    if (fault(22) && built.answer >= 64 && file_length > 64) ((uint8_t *)file)[28] ^= 1; // what is only read
    return built;
}

static MasconCost cost_of(uint32_t g, uint64_t nodes) { return (MasconCost){0, nodes, 64 + 80 * nodes + 4 * cells(g)}; }

MasconCost __real_mascon_costliest(uint32_t g);
MasconCost __wrap_mascon_costliest(uint32_t g) {
    MasconCost cost = __real_mascon_costliest(fault(69) ? (uint16_t)g : g); // the grid's low 16 bits
    int accepted = cost.answer == 0;
    if (fault(70) && g == 77) return cost_of(g, cost.nodes + 2); // one grid
    if (fault(71) && accepted) return cost_of(g, 2 * cells(g) - 1); // every cell a leaf
    if (fault(72) && accepted) return cost_of(g, 2 * ((cells(g) + 7) / 8) - 1); // every leaf full
    if (fault(73) && accepted) cost.bytes -= 64;
    if (fault(74) && accepted) cost.bytes -= 4 * cells(g);
    if (fault(75) && accepted) cost.answer = cost.bytes;
    if (fault(76) && g == 256) cost = (MasconCost){3, 0, 0};
    if (fault(77) && g == 257) cost = __real_mascon_costliest(256);
    if (fault(78) && !accepted) cost.nodes = cost.bytes = 1;
    return cost;
}

// Exchanges x and z of every record of a file with every cell.
static void z_fastest(uint8_t *file, uint64_t length) {
    for (uint8_t *record = file + 64; record < file + length; record += 16) {
        uint8_t x = record[0];
        record[0] = record[4];
        record[4] = x;
    }
}

uint64_t __real_mascon_write_costliest(uint32_t g, uint8_t *out, size_t out_length);
uint64_t __wrap_mascon_write_costliest(uint32_t g, uint8_t *out, size_t out_length) {
    const uint64_t need = 64 + 16 * cells(g);
    if (fault(79) && out_length == need) return 9; // a byte too early
    uint64_t answer = __real_mascon_write_costliest(fault(80) ? (uint16_t)g : g, out, out_length);
    int written = answer >= 64;
    if (fault(81) && answer == 3 && out_length < 64) answer = 9;
    if (fault(82) && answer == 9 && out_length == need - 1) answer = need;
    if (fault(83) && g == 256) answer = 3;
    if (fault(84) && g == 257) answer = 9;
    if (fault(85) && answer == 3 && out_length) out[out_length - 1] ^= 1;
    if (fault(86) && answer == 9 && out_length) out[0] ^= 1;
    if (fault(87) && written && answer < out_length) out[answer] ^= 1;
    if (fault(88) && written && answer == out_length) out[answer] ^= 1;
    if (fault(89) && written) answer -= 16;
    if (fault(90) && written) memset(out + answer - 16, 0, 16); // the last record
    if (fault(91) && written) set_word(out + 12, g);
    if (fault(92) && written) set_word(out + 12, (uint16_t)cells(g));
    if (fault(93) && written) set_word(out + 4, 2); // a tree's version
    if (fault(94) && written) memmove(out + 40, out + 44, 16); // the box's max a float too early
    if (fault(95) && written) out[28] = 1;
    if (fault(96) && written) set_word(out + 20, 0x3f800000); // a cell volume
    if (fault(97) && written) memset(out + 56, 1, 8); // raw sums
    if (fault(98) && written) set_word(out + answer - 4, 0); // a mass
    if (fault(99) && written) out[answer - 10] = 1; // a pad
    if (fault(100) && written) z_fastest(out, answer);
    if (fault(101) && written && g == 11) out[answer - 1] ^= 1; // one grid
    return answer;
}
