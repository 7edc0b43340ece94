/* Wachsanker's exported calls (libmascon.a). Slices pass as pointer and element count.

   Of every call:
   - A buffer that is written overlaps no other; those that are only read may be the same. A pointer may be NULL where its length is 0.
   - The processor's floating-point mode is that of program start (x86-64: MXCSR 0x1f80, whatever its six flags): round to nearest, no
     flush-to-zero, no denormals-are-zero, exceptions masked. A program that gcc links with -ffast-math starts in another one, 0x9fc0.
     In another mode nothing that is said here is promised: answers and written numbers differ, and an exception that is not masked
     traps. The x87 mode plays no part.
   - It keeps nothing for the next: threads may call at once on different buffers, and share those that are only read.
   - It takes less than 32 KiB of stack. */
#ifndef MASCON_H
#define MASCON_H

#include <stddef.h>
#include <stdint.h>

/* The version of these declarations, the Rust crate's. While the first number is 0, the second changes where a call is new, is declared otherwise
   or answers otherwise. */
#define MASCON_VERSION "0.5.0"
#define MASCON_VERSION_MAJOR 0
#define MASCON_VERSION_MINOR 5
#define MASCON_VERSION_PATCH 0

#ifdef __cplusplus
extern "C" {
#endif

/* The causes of a refusal, by the numbers that the calls answer. All are below 64, every length written is 64 or more. */
enum MasconCause {
    MASCON_FILE_TOO_SHORT = 1, /* file under 64 bytes */
    MASCON_NOT_POINT_FILE = 2, /* word 0 or version wrong */
    MASCON_GRID_OUT_OF_RANGE = 3, /* grid is 0 or above 256 */
    MASCON_RECORDS_MISSING = 4, /* fewer records than the header counts */
    MASCON_BAD_HEADER_FLOAT = 5, /* a header float is not finite, or box min is not below max on an axis */
    MASCON_COORDINATE_OUT_OF_GRID = 6, /* a coordinate at or above the grid */
    MASCON_MASS_NOT_FINITE = 7, /* a mass that is not finite */
    MASCON_SCRATCH_TOO_SHORT = 8, /* scratch too short */
    MASCON_OUTPUT_TOO_SHORT = 9, /* output too short */
    MASCON_NOT_WORKING_FORM = 10, /* not in working form */
    MASCON_BAD_JOURNAL = 11, /* journal without words, with wrong top bits or count, or with entries missing */
    MASCON_EMPTY_CELL = 12, /* the cell is empty */
    MASCON_JOURNAL_FULL = 13, /* journal full */
    MASCON_NO_ROOM = 14, /* no room for a new record */
    MASCON_NOTHING_TO_UNDO = 15, /* nothing to undo */
    MASCON_BAD_LAST_ENTRY = 16, /* an entry of the journal is malformed or does not fit its cell */
    MASCON_OUT_OF_BOUNDS = 17, /* a list's length or a number outside its bounds */
    MASCON_TOO_MANY_POINTS = 18, /* more inside points than half the cells, rounded up */
    MASCON_FLAT_BOX = 19, /* box min is not below max after narrowing to binary32 */
    MASCON_NOT_FINITE = 20, /* a float to be written is not finite */
    MASCON_CELL_TWICE = 21, /* two records name one cell */
    MASCON_FLOAT_TOO_LARGE = 22 /* a float of the tree is too large */
};

/* The pattern of the binary32 nearest to x, ties to even, a finite one: below 2^32. Or 2^32 where x is too large: from magnitude
   2^128 - 2^103 up, an infinity, a NaN. Every x has an answer. */
uint64_t mascon_narrow(double x);

/* Whether a point lies inside a mesh: an odd number of the crossings of its ray along +X remains once near ones are thinned.
   triangles: 72 bytes each, the corners a, b, c as little-endian binary64 x, y, z; floats: scratch, one per triangle.
   Answers 0 outside, 1 inside, or the cause of a refusal: 17 a list that ends inside a triangle, not 1 to 2^20 triangles, a coordinate
   above 1e6 in magnitude or no number, or the point's above 4e6; 8 fewer floats than triangles.
   triangles is only read. A refusal changes no float; they are free otherwise. The two do not overlap. */
uint64_t mascon_inside(const uint8_t *triangles, size_t triangles_length, double x, double y, double z,
                       double *floats, size_t floats_length);

/* Fills a mesh: the point file of the cells, g to an axis, whose middle lies inside, into out, in cell order, each with its two masses,
   density times cell volume, by the two lists of kernels.
   triangles and floats as in mascon_inside; a kernel is 40 bytes: centre x, y, z, sigma, weight w, as little-endian binary64, and adds
   w / (1 + sigma^2 d^2) at distance d. Where target_mass is above 0, the masses of each list are scaled so that they add up to it.
   Answers the length written, 64 + 16 per point, or a number below 64, the cause of a refusal, in this order:
   3 g not 1 to 256; 17 a list that ends inside an entry, not 1 to 2^20 triangles, above 4,096 kernels, a coordinate or centre above 1e6 in
   magnitude, sigma not 0 to 1e6, w, target_mass or constant_density above 1e30 in magnitude, any of them no number; 8 fewer floats than
   triangles; 9 out under 64 + 16 * ((g^3 + 1) / 2) bytes; 19 the padded box is flat in binary32; 18 more points than half the cells,
   rounded up; 20 a float to be written is not finite.
   18 and 20 zero the whole of out; any other refusal changes no byte of it, and 3, 17 and 8 no float. Else out past the length is as it
   was; the lists are only read; floats are free. None of the five overlaps another, but lists that are only read may be the same. */
uint64_t mascon_fill(uint32_t g, const uint8_t *triangles, size_t triangles_length,
                     const uint8_t *cauchy_kernels, size_t cauchy_kernels_length,
                     const uint8_t *elliptic_kernels, size_t elliptic_kernels_length,
                     double target_mass, double constant_density, double *floats, size_t floats_length,
                     uint8_t *out, size_t out_length);

/* Opens a point file: its working form (one record per occupied cell, ascending by cell number, pad 0) into out, journal[0] = 0.
   Answers the length written, 64 + 16 per occupied cell, or a number below 64, the cause of a refusal:
   1 under 64 bytes, 2 word 0 or version, 3 grid, 4 records missing, 5 a header float, 6 a coordinate, 7 a mass,
   8 scratch under grid^3 words, 21 two records name one cell, 9 out too short, 13 no journal word, in this order.
   A refusal changes no byte of out and journal, and none of scratch where it is 1 to 8. out past the length, and the journal past
   its first word, are as they were; file is only read; scratch is free otherwise. The four do not overlap. */
uint64_t mascon_open(const uint8_t *file, size_t file_length, uint32_t *scratch, size_t scratch_length,
                     uint8_t *out, size_t out_length, uint32_t *journal, size_t journal_length);

/* Folds a point file in which records may name one cell: the later of them counts. Its working form into out, as mascon_open writes it, but
   without a journal; a file without such records is sorted the same way.
   Answers the length written, 64 + 16 per occupied cell, or a number below 64, the cause of a refusal: 1 to 7 as in mascon_open, 8 scratch
   under grid^3 words, 9 out too short.
   A refusal changes no byte of out, and none of scratch where it is 1 to 8. out past the length is as it was; file is only read; scratch is
   free otherwise. The three do not overlap. */
uint64_t mascon_fold(const uint8_t *file, size_t file_length, uint32_t *scratch, size_t scratch_length,
                     uint8_t *out, size_t out_length);

/* Puts masses into a cell of a file in working form, over its record or as a new one, and enters that in the journal. file is the whole
   buffer that open wrote into, journal the one that it set.
   Answers the file's length afterwards, 64 + 16 per occupied cell, or a number below 64, the cause of a refusal, in this order:
   1 to 7 of the file as in mascon_open, 10 not in working form, 11 no journal word, a count above 2^24 or its entries missing,
   6 a coordinate at or above grid, 7 a mass not finite, 13 no three words for an entry, or 2^24 entries, 14 no room for a new record.
   A new record needs 16 bytes past the file's length, a put over a record none; e entries take 1 + 3 * e words.
   A refusal changes no byte of file and journal. Else the cell's record has these masses, a new one stands in its place with the later
   ones 16 bytes further up, and the count at byte 12 is theirs; journal[0] is one more, and the entry's three words follow the others:
   kind << 30 | cell number (kind 1 into an empty cell, 2 over a record), then the masses that the cell held before, 0 and 0 for kind 1.
   All else is as it was. The two do not overlap. */
uint64_t mascon_put(uint8_t *file, size_t file_length, uint32_t *journal, size_t journal_length,
                    uint32_t x, uint32_t y, uint32_t z, float cauchy, float elliptic);

/* Removes the record of a cell from a file in working form and enters that in the journal; both as in mascon_put.
   Answers the file's length afterwards, or a number below 64, the cause of a refusal, in this order:
   1 to 7, 10, 11 as in mascon_put, 6 a coordinate at or above grid, 12 the cell is empty, 13 no three words for an entry, or 2^24 entries.
   It needs no spare byte. A refusal changes no byte of file and journal. Else the later records stand 16 bytes further down, the 16 bytes
   freed are 0, and the count is one less; journal[0] is one more, and the entry is of kind 3 with the masses that the cell held.
   All else is as it was. The two do not overlap. */
uint64_t mascon_remove(uint8_t *file, size_t file_length, uint32_t *journal, size_t journal_length,
                       uint32_t x, uint32_t y, uint32_t z);

/* Undoes the last put or remove that the journal has: the cell holds again what it held before. Both as in mascon_put.
   Answers the file's length afterwards, or a number below 64, the cause of a refusal, in this order:
   1 to 7, 10, 11 as in mascon_put, 15 no entry, 16 a last entry that is malformed or does not fit the cell, 14 no room for the record.
   After an open, with both buffers changed by these calls alone and lent whole, 15 is its only refusal (a removed record has left the room
   that it needs), and with no entry left the file is as open wrote it, up to its length.
   A refusal changes no byte of file and journal. Else the record is gone, back, or has its masses again, the later ones and the count as in
   mascon_put and mascon_remove; journal[0] is one less, and the entry's three words are 0. All else is as it was.
   The two do not overlap. */
uint64_t mascon_undo(uint8_t *file, size_t file_length, uint32_t *journal, size_t journal_length);

/* What build answers: the length written or a refusal's cause, then how many nodes and order words the tree has, 0 at a refusal. */
typedef struct {
    uint64_t answer, nodes, order;
} MasconBuilt;

/* Builds the tree of a point file, in working form or not, into out: 64 bytes of header, 80 a node, 4 an occupied cell.
   Answers the length written, 64 + 80 * nodes + 4 * order, or a number below 64, the cause of a refusal:
   1 under 64 bytes, 2 word 0 or version, 3 grid, 4 records missing, 5 a header float, 6 a coordinate, 7 a mass,
   8 scratch too short, 21 two records name one cell, 22 a float of the tree is too large, 9 out too short, in this order.
   scratch: of a file in working form, records strictly ascending by cell number and each pad 0, 2 * ((grid^3 + 31) / 32) words (2 at
   grid 1, 1,048,576 at 256); of any other file grid^3. What mascon_open, mascon_fold, mascon_fill, mascon_write_costliest and the edits
   leave is in working form. The tree is the same from either size and any greater one.
   The bytes that mascon_costliest answers for the grid are always enough.
   22 is about the fifteen floats of every node, box centre, half, both sums of masses and the three centres of mass: one of them is too
   large as in mascon_narrow, be out long enough or not. So every float that is written is finite.
   A refusal changes no byte of out, and none of scratch where it is 1 to 8. out past the length is as it was; file is only read;
   scratch is free otherwise. The three do not overlap. */
MasconBuilt mascon_build(const uint8_t *file, size_t file_length, uint32_t *scratch, size_t scratch_length,
                         uint8_t *out, size_t out_length);

/* What costliest answers: 0 or a refusal's cause, then a node count and the length of the tree that has it, 0 at a refusal. */
typedef struct {
    uint64_t answer, nodes, bytes;
} MasconCost;

/* The most costly model of a grid, so that output can be reserved before there is a file: the greatest node count of a tree with g cells
   to an axis, and that tree's length, 64 + 80 * nodes + 4 * g^3.
   Answers 0 with both numbers, or 3, its only refusal, where g is not 1 to 256.
   Every file of this grid that 1 to 7 accept has at most so many nodes and bytes in its tree, so that mascon_build, lent so many bytes of
   output, never answers 9. The file that mascon_write_costliest writes has exactly so many. */
MasconCost mascon_costliest(uint32_t g);

/* Writes the point file of that model into out: every cell in working form, all masses 1, the box from 0 to 1 on each axis, bytes 16 to
   31 (density, cell volume, scale) and 56 to 63 (raw sums) zero.
   Answers the length written, 64 + 16 * g^3, or a number below 64, the cause of a refusal, in this order: 3 g not 1 to 256; 9 out under
   that length.
   mascon_open and mascon_build, lent enough, accept the file: neither 21 nor 22 is against it.
   A refusal changes no byte of out. out past the length is as it was. */
uint64_t mascon_write_costliest(uint32_t g, uint8_t *out, size_t out_length);

#ifdef __cplusplus
}
#endif

#endif
