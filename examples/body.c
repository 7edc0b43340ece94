/* A body from mesh to tree through the C boundary: output reserved, filled, opened, edited, undone and built.
     tools/staticlib
     cc -std=c99 -Iinclude examples/body.c -o body target/staticlib/libmascon.a
   It prints what was made and exits with 0, or says which call was refused and why, and exits with 1. */
#include "mascon.h"

#include <stdio.h>
#include <stdlib.h>
#include <string.h>

/* What the example may meet; a program that reads files has more causes to tell. */
static const char *words(uint64_t cause) {
    switch (cause) {
    case MASCON_GRID_OUT_OF_RANGE: return "the grid is 0 or above 256";
    case MASCON_EMPTY_CELL: return "the cell is empty";
    case MASCON_NOTHING_TO_UNDO: return "nothing to undo";
    case MASCON_OUT_OF_BOUNDS: return "a list or a number outside its bounds";
    case MASCON_TOO_MANY_POINTS: return "the body fills more than half of its box";
    case MASCON_NO_ROOM: return "no room for a new record";
    case MASCON_FLOAT_TOO_LARGE: return "masses add up to more than a float holds, or cancel";
    default: return "see enum MasconCause";
    }
}

/* The end of the program with the cause of a refusal. */
static void stop(const char *call, uint64_t cause) {
    fprintf(stderr, "%s: refused %llu: %s\n", call, (unsigned long long)cause, words(cause));
    exit(1);
}

/* A length, else the end. */
static size_t length(const char *call, uint64_t answer) {
    if (answer < 64) {
        stop(call, answer);
    }
    return (size_t)answer;
}

static void *room(size_t bytes) {
    void *buffer = calloc(bytes, 1);
    if (buffer == NULL) {
        fprintf(stderr, "no memory for %zu bytes\n", bytes);
        exit(1);
    }
    return buffer;
}

static uint32_t count(const uint8_t *file) {
    uint32_t n;
    memcpy(&n, file + 12, sizeof n);
    return n;
}

/* An octahedron, 400, 300 and 250 m from its middle to its corners: it fills a sixth of its box. */
static void octahedron(double mesh[8][9]) {
    const double reach[3] = {400.0, 300.0, 250.0};
    for (int side = 0; side < 8; side++) {
        memset(mesh[side], 0, sizeof mesh[side]);
        for (int axis = 0; axis < 3; axis++) {
            mesh[side][3 * axis + axis] = (side >> axis & 1) != 0 ? -reach[axis] : reach[axis];
        }
    }
}

int main(void) {
    enum { GRID = 24, CELLS = GRID * GRID * GRID, EDITS = 100 };
    double mesh[8][9];
    const double kernel[5] = {50.0, 0.0, 0.0, 0.004, 1900.0}; /* centre, sigma, w */
    octahedron(mesh);

    /* Reserved, before there is a file: no tree of this grid is longer. */
    MasconCost cost = mascon_costliest(GRID);
    if (cost.answer != 0) {
        stop("costliest", cost.answer);
    }
    size_t tree_length = (size_t)cost.bytes;
    uint8_t *tree = room(tree_length);
    printf("reserved: %llu nodes, %zu bytes\n", (unsigned long long)cost.nodes, tree_length);

    /* Filled: at most half the cells, rounded up, hold a point. */
    size_t most = 64 + 16 * ((CELLS + 1) / 2);
    double floats[8];
    uint8_t *filled = room(most);
    size_t filled_length = length("fill", mascon_fill(GRID, (const uint8_t *)mesh, sizeof mesh, (const uint8_t *)kernel, sizeof kernel,
                                                      (const uint8_t *)kernel, sizeof kernel, 2.0e11, 1900.0, floats, 8, filled, most));

    /* Opened, with a word of scratch per cell, room for as many new records as edits, and for their entries in the journal. */
    uint32_t *scratch = room(CELLS * sizeof *scratch);
    size_t file_length = filled_length + 16 * EDITS;
    uint8_t *file = room(file_length);
    size_t journal_length = 1 + 3 * EDITS;
    uint32_t *journal = room(journal_length * sizeof *journal);
    length("open", mascon_open(filled, filled_length, scratch, CELLS, file, file_length, journal, journal_length));
    printf("filled and opened: %u points\n", count(file));

    /* A boulder on top, a void in the middle; then the last edit is undone. */
    length("put", mascon_put(file, file_length, journal, journal_length, 12, 12, 23, 9.0e8f, 9.0e8f));
    length("remove", mascon_remove(file, file_length, journal, journal_length, 12, 12, 12));
    printf("edited: %u points, %u edits to undo\n", count(file), journal[0]);
    size_t now = length("undo", mascon_undo(file, file_length, journal, journal_length));
    printf("undone: %u points, %u edits to undo\n", count(file), journal[0]);

    /* A refusal changes nothing. */
    uint64_t refused = mascon_remove(file, file_length, journal, journal_length, 0, 0, 0);
    printf("remove 0 0 0: refused %llu: %s\n", (unsigned long long)refused, words(refused));
    if (refused != MASCON_EMPTY_CELL) {
        return 1;
    }

    /* Built: 64 bytes of header, 80 a node, 4 an occupied cell. What fill, open and the edits leave is in working form, and for that build needs
       no more scratch than two words per 32 cells, rounded up. */
    MasconBuilt built = mascon_build(file, now, scratch, 2 * ((CELLS + 31) / 32), tree, tree_length);
    size_t bytes = length("build", built.answer);
    printf("tree: %llu nodes, %llu ordered points, %zu bytes\n", (unsigned long long)built.nodes, (unsigned long long)built.order, bytes);

    free(filled);
    free(scratch);
    free(file);
    free(journal);
    free(tree);
    return 0;
}
