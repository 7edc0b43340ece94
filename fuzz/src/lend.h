// Lent buffers: each stands against a page that cannot be touched, with canaries on its other side, and is remembered as it was lent.
#ifndef LEND_H
#define LEND_H

#include <stdarg.h>
#include <stdbool.h>
#include <stddef.h>
#include <stdint.h>
#include <stdio.h>
#include <stdlib.h>
#include <string.h>
#include <sys/mman.h>

#define PAGE 4096u
#define CANARIES 64u

// The call under test, for the message.
static const char *under_test = "";

__attribute__((noreturn, format(printf, 1, 2))) static void fail(const char *why, ...) {
    va_list words;
    va_start(words, why);
    fprintf(stderr, "FAILED %s: ", under_test);
    vfprintf(stderr, why, words);
    fprintf(stderr, "\n");
    va_end(words);
    abort();
}

typedef struct {
    const char *name;
    uint8_t *base; // first byte after the closed page in front
    size_t room;   // bytes up to the closed page behind
    uint8_t *at;   // what is lent
    size_t length; // in bytes
    bool at_end;   // against the page behind
    uint8_t *was;  // its bytes as they were lent
} Lent;

// Bytes that repeat only after a long way, for what stands in a buffer beforehand. Canaries differ from each other, so that one moved over
// another is seen.
static uint8_t junk[1u << 16], canaries[CANARIES];

static void fill_any(uint8_t *bytes, size_t length, uint64_t state) {
    for (size_t i = 0; i < length; i++) {
        state ^= state << 13;
        state ^= state >> 7;
        state ^= state << 17;
        bytes[i] = (uint8_t)(state >> 32);
    }
}

static void make_junk(void) {
    fill_any(junk, sizeof junk, 0x9e3779b97f4a7c15u);
    fill_any(canaries, sizeof canaries, 0xbf58476d1ce4e5b9u);
}

static void make_lent(Lent *lent, const char *name, size_t most) {
    size_t room = (most + CANARIES + PAGE - 1) / PAGE * PAGE;
    uint8_t *pages = mmap(NULL, room + 2 * PAGE, PROT_NONE, MAP_PRIVATE | MAP_ANONYMOUS | MAP_NORESERVE, -1, 0);
    uint8_t *was = malloc(room);
    if (pages == MAP_FAILED || !was || mprotect(pages + PAGE, room, PROT_READ | PROT_WRITE) != 0) {
        fprintf(stderr, "no memory for %s\n", name);
        exit(2);
    }
    *lent = (Lent){.name = name, .base = pages + PAGE, .room = room, .was = was};
}

// Lends so many bytes, junk in them.
static void lend(Lent *lent, size_t length, bool at_end, uint8_t seed) {
    if (length + CANARIES > lent->room) fail("the harness lends %zu bytes of %s", length, lent->name);
    lent->length = length;
    lent->at_end = at_end;
    lent->at = at_end ? lent->base + lent->room - length : lent->base;
    memcpy(at_end ? lent->at - CANARIES : lent->at + length, canaries, CANARIES);
    size_t from = seed * 8u;
    for (size_t done = 0; done < length;) {
        size_t part = sizeof junk - from;
        if (part > length - done) part = length - done;
        memcpy(lent->at + done, junk + from, part);
        done += part;
        from = 0;
    }
}

// What is passed for it with so many of its bytes, words or floats: for none of them, where it does not stand against the page behind, NULL.
static void *given(const Lent *lent, size_t length) { return length || lent->at_end ? lent->at : NULL; }

// Remembers what stands in it now.
static void keep(Lent *lent) { memcpy(lent->was, lent->at, lent->length); }

static void check_canaries(const Lent *lent) {
    const uint8_t *stand = lent->at_end ? lent->at - CANARIES : lent->at + lent->length;
    if (memcmp(stand, canaries, CANARIES) == 0) return;
    size_t i = 0;
    while (stand[i] == canaries[i]) i++;
    fail("byte %zu %s %s is written", lent->at_end ? CANARIES - i : i, lent->at_end ? "before" : "past", lent->name);
}

static void check_bytes(const Lent *lent, const uint8_t *want, size_t from, size_t to, const char *why) {
    if (from >= to || memcmp(lent->at + from, want + from, to - from) == 0) return;
    while (lent->at[from] == want[from]) from++;
    fail("%s: byte %zu of %s is 0x%02x, not 0x%02x", why, from, lent->name, lent->at[from], want[from]);
}

// As lent, from a byte on.
static void check_kept(const Lent *lent, size_t from, const char *why) { check_bytes(lent, lent->was, from, lent->length, why); }

#endif
