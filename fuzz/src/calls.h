// One case of each target, decoded from an input's bytes. A failed check prints why and aborts.
#ifndef CALLS_H
#define CALLS_H

#include <stddef.h>
#include <stdint.h>

#define EACH_CALL(DO) DO(narrow) DO(inside) DO(fill) DO(open) DO(fold) DO(build) DO(put) DO(remove) DO(undo) DO(costliest) DO(write_costliest)
#define EACH_TARGET(DO) EACH_CALL(DO) DO(history)

#define NUMBERED(name) CALL_##name,
enum { EACH_CALL(NUMBERED) CALLS };
#undef NUMBERED

// Of each exported call: how often it was made so far, how often it was no refusal, and how often it said too large.
extern uint64_t calls_made[CALLS], calls_accepted[CALLS], calls_large[CALLS];

#define DECLARE(name) void case_##name(const uint8_t *bytes, size_t length);
EACH_TARGET(DECLARE)
#undef DECLARE

#endif
