// A libFuzzer target: TARGET is the case's name.
#include "calls.h"

#define JOIN(a, b) a##b
#define CASE(name) JOIN(case_, name)

int LLVMFuzzerTestOneInput(const uint8_t *bytes, size_t length) {
    CASE(TARGET)(bytes, length);
    return 0;
}
