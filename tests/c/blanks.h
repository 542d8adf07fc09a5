/* What lent lists are filled with before a call: blanks of several payloads and of both signs, quiet and
   signalling. The definitions have one NaN, so that a call which wrote another pattern over a blank would
   still meet its contract; here bytes are compared. */
#ifndef BLANKS_H
#define BLANKS_H
#include <stddef.h>
#include <stdint.h>
#include <string.h>

static const uint64_t BLANKS[8] = {
    0x7ff8000000000000u, 0xfff8000000000000u, 0x7ff8000000000001u, 0xfff80000deadbeefu,
    0x7ff0000000000001u, 0xfff7ffffffffffffu, 0x7fffffffffffffffu, 0xffffffffffffffffu,
};

/* The patterns one behind the other over so many bytes. */
static void fill_with_blanks(void *list, size_t size) {
    for (size_t i = 0; i < size; i++) {
        memcpy((uint8_t *)list + i, (const uint8_t *)BLANKS + i % sizeof BLANKS, 1);
    }
}
#endif
