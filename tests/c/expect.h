/* What the C programs here share: short names, and what they say of a call that answers or leaves
 * something else than it should. PROGRAM, which each line begins with, has to be defined before. */
#ifndef FOLDPLOVER_TESTS_EXPECT_H
#define FOLDPLOVER_TESTS_EXPECT_H

#include <stdio.h>
#include <string.h>

#include "foldplover.h"

#define RECORD FOLDPLOVER_RECORD
#define REFUSAL(number) (FOLDPLOVER_REFUSED + (uint32_t)(number))
#define UNTOUCHED 0xee

static int failures = 0;

static void expect(const char *what, uint32_t got, uint32_t wanted)
{
    if (got != wanted) {
        printf(PROGRAM ": %s: expected %lu, got %lu\n", what, (unsigned long)wanted,
               (unsigned long)got);
        failures++;
    }
}

static void expect_bytes(const char *what, const uint8_t *got, const uint8_t *wanted, size_t count)
{
    if (memcmp(got, wanted, count) != 0) {
        printf(PROGRAM ": %s: other bytes\n", what);
        failures++;
    }
}

static void expect_all(const char *what, const uint8_t *got, uint8_t wanted, size_t count)
{
    size_t place = 0;
    while (place < count && got[place] == wanted) {
        place++;
    }
    if (place < count) {
        printf(PROGRAM ": %s: byte %lu is %u\n", what, (unsigned long)place, got[place]);
        failures++;
    }
}

/* The program's last line, and its status. */
static int verdict(void)
{
    if (failures == 0) {
        printf(PROGRAM ": ok\n");
    }
    return failures == 0 ? 0 : 1;
}

#endif
