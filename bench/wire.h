/* Sizes, big-endian numbers and refusals, for the plain C versions of bench/run. */
#ifndef BENCH_WIRE_H
#define BENCH_WIRE_H

#include <stddef.h>
#include <stdint.h>

enum { FIELDS = 5, COUNT = 2, BOX = 26, RECORD = 27, GATE = 64, OWN = 256, MOST = 1024, ORDER = 8644, SHEET = 28742 };

static inline uint32_t refusal(uint32_t n) { return 65536 + n; }

static inline uint32_t four(const uint8_t *s) { return (uint32_t)s[0] << 24 | (uint32_t)s[1] << 16 | (uint32_t)s[2] << 8 | s[3]; }

static inline uint32_t two(const uint8_t *s) { return (uint32_t)s[0] << 8 | s[1]; }

static inline void put_four(uint8_t *s, uint32_t x) {
    s[0] = (uint8_t)(x >> 24);
    s[1] = (uint8_t)(x >> 16);
    s[2] = (uint8_t)(x >> 8);
    s[3] = (uint8_t)x;
}

static inline void put_two(uint8_t *s, uint32_t x) {
    s[0] = (uint8_t)(x >> 8);
    s[1] = (uint8_t)x;
}

#endif
