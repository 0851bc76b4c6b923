/* Three C versions of the lookup, for bench/run: the same answers as foldplover_lookup. */
#include "wire.h"

/* The count, or 0 and the refusal in *answer. */
static size_t head(const uint8_t *list, size_t length, uint32_t *answer) {
    *answer = refusal(3);
    if (length < COUNT) return 0;
    size_t count = (size_t)list[0] << 8 | list[1];
    *answer = refusal(2);
    if (count < 1 || count > MOST) return 0;
    *answer = refusal(3);
    if (length != COUNT + RECORD * count) return 0;
    return count;
}

/* Loops over the fields; the one that compares them runs from the last and is left at the first that is outside. */
uint32_t lookup_loops(uint32_t src, uint32_t dst, uint32_t sport, uint32_t dport, uint32_t proto, const uint8_t *list, size_t length) {
    const uint32_t packet[FIELDS] = {src, dst, sport, dport, proto};
    uint32_t answer;
    size_t count = head(list, length, &answer);
    if (count == 0) return answer;
    const uint8_t *s = list + COUNT;
    for (size_t i = 0; i < count; i++, s += RECORD) {
        const uint32_t low[FIELDS] = {four(s), four(s + 8), two(s + 16), two(s + 20), s[24]};
        const uint32_t high[FIELDS] = {four(s + 4), four(s + 12), two(s + 18), two(s + 22), s[25]};
        const uint32_t action = s[26];
        for (int k = 0; k < FIELDS; k++)
            if (low[k] > high[k]) return refusal(4);
        if (action > 1) return refusal(4);
        int k = FIELDS - 1;
        for (; k >= 0; k--)
            if (packet[k] < low[k] || packet[k] > high[k]) break;
        if (k < 0) return 2 * (uint32_t)i + action;
    }
    return refusal(5);
}

#define OUTSIDE(value, k) (value < low##k || value > high##k)

/* Every field by hand, in the order given. Both ends of a port range are read as one number, which takes fewer instructions than two. It is
   a macro, since gcc gives the two functions worse loops where they share one. */
#define STRAIGHT(name, first, second, third, fourth, fifth)                                                                              \
    uint32_t name(uint32_t src, uint32_t dst, uint32_t sport, uint32_t dport, uint32_t proto, const uint8_t *list, size_t length) {     \
        uint32_t answer;                                                                                                                 \
        size_t count = head(list, length, &answer);                                                                                      \
        if (count == 0) return answer;                                                                                                   \
        const uint8_t *s = list + COUNT;                                                                                                 \
        for (size_t i = 0; i < count; i++, s += RECORD) {                                                                                \
            uint32_t low1 = four(s), high1 = four(s + 4), low2 = four(s + 8), high2 = four(s + 12);                                      \
            uint32_t sports = four(s + 16), dports = four(s + 20);                                                                       \
            uint32_t low3 = sports >> 16, high3 = sports & 65535, low4 = dports >> 16, high4 = dports & 65535;                           \
            uint32_t low5 = s[24], high5 = s[25], action = s[26];                                                                        \
            if (low1 > high1 || low2 > high2 || low3 > high3 || low4 > high4 || low5 > high5 || action > 1) return refusal(4);           \
            if (first) continue;                                                                                                         \
            if (second) continue;                                                                                                        \
            if (third) continue;                                                                                                         \
            if (fourth) continue;                                                                                                        \
            if (fifth) continue;                                                                                                         \
            return 2 * (uint32_t)i + action;                                                                                             \
        }                                                                                                                                \
        return refusal(5);                                                                                                               \
    }

STRAIGHT(lookup_straight, OUTSIDE(proto, 5), OUTSIDE(dport, 4), OUTSIDE(sport, 3), OUTSIDE(dst, 2), OUTSIDE(src, 1))

/* From the first field on, to show what the order is worth. */
STRAIGHT(lookup_ascending, OUTSIDE(src, 1), OUTSIDE(dst, 2), OUTSIDE(sport, 3), OUTSIDE(dport, 4), OUTSIDE(proto, 5))
