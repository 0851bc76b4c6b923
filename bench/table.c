/* Two straight C versions of the lookup in a table, for bench/run: the same answers as foldplover_lookup_table. */
#include <stddef.h>
#include <stdint.h>

#include "../include/foldplover.h"

enum { FIELDS = 5 };

static const uint32_t highest[FIELDS] = {4294967295u, 4294967295u, 65535, 65535, 255};

static uint32_t refusal(uint32_t n) { return FOLDPLOVER_REFUSED + n; }

/* Loops over the fields, left at the first that is outside. */
uint32_t table_loops(uint32_t src, uint32_t dst, uint32_t sport, uint32_t dport, uint32_t proto, const struct foldplover_rule *rules, size_t count) {
    const uint32_t packet[FIELDS] = {src, dst, sport, dport, proto};
    if (count < 1 || count > FOLDPLOVER_MOST_RULES) return refusal(2);
    for (size_t i = 0; i < count; i++) {
        const struct foldplover_rule *r = &rules[i];
        for (int k = 0; k < FIELDS; k++)
            if (r->low[k] > r->high[k] || r->high[k] > highest[k]) return refusal(4);
        if (r->action > 1) return refusal(4);
        int k = 0;
        for (; k < FIELDS; k++)
            if (packet[k] < r->low[k] || packet[k] > r->high[k]) break;
        if (k == FIELDS) return 2 * (uint32_t)i + r->action;
    }
    return refusal(5);
}

/* Every field by hand. */
uint32_t table_straight(uint32_t src, uint32_t dst, uint32_t sport, uint32_t dport, uint32_t proto, const struct foldplover_rule *rules, size_t count) {
    if (count < 1 || count > FOLDPLOVER_MOST_RULES) return refusal(2);
    for (size_t i = 0; i < count; i++) {
        const struct foldplover_rule *r = &rules[i];
        if (r->low[0] > r->high[0] || r->low[1] > r->high[1] || r->low[2] > r->high[2] || r->low[3] > r->high[3] || r->low[4] > r->high[4]) return refusal(4);
        if (r->high[2] > 65535 || r->high[3] > 65535 || r->high[4] > 255 || r->action > 1) return refusal(4);
        if (src < r->low[0] || src > r->high[0]) continue;
        if (dst < r->low[1] || dst > r->high[1]) continue;
        if (sport < r->low[2] || sport > r->high[2]) continue;
        if (dport < r->low[3] || dport > r->high[3]) continue;
        if (proto < r->low[4] || proto > r->high[4]) continue;
        return 2 * (uint32_t)i + r->action;
    }
    return refusal(5);
}
