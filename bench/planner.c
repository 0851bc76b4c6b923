/* Move, check and edit in plain C, for bench/run: the same answers and the same bytes as the library's calls. Rules and pieces are
   structs in a static work area; section C is drafted there, and the sheet is written once nothing can be refused any more. */
#include <string.h>

#include "wire.h"

struct region {
    uint32_t low[FIELDS], high[FIELDS];
};

struct rule {
    struct region region;
    uint32_t action;
};

/* What was read of a sheet. A group begins at group[i] and ends where the next one begins. */
struct parts {
    struct rule gate[GATE + 1];
    size_t gates, owns, middle, third, groups, boxes;
    size_t group[GATE + 1];
};

/* The pieces, with room for one cut more than is allowed; those that an allow is still to be taken from; and section C under
   construction. */
static struct region pieces[MOST + 2 * FIELDS], uncut[MOST];
static struct parts parts;
static uint8_t draft[2 * GATE + BOX * MOST];
static size_t draft_end, draft_boxes;
static uint8_t order_draft[ORDER + RECORD];

static const uint32_t highest[FIELDS] = {UINT32_MAX, UINT32_MAX, UINT16_MAX, UINT16_MAX, UINT8_MAX};

static struct region region_at(const uint8_t *s) {
    struct region r = {{four(s), four(s + 8), two(s + 16), two(s + 20), s[24]}, {four(s + 4), four(s + 12), two(s + 18), two(s + 22), s[25]}};
    return r;
}

static void put_region(uint8_t *s, const struct region *r) {
    put_four(s, r->low[0]);
    put_four(s + 4, r->high[0]);
    put_four(s + 8, r->low[1]);
    put_four(s + 12, r->high[1]);
    put_two(s + 16, r->low[2]);
    put_two(s + 18, r->high[2]);
    put_two(s + 20, r->low[3]);
    put_two(s + 22, r->high[3]);
    s[24] = (uint8_t)r->low[4];
    s[25] = (uint8_t)r->high[4];
}

static struct rule rule_at(const uint8_t *s) {
    struct rule r = {region_at(s), s[BOX]};
    return r;
}

static int improper(const struct region *r) {
    return r->low[0] > r->high[0] || r->low[1] > r->high[1] || r->low[2] > r->high[2] || r->low[3] > r->high[3] || r->low[4] > r->high[4];
}

static int full(const struct region *r) {
    for (int k = 0; k < FIELDS; k++)
        if (r->low[k] != 0 || r->high[k] != highest[k]) return 0;
    return 1;
}

/* The count of a section, its rules where they are wanted, and 0; or the first refusal. */
static uint32_t read_section(const uint8_t *s, size_t length, size_t most, size_t *count, struct rule *rules) {
    if (length < COUNT) return 3;
    size_t n = two(s);
    if (n < 1 || n > most) return 2;
    if (length < COUNT + RECORD * n) return 3;
    for (size_t i = 0; i < n; i++) {
        struct rule r = rule_at(s + COUNT + RECORD * i);
        if (improper(&r.region) || r.action > 1) return 4;
        if (rules) rules[i] = r;
    }
    struct region last = region_at(s + COUNT + RECORD * (n - 1));
    if (!full(&last)) return 5;
    *count = n;
    return 0;
}

static uint32_t read_lists(const uint8_t *s, size_t length) {
    uint32_t fault = read_section(s, length, GATE, &parts.gates, parts.gate);
    if (fault) return fault;
    parts.middle = COUNT + RECORD * parts.gates;
    fault = read_section(s + parts.middle, length - parts.middle, OWN, &parts.owns, NULL);
    if (fault) return fault;
    parts.third = parts.middle + COUNT + RECORD * parts.owns;
    return 0;
}

static size_t denies(const struct rule *rules, size_t n) {
    size_t count = 0;
    for (size_t i = 0; i < n; i++) count += rules[i].action == 0;
    return count;
}

static uint32_t read_pair(const uint8_t *s, size_t length) {
    uint32_t fault = read_lists(s, length);
    if (fault) return fault;
    if (length - parts.third < COUNT) return 3;
    parts.groups = denies(parts.gate, parts.gates);
    if (two(s + parts.third) != parts.groups) return 8;
    size_t at = parts.third + COUNT;
    parts.boxes = 0;
    for (size_t i = 0; i < parts.groups; i++) {
        parts.group[i] = at;
        if (length - at < COUNT) return 3;
        size_t n = two(s + at);
        parts.boxes += n;
        if (parts.boxes + parts.owns > MOST) return 7;
        at += COUNT;
        if (length - at < BOX * n) return 3;
        for (size_t end = at + BOX * n; at < end; at += BOX) {
            struct region r = region_at(s + at);
            if (improper(&r)) return 4;
        }
    }
    parts.group[parts.groups] = at;
    return at < length ? 3 : 0;
}

static int share(const struct region *d, const struct region *a) {
    for (int k = 0; k < FIELDS; k++)
        if (d->high[k] < a->low[k] || a->high[k] < d->low[k]) return 0;
    return 1;
}

/* The pieces of d without a, with which it shares a packet; how many. */
static size_t cut(const struct region *d, const struct region *a, struct region *out) {
    struct region rest = *d;
    size_t n = 0;
    for (int k = 0; k < FIELDS; k++) {
        if (rest.low[k] < a->low[k]) {
            out[n] = rest;
            out[n++].high[k] = a->low[k] - 1;
            rest.low[k] = a->low[k];
        }
        if (a->high[k] < rest.high[k]) {
            out[n] = rest;
            out[n++].low[k] = a->high[k] + 1;
            rest.high[k] = a->high[k];
        }
    }
    return n;
}

/* What an allow leaves of n pieces; how many. Those before the first one that it touches stay where they are. */
static size_t take(size_t n, const struct region *a) {
    size_t first = 0;
    while (first < n && !share(&pieces[first], a)) first++;
    if (first == n) return n;
    memcpy(uncut, pieces + first, (n - first) * sizeof *uncut);
    size_t m = first + cut(uncut, a, pieces + first);
    for (size_t p = 1; p < n - first && m <= MOST; p++) {
        if (share(&uncut[p], a)) m += cut(&uncut[p], a, pieces + m);
        else pieces[m++] = uncut[p];
    }
    return m;
}

/* The group of the deny rule at place i, appended to the draft if it still fits; 0, or 6. */
static uint32_t draft_group(const struct rule *gate, size_t i) {
    pieces[0] = gate[i].region;
    size_t n = 1;
    for (size_t j = 0; j < i; j++) {
        if (gate[j].action == 0) continue;
        n = take(n, &gate[j].region);
        if (n > MOST) return 6;
    }
    draft_boxes += n;
    if (draft_boxes > MOST) return 0;
    put_two(draft + draft_end, (uint32_t)n);
    draft_end += COUNT;
    for (size_t p = 0; p < n; p++, draft_end += BOX) put_region(draft + draft_end, &pieces[p]);
    return 0;
}

static uint32_t draft_groups(const struct rule *gate, size_t from, size_t to) {
    for (size_t i = from; i < to; i++) {
        uint32_t fault = gate[i].action == 0 ? draft_group(gate, i) : 0;
        if (fault) return fault;
    }
    return 0;
}

/* Groups of the sheet that was read, appended as they stand. */
static void keep_groups(const uint8_t *sheet, size_t from, size_t to) {
    for (size_t i = from; i < to; i++) draft_boxes += two(sheet + parts.group[i]);
    if (draft_boxes > MOST) return;
    size_t size = parts.group[to] - parts.group[from];
    memcpy(draft + draft_end, sheet + parts.group[from], size);
    draft_end += size;
}

static uint32_t finish(uint8_t *sheet, const uint8_t *order, size_t length, size_t groups, size_t owns) {
    if (draft_boxes + owns > MOST) return refusal(7);
    memcpy(sheet, order, length);
    put_two(sheet + length, (uint32_t)groups);
    memcpy(sheet + length + COUNT, draft, draft_end);
    size_t end = length + COUNT + draft_end;
    memset(sheet + end, 0, SHEET - end);
    return (uint32_t)end;
}

uint32_t plain_move(const uint8_t *order, size_t length, uint8_t *sheet, size_t sheet_length) {
    if (sheet_length < SHEET) return refusal(1);
    uint32_t fault = read_lists(order, length);
    if (fault) return refusal(fault);
    if (parts.third < length) return refusal(3);
    draft_end = draft_boxes = 0;
    fault = draft_groups(parts.gate, 0, parts.gates);
    if (fault) return refusal(fault);
    return finish(sheet, order, length, denies(parts.gate, parts.gates), parts.owns);
}

uint32_t plain_check(const uint8_t *sheet, size_t length) {
    uint32_t fault = read_pair(sheet, length);
    if (fault) return refusal(fault);
    draft_end = draft_boxes = 0;
    fault = draft_groups(parts.gate, 0, parts.gates);
    if (fault) return refusal(fault);
    size_t from = parts.third + COUNT;
    if (draft_boxes != parts.boxes || draft_end != length - from) return refusal(8);
    return memcmp(draft, sheet + from, draft_end) == 0 ? 0 : refusal(8);
}

/* One edit: takes out `taken` rules (0 or 1) at a place of A (list 0) or B (list 1), and puts in the record where `put` is 1. */
struct edit {
    uint32_t list;
    size_t place, taken, put;
    const uint8_t *record;
    size_t record_length;
};

/* The new lists in order_draft, how many rules the edited one has, and 0; or the refusal. */
static uint32_t splice(const uint8_t *sheet, const struct edit *e, size_t *count) {
    if (e->list > 1) return 9;
    size_t start = e->list == 0 ? 0 : parts.middle;
    size_t left = (e->list == 0 ? parts.gates : parts.owns) - e->taken;
    if (e->place > left) return 9;
    if (e->put && e->record_length != RECORD) return 3;
    *count = left + e->put;
    if (*count < 1 || *count > (e->list == 0 ? GATE : OWN)) return 2;
    if (e->put) {
        struct rule new = rule_at(e->record);
        if (improper(&new.region) || new.action > 1) return 4;
    }
    size_t at = start + COUNT + RECORD * e->place, next = at + RECORD * e->taken, end = at + RECORD * e->put;
    memcpy(order_draft, sheet, at);
    put_two(order_draft + start, (uint32_t)*count);
    memcpy(order_draft + at, e->record, RECORD * e->put);
    memcpy(order_draft + end, sheet + next, parts.third - next);
    struct region last = region_at(order_draft + start + COUNT + RECORD * (*count - 1));
    return full(&last) ? 0 : 5;
}

/* The groups of an edited A of so many rules: kept, worked out anew, kept; 0, or 6. */
static uint32_t regroup(const uint8_t *sheet, const struct edit *e, size_t count) {
    struct rule *at = parts.gate + e->place;
    size_t earlier = denies(parts.gate, e->place);
    int allow = e->taken && at->action == 1;
    memmove(at + e->put, at + e->taken, (parts.gates - e->place - e->taken) * sizeof *at);
    if (e->put) {
        *at = rule_at(e->record);
        allow |= at->action == 1;
    }
    keep_groups(sheet, 0, earlier);
    uint32_t fault = draft_groups(parts.gate, e->place, allow ? count : e->place + e->put);
    if (!fault && !allow) keep_groups(sheet, earlier + e->taken, parts.groups);
    return fault;
}

uint32_t plain_edit(uint8_t *sheet, size_t sheet_length, size_t used, uint32_t list, size_t place, size_t taken, size_t put,
                    const uint8_t *record, size_t record_length) {
    const struct edit e = {list, place, taken, put, record, record_length};
    if (sheet_length < SHEET || sheet_length < used) return refusal(1);
    uint32_t fault = read_pair(sheet, used);
    if (fault) return refusal(fault);
    size_t count;
    fault = splice(sheet, &e, &count);
    if (fault) return refusal(fault);
    size_t length = parts.third + RECORD * put - RECORD * taken;
    draft_end = draft_boxes = 0;
    if (list == 1) {
        keep_groups(sheet, 0, parts.groups);
        return finish(sheet, order_draft, length, parts.groups, count);
    }
    fault = regroup(sheet, &e, count);
    if (fault) return refusal(fault);
    return finish(sheet, order_draft, length, denies(parts.gate, count), parts.owns);
}
