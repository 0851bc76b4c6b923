/* A pair sheet that was moved before W2, when boxes that share no packet were still cut, given to
 * the library of now: the calls that check refuse it with 8, edits keep its groups as they stand, and
 * its two lists moved again give a sheet that check accepts. Lengths and counts are written here by
 * hand. From the project's root:
 *
 *     gcc -std=c11 -Wall -Wextra -Wpedantic -Werror -Iinclude -o target/before \
 *         tests/c/before.c target/staticlib/libfoldplover.a
 *     target/before tests/second/data/before_w2.pair
 */
#define PROGRAM "before"
#include "expect.h"

#define OLD_LENGTH 9932u   /* 337 boxes */
#define OLD_PLACES 349u    /* and 12 own rules */
#define FRESH_LENGTH 5772u /* 177 boxes */
#define ORDER_LENGTH 1138u /* 30 gate rules, 12 own rules */
#define OWN_RULES 814u     /* where the first of them stands */
#define GROUPS_START (ORDER_LENGTH + 2)
#define DENY 12u           /* a gate rule, the eighth deny of fifteen */
#define DENY_GROUP 7u
#define OLD_BOXES 18u      /* of its group, and now */
#define FRESH_BOXES 4u

static uint8_t old[OLD_LENGTH + 1];
static uint8_t fresh[FOLDPLOVER_PAIR_SHEET];
static uint8_t sheet[FOLDPLOVER_PAIR_SHEET + 1];
static uint8_t wanted[FOLDPLOVER_PAIR_SHEET];
static uint8_t list[FOLDPLOVER_CELL_LIST + 1];
static uint8_t work[FOLDPLOVER_WORK + 1];

/* Where a group's own count stands. */
static size_t group_start(const uint8_t *bytes, uint32_t group)
{
    size_t place = GROUPS_START;
    while (group-- > 0) {
        place += 2 + 26 * (256u * bytes[place] + bytes[place + 1]);
    }
    return place;
}

static uint32_t check(const uint8_t *bytes, size_t length)
{
    return foldplover_check(bytes, length, work, sizeof work);
}

/* What every refusal of these calls leaves: the work zero, and nothing written. */
static void expect_refused(const char *what, uint32_t got)
{
    expect(what, got, REFUSAL(FOLDPLOVER_GROUPS_DIFFER));
    expect_all(what, list, UNTOUCHED, sizeof list);
    expect_all(what, work, 0, FOLDPLOVER_WORK);
    expect_all(what, work + FOLDPLOVER_WORK, UNTOUCHED, 1);
    memset(work, UNTOUCHED, sizeof work);
}

static void test_calls_that_check(void)
{
    uint32_t found[FOLDPLOVER_ORIGIN] = {UNTOUCHED, UNTOUCHED, UNTOUCHED};
    uint32_t place;
    memset(list, UNTOUCHED, sizeof list);
    memset(work, UNTOUCHED, sizeof work);
    expect_refused("check", check(old, OLD_LENGTH));
    expect_refused("gate list",
                   foldplover_gate_list(old, OLD_LENGTH, list, sizeof list, work, sizeof work));
    expect_refused("cell list",
                   foldplover_cell_list(old, OLD_LENGTH, list, sizeof list, work, sizeof work));
    expect_refused("origin",
                   foldplover_origin(0x0a0a0402, 0x0a1e0111, 50000, 502, 6, old, OLD_LENGTH, found,
                                     FOLDPLOVER_ORIGIN, work, sizeof work));
    expect_refused("origin: protocol 256",
                   foldplover_origin(0x0a0a0402, 0x0a1e0111, 50000, 502, 256, old, OLD_LENGTH,
                                     found, FOLDPLOVER_ORIGIN, work, sizeof work));
    for (place = 0; place < FOLDPLOVER_ORIGIN; place++) {
        expect("a number of the origin", found[place], UNTOUCHED);
    }
}

/* With readings of all its places the old sheet is refused too. */
static void test_report(void)
{
    static uint8_t packet[FOLDPLOVER_PACKET];
    static uint8_t earlier[OLD_PLACES * FOLDPLOVER_READING];
    static uint8_t later[OLD_PLACES * FOLDPLOVER_READING];
    static uint64_t totals[FOLDPLOVER_TOTALS];
    static uint32_t hits[FOLDPLOVER_HITS];
    memset(totals, UNTOUCHED, sizeof totals);
    memset(hits, UNTOUCHED, sizeof hits);
    expect_refused("report",
                   foldplover_report(old, OLD_LENGTH, packet, sizeof packet, earlier,
                                     sizeof earlier, later, sizeof later, totals,
                                     FOLDPLOVER_TOTALS, hits, FOLDPLOVER_HITS, work, sizeof work));
    expect_all("totals", (const uint8_t *)totals, UNTOUCHED, sizeof totals);
    expect_all("hits", (const uint8_t *)hits, UNTOUCHED, sizeof hits);
}

/* The old sheet in a buffer for edits. */
static void lend_old(void)
{
    memset(sheet, UNTOUCHED, sizeof sheet);
    memcpy(sheet, old, OLD_LENGTH);
}

static size_t append(size_t length, const uint8_t *bytes, size_t count)
{
    memcpy(wanted + length, bytes, count);
    return length + count;
}

/* An accepted edit that left the first bytes of wanted, which are still no fresh move's. */
static void expect_edited(const char *what, uint32_t got, size_t length)
{
    expect(what, got, (uint32_t)length);
    expect_bytes(what, sheet, wanted, length);
    expect_all(what, sheet + length, 0, FOLDPLOVER_PAIR_SHEET - length);
    expect_all(what, sheet + FOLDPLOVER_PAIR_SHEET, UNTOUCHED, 1);
    expect(what, check(sheet, length), REFUSAL(FOLDPLOVER_GROUPS_DIFFER));
}

/* The first own rule goes; A and section C stay byte for byte. */
static void test_own_edit(void)
{
    static const uint8_t count[2] = {0, 11};
    const uint8_t *behind_rule = old + OWN_RULES + RECORD;
    size_t length = append(0, old, OWN_RULES - 2);
    length = append(length, count, 2);
    length = append(length, behind_rule, (size_t)(old + OLD_LENGTH - behind_rule));
    lend_old();
    expect_edited("an own rule taken out",
                  foldplover_delete(sheet, sizeof sheet, OLD_LENGTH, FOLDPLOVER_B, 0, work,
                                    sizeof work),
                  length);
}

/* The deny and its group go; every other group stays byte for byte. */
static void test_delete(void)
{
    static const uint8_t counts[4] = {0, 29, 0, 14};
    const uint8_t *behind_deny = old + 2 + (DENY + 1) * RECORD;
    size_t start = group_start(old, DENY_GROUP), end = group_start(old, DENY_GROUP + 1);
    size_t length = append(0, counts, 2);
    expect("boxes of the deny", (uint32_t)(end - start), 2 + 26 * OLD_BOXES);
    length = append(length, old + 2, DENY * RECORD);
    length = append(length, behind_deny, (size_t)(old + ORDER_LENGTH - behind_deny));
    length = append(length, counts + 2, 2);
    length = append(length, old + GROUPS_START, start - GROUPS_START);
    length = append(length, old + end, OLD_LENGTH - end);
    lend_old();
    expect_edited("a deny taken out",
                  foldplover_delete(sheet, sizeof sheet, OLD_LENGTH, FOLDPLOVER_A, DENY, work,
                                    sizeof work),
                  length);
}

/* The deny's group is worked out anew, between groups of before that stay byte for byte. */
static void test_replace(void)
{
    uint8_t record[RECORD];
    size_t start = group_start(old, DENY_GROUP), end = group_start(old, DENY_GROUP + 1);
    size_t length = append(0, old, start);
    length = append(length, fresh + group_start(fresh, DENY_GROUP), 2 + 26 * FRESH_BOXES);
    length = append(length, old + end, OLD_LENGTH - end);
    expect("boxes of the deny now", fresh[group_start(fresh, DENY_GROUP) + 1], FRESH_BOXES);
    lend_old();
    memcpy(record, old + 2 + DENY * RECORD, RECORD);
    expect_edited("a deny for itself",
                  foldplover_replace(sheet, sizeof sheet, OLD_LENGTH, FOLDPLOVER_A, DENY, record,
                                     RECORD, work, sizeof work),
                  length);
}

/* The old sheet begins with its order sheet. */
static void test_move_again(void)
{
    memset(work, UNTOUCHED, sizeof work);
    expect("move", foldplover_move(old, ORDER_LENGTH, fresh, sizeof fresh, work, sizeof work),
           FRESH_LENGTH);
    expect_bytes("both lists", fresh, old, ORDER_LENGTH);
    expect("check of the sheet moved again", check(fresh, FRESH_LENGTH), 0);
    expect("its cell list",
           foldplover_cell_list(fresh, FRESH_LENGTH, list, sizeof list, work, sizeof work),
           2 + (177 + 12) * RECORD);
}

int main(int count, char **names)
{
    FILE *file = count == 2 ? fopen(names[1], "rb") : NULL;
    if (file == NULL) {
        printf(PROGRAM ": no sheet\n");
        return 2;
    }
    expect("the sheet's length", (uint32_t)fread(old, 1, sizeof old, file), OLD_LENGTH);
    fclose(file);
    test_calls_that_check();
    test_report();
    test_move_again();
    test_own_edit();
    test_delete();
    test_replace();
    return verdict();
}
