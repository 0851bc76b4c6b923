/* Every call of foldplover.h on the example that plan's description prints: three gate rules, one
 * cell rule. Lengths, bytes and refusals are written here by hand. From the project's root:
 *
 *     gcc -std=c11 -Wall -Wextra -Wpedantic -Werror -Iinclude -o target/surface \
 *         tests/c/surface.c target/staticlib/libfoldplover.a
 */
#define PROGRAM "surface"
#include "expect.h"

#define ORDER_LENGTH 112u
#define A_LENGTH 83u
#define PAIR_LENGTH 220u
#define CELL_LENGTH 137u

static uint8_t sheet[FOLDPLOVER_PAIR_SHEET + 1];
static uint8_t work[FOLDPLOVER_WORK + 1];
static uint8_t list[FOLDPLOVER_CELL_LIST + 1];
static uint8_t order[FOLDPLOVER_ORDER_SHEET + 1];

static const uint8_t full_allow[RECORD] = {
    0x00, 0x00, 0x00, 0x00, 0xff, 0xff, 0xff, 0xff, 0x00, 0x00, 0x00, 0x00, 0xff, 0xff,
    0xff, 0xff, 0x00, 0x00, 0xff, 0xff, 0x00, 0x00, 0xff, 0xff, 0x00, 0xff, 0x01};

static const uint8_t dairy[ORDER_LENGTH] = {
    0x00, 0x03,
    0x00, 0x00, 0x00, 0x00, 0xff, 0xff, 0xff, 0xff, 0x00, 0x00, 0x00, 0x0a, 0x00, 0x00,
    0x00, 0x13, 0x00, 0x00, 0xff, 0xff, 0x00, 0x50, 0x00, 0x50, 0x06, 0x06, 0x01,
    0x00, 0x00, 0x00, 0x00, 0xff, 0xff, 0xff, 0xff, 0x00, 0x00, 0x00, 0x00, 0x00, 0x00,
    0x00, 0x1d, 0x00, 0x00, 0xff, 0xff, 0x00, 0x00, 0xff, 0xff, 0x06, 0x06, 0x00,
    0x00, 0x00, 0x00, 0x00, 0xff, 0xff, 0xff, 0xff, 0x00, 0x00, 0x00, 0x00, 0xff, 0xff,
    0xff, 0xff, 0x00, 0x00, 0xff, 0xff, 0x00, 0x00, 0xff, 0xff, 0x00, 0xff, 0x01,
    0x00, 0x01,
    0x00, 0x00, 0x00, 0x00, 0xff, 0xff, 0xff, 0xff, 0x00, 0x00, 0x00, 0x00, 0xff, 0xff,
    0xff, 0xff, 0x00, 0x00, 0xff, 0xff, 0x00, 0x00, 0xff, 0xff, 0x00, 0xff, 0x01};

/* Section C: one group of four boxes. */
static const uint8_t dairy_groups[PAIR_LENGTH - ORDER_LENGTH] = {
    0x00, 0x01, 0x00, 0x04,
    0x00, 0x00, 0x00, 0x00, 0xff, 0xff, 0xff, 0xff, 0x00, 0x00, 0x00, 0x00, 0x00,
    0x00, 0x00, 0x09, 0x00, 0x00, 0xff, 0xff, 0x00, 0x00, 0xff, 0xff, 0x06, 0x06,
    0x00, 0x00, 0x00, 0x00, 0xff, 0xff, 0xff, 0xff, 0x00, 0x00, 0x00, 0x14, 0x00,
    0x00, 0x00, 0x1d, 0x00, 0x00, 0xff, 0xff, 0x00, 0x00, 0xff, 0xff, 0x06, 0x06,
    0x00, 0x00, 0x00, 0x00, 0xff, 0xff, 0xff, 0xff, 0x00, 0x00, 0x00, 0x0a, 0x00,
    0x00, 0x00, 0x13, 0x00, 0x00, 0xff, 0xff, 0x00, 0x00, 0x00, 0x4f, 0x06, 0x06,
    0x00, 0x00, 0x00, 0x00, 0xff, 0xff, 0xff, 0xff, 0x00, 0x00, 0x00, 0x0a, 0x00,
    0x00, 0x00, 0x13, 0x00, 0x00, 0xff, 0xff, 0x00, 0x51, 0xff, 0xff, 0x06, 0x06};

static uint32_t move(const uint8_t *bytes, size_t length)
{
    return foldplover_move(bytes, length, sheet, sizeof sheet, work, sizeof work);
}

/* The example's pair sheet, as a move leaves it. */
static void move_dairy(void)
{
    memset(sheet, UNTOUCHED, sizeof sheet);
    memset(work, UNTOUCHED, sizeof work);
    expect("move", move(dairy, ORDER_LENGTH), PAIR_LENGTH);
}

static void expect_dairy(const char *what)
{
    expect_bytes(what, sheet, dairy, ORDER_LENGTH);
    expect_bytes(what, sheet + ORDER_LENGTH, dairy_groups, sizeof dairy_groups);
    expect_all(what, sheet + PAIR_LENGTH, 0, FOLDPLOVER_PAIR_SHEET - PAIR_LENGTH);
    expect_all(what, sheet + FOLDPLOVER_PAIR_SHEET, UNTOUCHED, 1);
}

static void test_move(void)
{
    move_dairy();
    expect_dairy("moved sheet");
    expect_all("work", work, 0, FOLDPLOVER_WORK);
    expect_all("behind work", work + FOLDPLOVER_WORK, UNTOUCHED, 1);
}

/* One change to the example for each refusal, in a sheet that has to stay as it was. */
static void test_move_refusals(void)
{
    uint8_t bytes[ORDER_LENGTH + 1];
    memset(sheet, UNTOUCHED, sizeof sheet);
    memset(work, UNTOUCHED, sizeof work);
    expect("short sheet",
           foldplover_move(dairy, ORDER_LENGTH, sheet, FOLDPLOVER_PAIR_SHEET - 1, work,
                           sizeof work),
           REFUSAL(FOLDPLOVER_BUFFER_SHORT));
    expect("short work",
           foldplover_move(dairy, ORDER_LENGTH, sheet, sizeof sheet, work, FOLDPLOVER_WORK - 1),
           REFUSAL(FOLDPLOVER_BUFFER_SHORT));
    expect_all("work after 1", work, UNTOUCHED, sizeof work);
    memcpy(bytes, dairy, ORDER_LENGTH);
    bytes[ORDER_LENGTH] = 0;
    expect("left over", move(bytes, ORDER_LENGTH + 1), REFUSAL(FOLDPLOVER_LENGTH_WRONG));
    expect("missing", move(bytes, ORDER_LENGTH - 1), REFUSAL(FOLDPLOVER_LENGTH_WRONG));
    expect("nothing", move(bytes, 0), REFUSAL(FOLDPLOVER_LENGTH_WRONG));
    bytes[1] = 0;
    expect("no gate rule", move(bytes, ORDER_LENGTH), REFUSAL(FOLDPLOVER_COUNT_OUTSIDE));
    bytes[1] = 3;
    bytes[2 + 26] = 2;
    expect("action 2", move(bytes, ORDER_LENGTH), REFUSAL(FOLDPLOVER_RULE_BAD));
    bytes[2 + 26] = 1;
    bytes[ORDER_LENGTH - 2] = 0xfe;
    expect("protocol 255 missing", move(bytes, ORDER_LENGTH), REFUSAL(FOLDPLOVER_NOT_COMPLETE));
    expect_all("refused sheet", sheet, UNTOUCHED, sizeof sheet);
    expect_all("work after refusals", work, 0, FOLDPLOVER_WORK);
}

/* Single-source and single-destination allows at 2, 4, .., then deny all; one own rule. */
static size_t write_grid(uint8_t sources, uint8_t destinations)
{
    uint8_t *record = order + 2;
    uint8_t place;
    order[0] = 0;
    order[1] = (uint8_t)(sources + destinations + 1);
    for (place = 0; place < order[1]; place++, record += RECORD) {
        uint8_t field = place < sources ? 0 : 8;
        uint8_t value = (uint8_t)(2 * (1 + place - (place < sources ? 0 : sources)));
        memcpy(record, full_allow, RECORD);
        if (place + 1 < order[1]) {
            memset(record + field, 0, 8);
            record[field + 3] = value;
            record[field + 7] = value;
        } else {
            record[26] = 0;
        }
    }
    record[0] = 0;
    record[1] = 1;
    memcpy(record + 2, full_allow, RECORD);
    return (size_t)(record - order) + 2 + RECORD;
}

static void test_limits(void)
{
    size_t length = write_grid(31, 31);
    expect("1,024 boxes, one own rule", move(order, length), REFUSAL(FOLDPLOVER_TOO_MANY_BOXES));
    length = write_grid(32, 31);
    expect("1,056 pieces", move(order, length), REFUSAL(FOLDPLOVER_TOO_MANY_PIECES));
    length = write_grid(32, 30);
    expect("1,023 boxes, one own rule", move(order, length), 1730u - 27 + 29 + 4 + 1023 * 26);
}

/* The boundary table's S2: an allow that shares sources but no destination with the deny behind it
 * leaves it whole, one box. One destination shared cuts it into three. */
static void test_missed(void)
{
    static const uint8_t area[16] = {0, 0, 0, 0, 0, 0, 0, 9, 0, 0, 0, 0, 0, 0, 0, 4};
    static const uint8_t low[16] = {0, 0, 0, 0, 0, 0, 0, 2, 0, 0, 0, 0, 0, 0, 0, 4};
    static const uint8_t high[16] = {0, 0, 0, 6, 0, 0, 0, 9, 0, 0, 0, 0, 0, 0, 0, 4};
    static const uint8_t shared[16] = {0, 0, 0, 3, 0, 0, 0, 5, 0, 0, 0, 0, 0, 0, 0, 3};
    const uint8_t *boxes = sheet + ORDER_LENGTH + 4;
    uint8_t bytes[ORDER_LENGTH];
    uint8_t *allow = bytes + 2, *deny = bytes + 2 + RECORD;
    memcpy(bytes, dairy, ORDER_LENGTH);
    memcpy(allow, full_allow, RECORD);
    memcpy(allow, shared, 16);
    allow[11] = 6;
    allow[15] = 9;
    memcpy(deny, full_allow, RECORD);
    memcpy(deny, area, 16);
    deny[26] = 0;
    expect("S2", move(bytes, ORDER_LENGTH), ORDER_LENGTH + 2 + 28);
    expect("S2's boxes", sheet[ORDER_LENGTH + 3], 1);
    expect_bytes("S2's box", boxes, deny, 26);
    expect("check of S2", foldplover_check(sheet, ORDER_LENGTH + 2 + 28, work, sizeof work), 0);
    allow[11] = 5;
    expect("one destination from shared", move(bytes, ORDER_LENGTH), ORDER_LENGTH + 2 + 28);
    expect_bytes("its box", boxes, deny, 26);
    allow[11] = 4;
    expect("one destination shared", move(bytes, ORDER_LENGTH), ORDER_LENGTH + 2 + 2 + 3 * 26);
    expect_bytes("the lower sources", boxes, low, 16);
    expect_bytes("the higher sources", boxes + 26, high, 16);
    expect_bytes("the shared sources", boxes + 52, shared, 16);
}

static uint32_t check(size_t length)
{
    return foldplover_check(sheet, length, work, sizeof work);
}

static void test_check(void)
{
    move_dairy();
    expect("check", check(PAIR_LENGTH), 0);
    expect("check with a byte more", check(PAIR_LENGTH + 1), REFUSAL(FOLDPLOVER_LENGTH_WRONG));
    sheet[PAIR_LENGTH - 1] = 7;
    expect("check of another box", check(PAIR_LENGTH), REFUSAL(FOLDPLOVER_GROUPS_DIFFER));
    sheet[ORDER_LENGTH + 1] = 2;
    expect("check of two groups", check(PAIR_LENGTH), REFUSAL(FOLDPLOVER_GROUPS_DIFFER));
    expect("check, short work", foldplover_check(sheet, PAIR_LENGTH, work, FOLDPLOVER_WORK - 1),
           REFUSAL(FOLDPLOVER_BUFFER_SHORT));
}

static void test_gate_list(void)
{
    static const uint8_t count[2] = {0x00, 0x01};
    memset(list, UNTOUCHED, sizeof list);
    expect("short gate list",
           foldplover_gate_list(sheet, PAIR_LENGTH, list, FOLDPLOVER_GATE_LIST - 1, work,
                                sizeof work),
           REFUSAL(FOLDPLOVER_BUFFER_SHORT));
    expect("gate list",
           foldplover_gate_list(sheet, PAIR_LENGTH, list, sizeof list, work, sizeof work),
           FOLDPLOVER_GATE_LIST);
    expect_bytes("gate list's count", list, count, 2);
    expect_bytes("gate list's rule", list + 2, full_allow, RECORD);
    expect_all("behind the gate list", list + FOLDPLOVER_GATE_LIST, UNTOUCHED,
               sizeof list - FOLDPLOVER_GATE_LIST);
    expect("lookup in the gate list",
           foldplover_lookup(1, 15, 5, 81, 6, list, FOLDPLOVER_GATE_LIST), 1);
}

static void test_cell_list(void)
{
    size_t place;
    memset(list, UNTOUCHED, sizeof list);
    expect("cell list",
           foldplover_cell_list(sheet, PAIR_LENGTH, list, sizeof list, work, sizeof work),
           CELL_LENGTH);
    expect("cell list's count", list[1], 5);
    for (place = 0; place < 4; place++) {
        const uint8_t *record = list + 2 + place * RECORD;
        expect_bytes("a box of the cell list", record, dairy_groups + 4 + place * 26, 26);
        expect("its action", record[26], 0);
    }
    expect_bytes("the own rule", list + 2 + 4 * RECORD, full_allow, RECORD);
    expect_all("behind the cell list", list + CELL_LENGTH, 0, FOLDPLOVER_CELL_LIST - CELL_LENGTH);
    expect_all("beyond 27,650", list + FOLDPLOVER_CELL_LIST, UNTOUCHED, 1);
    sheet[PAIR_LENGTH - 1] = 7;
    expect("cell list of another box",
           foldplover_cell_list(sheet, PAIR_LENGTH, list, sizeof list, work, sizeof work),
           REFUSAL(FOLDPLOVER_GROUPS_DIFFER));
}

static uint32_t lookup(uint32_t dst, uint32_t dport, uint32_t proto)
{
    return foldplover_lookup(1, dst, 5, dport, proto, list, CELL_LENGTH);
}

static void test_lookup(void)
{
    expect("destination 9", lookup(9, 80, 6), 0);
    expect("destination 20", lookup(20, 80, 6), 2);
    expect("destination port 79", lookup(15, 79, 6), 4);
    expect("destination port 81", lookup(15, 81, 6), 6);
    expect("destination port 80", lookup(15, 80, 6), 9);
    expect("destination 30", lookup(30, 80, 6), 9);
    expect("protocol 17", lookup(15, 81, 17), 9);
    expect("protocol 256", lookup(15, 80, 256), REFUSAL(FOLDPLOVER_NOT_COMPLETE));
    expect("port 65,536", lookup(15, 65536, 6), REFUSAL(FOLDPLOVER_NOT_COMPLETE));
    expect("source port 65,536", foldplover_lookup(1, 15, 65536, 80, 6, list, CELL_LENGTH),
           REFUSAL(FOLDPLOVER_NOT_COMPLETE));
    expect("one byte", foldplover_lookup(1, 9, 5, 80, 6, list, 1),
           REFUSAL(FOLDPLOVER_LENGTH_WRONG));
    list[2 + RECORD + 26] = 2;
    expect("before the bad rule", lookup(9, 80, 6), 0);
    expect("at the bad rule", lookup(20, 80, 6), REFUSAL(FOLDPLOVER_RULE_BAD));
    list[1] = 0;
    expect("no rule", lookup(9, 80, 6), REFUSAL(FOLDPLOVER_COUNT_OUTSIDE));
}

/* The fields' first bytes in a record, and the bytes of a number there. */
static const size_t field_begins[5] = {0, 8, 16, 20, 24};
static const size_t field_widths[5] = {4, 4, 2, 2, 1};

/* Packets: every value the lowest of its field, the highest, and one in between whose bytes
 * differ. */
static const uint32_t lowest[5] = {0, 0, 0, 0, 0};
static const uint32_t highest[5] = {0xffffffff, 0xffffffff, 0xffff, 0xffff, 0xff};
static const uint32_t between[5] = {0x01fe02fd, 0xfc03fb04, 0x05fa, 0xf906, 0x7f};

static void put_range(uint8_t *record, size_t field, uint32_t low, uint32_t high)
{
    size_t width = field_widths[field];
    size_t byte;
    for (byte = 0; byte < width; byte++) {
        size_t lower = 8 * (width - 1 - byte);
        record[field_begins[field] + byte] = (uint8_t)(low >> lower);
        record[field_begins[field] + width + byte] = (uint8_t)(high >> lower);
    }
}

static uint32_t lookup_two(const uint32_t *packet, const uint8_t *first, const uint8_t *second)
{
    uint8_t two[2 + 2 * RECORD] = {0, 2};
    memcpy(two + 2, first, RECORD);
    memcpy(two + 2 + RECORD, second, RECORD);
    return foldplover_lookup(packet[0], packet[1], packet[2], packet[3], packet[4], two,
                             sizeof two);
}

/* Each field by itself has its value, or misses it by one at either end. */
static void test_lookup_fields(void)
{
    const uint32_t *const packets[3] = {lowest, between, highest};
    uint8_t record[RECORD];
    size_t packet, field;
    for (packet = 0; packet < 3; packet++) {
        for (field = 0; field < 5; field++) {
            uint32_t value = packets[packet][field];
            memcpy(record, full_allow, RECORD);
            put_range(record, field, value, value);
            expect("the value alone", lookup_two(packets[packet], record, full_allow), 1);
            if (value > 0) {
                put_range(record, field, 0, value - 1);
                expect("all below it", lookup_two(packets[packet], record, full_allow), 3);
            }
            if (value < highest[field]) {
                put_range(record, field, value + 1, highest[field]);
                expect("all above it", lookup_two(packets[packet], record, full_allow), 3);
            }
        }
    }
}

/* Whichever field the packet misses, a record that is bad in any one, or in its action, is refused,
 * unless it stands behind the rule that decides. */
static void test_lookup_bad(void)
{
    uint8_t record[RECORD];
    size_t missed, bad;
    for (missed = 0; missed < 5; missed++) {
        for (bad = 0; bad < 6; bad++) {
            memcpy(record, full_allow, RECORD);
            put_range(record, missed, between[missed] + 1, highest[missed]);
            if (bad < 5) {
                put_range(record, bad, between[bad] + 1, between[bad]);
            } else {
                record[RECORD - 1] = 2;
            }
            expect("bad, and missed", lookup_two(between, record, full_allow),
                   REFUSAL(FOLDPLOVER_RULE_BAD));
            expect("bad behind the one that decides", lookup_two(between, full_allow, record), 1);
        }
    }
}

static uint32_t lookup_table(uint32_t dst, uint32_t dport, uint32_t proto,
                             const struct foldplover_rule *rules, size_t count)
{
    return foldplover_lookup_table(1, dst, 5, dport, proto, rules, count);
}

/* The cell list's rules as structs: the answers of test_lookup, and what only numbers can have. */
static void test_lookup_table(void)
{
    static struct foldplover_rule rules[FOLDPLOVER_MOST_RULES + 1];
    struct foldplover_rule full;
    uint32_t numbers[FOLDPLOVER_NUMBERS];
    size_t place;
    expect("a struct's size", sizeof full, FOLDPLOVER_NUMBERS * sizeof numbers[0]);
    for (place = 0; place < 5; place++) {
        expect("a rule of the cell list",
               foldplover_rule(list + 2 + place * RECORD, RECORD, numbers, FOLDPLOVER_NUMBERS), 0);
        memcpy(&rules[place], numbers, sizeof numbers);
    }
    expect("table: destination 9", lookup_table(9, 80, 6, rules, 5), 0);
    expect("table: destination 20", lookup_table(20, 80, 6, rules, 5), 2);
    expect("table: destination port 81", lookup_table(15, 81, 6, rules, 5), 6);
    expect("table: destination port 80", lookup_table(15, 80, 6, rules, 5), 9);
    expect("table: four rules", lookup_table(15, 80, 6, rules, 4),
           REFUSAL(FOLDPLOVER_NOT_COMPLETE));
    expect("table: protocol 256", lookup_table(15, 80, 256, rules, 5),
           REFUSAL(FOLDPLOVER_NOT_COMPLETE));
    expect("table: port 65,536", lookup_table(15, 65536, 6, rules, 5),
           REFUSAL(FOLDPLOVER_NOT_COMPLETE));
    expect("table: no rule", lookup_table(9, 80, 6, rules, 0), REFUSAL(FOLDPLOVER_COUNT_OUTSIDE));
    full = rules[4];
    rules[1].high[2] = 65536;
    expect("table: before port 65,536", lookup_table(9, 80, 6, rules, 5), 0);
    expect("table: at port 65,536", lookup_table(20, 80, 6, rules, 5),
           REFUSAL(FOLDPLOVER_RULE_BAD));
    rules[1] = full;
    rules[1].action = 2;
    expect("table: before action 2", lookup_table(9, 80, 6, rules, 5), 0);
    expect("table: at action 2", lookup_table(20, 80, 6, rules, 5), REFUSAL(FOLDPLOVER_RULE_BAD));
    rules[1] = full;
    rules[1].low[0] = 8;
    rules[1].high[0] = 7;
    expect("table: low above high", lookup_table(20, 80, 6, rules, 5),
           REFUSAL(FOLDPLOVER_RULE_BAD));
    for (place = 0; place <= FOLDPLOVER_MOST_RULES; place++) {
        rules[place] = full;
        rules[place].high[4] = 5;
    }
    rules[FOLDPLOVER_MOST_RULES - 1] = full;
    expect("table: the last of 1,024", lookup_table(9, 80, 6, rules, FOLDPLOVER_MOST_RULES),
           2 * (FOLDPLOVER_MOST_RULES - 1) + 1);
    expect("table: 1,025 rules", lookup_table(9, 80, 6, rules, FOLDPLOVER_MOST_RULES + 1),
           REFUSAL(FOLDPLOVER_COUNT_OUTSIDE));
}

static uint32_t insert(uint32_t which, size_t place, const uint8_t *record, size_t length)
{
    return foldplover_insert(sheet, sizeof sheet, PAIR_LENGTH, which, place, record, length, work,
                             sizeof work);
}

static void test_edits(void)
{
    uint8_t record[RECORD];
    move_dairy();
    memcpy(record, full_allow, RECORD);
    record[7] = 7;
    record[26] = 0;
    expect("insert a deny", insert(FOLDPLOVER_A, 0, record, RECORD), PAIR_LENGTH + 27 + 2 + 26);
    expect("check of the insert", check(PAIR_LENGTH + 27 + 2 + 26), 0);
    expect("delete it",
           foldplover_delete(sheet, sizeof sheet, PAIR_LENGTH + 27 + 2 + 26, FOLDPLOVER_A, 0, work,
                             sizeof work),
           PAIR_LENGTH);
    expect_dairy("sheet after insert and delete");
    memcpy(record, dairy + 2, RECORD);
    record[26] = 0;
    expect("replace the allow by a deny",
           foldplover_replace(sheet, sizeof sheet, PAIR_LENGTH, FOLDPLOVER_A, 0, record, RECORD,
                              work, sizeof work),
           ORDER_LENGTH + 2 + 28 + 28);
    expect("check of the replace", check(ORDER_LENGTH + 2 + 28 + 28), 0);
    expect("replace the deny by the allow",
           foldplover_replace(sheet, sizeof sheet, ORDER_LENGTH + 2 + 28 + 28, FOLDPLOVER_A, 0,
                              dairy + 2, RECORD, work, sizeof work),
           PAIR_LENGTH);
    expect_dairy("sheet after two replaces");
    expect("delete the allow",
           foldplover_delete(sheet, sizeof sheet, PAIR_LENGTH, FOLDPLOVER_A, 0, work, sizeof work),
           ORDER_LENGTH - RECORD + 2 + 28);
    expect("check of the delete", check(ORDER_LENGTH - RECORD + 2 + 28), 0);
    move_dairy();
    expect("insert in B", insert(FOLDPLOVER_B, 1, full_allow, RECORD), PAIR_LENGTH + RECORD);
    expect_bytes("groups after an insert in B", sheet + ORDER_LENGTH + RECORD, dairy_groups,
                 sizeof dairy_groups);
}

/* What the last call of origin left, its fourth number included. */
static uint32_t found[FOLDPLOVER_ORIGIN + 1];

static void forget_origin(void)
{
    size_t place;
    for (place = 0; place <= FOLDPLOVER_ORIGIN; place++) {
        found[place] = UNTOUCHED;
    }
    memset(work, UNTOUCHED, sizeof work);
}

static uint32_t origin(uint32_t dst, uint32_t dport, uint32_t proto, size_t length)
{
    forget_origin();
    return foldplover_origin(1, dst, 5, dport, proto, sheet, length, found, FOLDPLOVER_ORIGIN + 1,
                             work, sizeof work);
}

static void expect_found(const char *what, uint32_t which, uint32_t place, uint32_t box)
{
    expect(what, found[0], which);
    expect(what, found[1], place);
    expect(what, found[2], box);
    expect("the fourth number", found[FOLDPLOVER_ORIGIN], UNTOUCHED);
}

static void expect_origin_refused(const char *what, uint32_t got, int number)
{
    expect(what, got, REFUSAL(number));
    expect_found(what, UNTOUCHED, UNTOUCHED, UNTOUCHED);
}

/* The answers of test_lookup, with the rules behind them: the gate's deny stands at place 1. */
static void test_origin(void)
{
    move_dairy();
    expect("origin: destination 9", origin(9, 80, 6, PAIR_LENGTH), 0);
    expect_found("destination 9", FOLDPLOVER_A, 1, 0);
    expect_all("work after an origin", work, 0, FOLDPLOVER_WORK);
    expect_all("behind work after an origin", work + FOLDPLOVER_WORK, UNTOUCHED, 1);
    expect("origin: destination 20", origin(20, 80, 6, PAIR_LENGTH), 2);
    expect_found("destination 20", FOLDPLOVER_A, 1, 1);
    expect("origin: destination port 79", origin(15, 79, 6, PAIR_LENGTH), 4);
    expect_found("destination port 79", FOLDPLOVER_A, 1, 2);
    expect("origin: destination port 81", origin(15, 81, 6, PAIR_LENGTH), 6);
    expect_found("destination port 81", FOLDPLOVER_A, 1, 3);
    expect("origin: destination port 80", origin(15, 80, 6, PAIR_LENGTH), 9);
    expect_found("destination port 80", FOLDPLOVER_B, 0, 0);
    forget_origin();
    expect("origin: three numbers",
           foldplover_origin(1, 30, 5, 80, 6, sheet, PAIR_LENGTH, found, FOLDPLOVER_ORIGIN, work,
                             FOLDPLOVER_WORK),
           9);
    expect_found("three numbers", FOLDPLOVER_B, 0, 0);
    expect_dairy("sheet after origins");
}

static void put_deny_of_30(uint8_t *record)
{
    memcpy(record, full_allow, RECORD);
    memset(record + 8, 0, 8);
    record[11] = record[15] = 30;
    record[26] = 0;
}

/* A deny of destination 30 put in front of the gate's deny, and one of 31 in front of the cell's
 * own rule: each moves what stands behind it. */
static void test_origin_after_edits(void)
{
    const size_t edited = PAIR_LENGTH + 27 + 2 + 26;
    uint8_t record[RECORD];
    move_dairy();
    put_deny_of_30(record);
    expect("insert a deny of 30", insert(FOLDPLOVER_A, 1, record, RECORD), (uint32_t)edited);
    record[11] = record[15] = 31;
    expect("insert a deny of 31",
           foldplover_insert(sheet, sizeof sheet, edited, FOLDPLOVER_B, 0, record, RECORD, work,
                             sizeof work),
           (uint32_t)edited + RECORD);
    expect("origin: destination 30", origin(30, 80, 6, edited + RECORD), 0);
    expect_found("destination 30", FOLDPLOVER_A, 1, 0);
    expect("origin: destination 20, edited", origin(20, 80, 6, edited + RECORD), 4);
    expect_found("destination 20, edited", FOLDPLOVER_A, 2, 1);
    expect("origin: destination 31", origin(31, 80, 6, edited + RECORD), 10);
    expect_found("destination 31", FOLDPLOVER_B, 0, 0);
    expect("origin: destination 32", origin(32, 80, 6, edited + RECORD), 13);
    expect_found("destination 32", FOLDPLOVER_B, 1, 0);
}

static void test_origin_refusals(void)
{
    move_dairy();
    expect_origin_refused("origin: protocol 256", origin(15, 80, 256, PAIR_LENGTH),
                          FOLDPLOVER_NOT_COMPLETE);
    expect_all("work after 5", work, 0, FOLDPLOVER_WORK);
    expect_origin_refused("origin: port 65,536", origin(15, 65536, 6, PAIR_LENGTH),
                          FOLDPLOVER_NOT_COMPLETE);
    expect_origin_refused("origin: a byte more", origin(9, 80, 6, PAIR_LENGTH + 1),
                          FOLDPLOVER_LENGTH_WRONG);
    sheet[PAIR_LENGTH - 1] = 7;
    expect_origin_refused("origin: another box", origin(9, 80, 6, PAIR_LENGTH),
                          FOLDPLOVER_GROUPS_DIFFER);
    expect_origin_refused("origin: another box, protocol 256", origin(9, 80, 256, PAIR_LENGTH),
                          FOLDPLOVER_GROUPS_DIFFER);
    expect_all("work after 8", work, 0, FOLDPLOVER_WORK);
    forget_origin();
    expect_origin_refused("origin: two numbers",
                          foldplover_origin(1, 9, 5, 80, 6, sheet, PAIR_LENGTH, found, 2, work,
                                            sizeof work),
                          FOLDPLOVER_BUFFER_SHORT);
    expect_origin_refused("origin: short work",
                          foldplover_origin(1, 9, 5, 80, 6, sheet, PAIR_LENGTH, found, 3, work,
                                            FOLDPLOVER_WORK - 1),
                          FOLDPLOVER_BUFFER_SHORT);
    expect_all("work after origin's 1", work, UNTOUCHED, sizeof work);
}

#define PLACES 5u
#define PACKETS 5u

/* Source 1, source port 5, protocol 6. The gate drops the first three at place 1: boxes 0, 1 and 3.
 * It forwards the last two from places 0 and 2, and so does the cell. */
static const uint8_t packets[PACKETS * FOLDPLOVER_PACKET] = {
    0x00, 0x00, 0x00, 0x01, 0x00, 0x00, 0x00, 0x09, 0x00, 0x05, 0x00, 0x50, 0x06,
    0x00, 0x00, 0x00, 0x01, 0x00, 0x00, 0x00, 0x14, 0x00, 0x05, 0x00, 0x50, 0x06,
    0x00, 0x00, 0x00, 0x01, 0x00, 0x00, 0x00, 0x0f, 0x00, 0x05, 0x00, 0x51, 0x06,
    0x00, 0x00, 0x00, 0x01, 0x00, 0x00, 0x00, 0x0f, 0x00, 0x05, 0x00, 0x50, 0x06,
    0x00, 0x00, 0x00, 0x01, 0x00, 0x00, 0x00, 0x1e, 0x00, 0x05, 0x00, 0x50, 0x06};

/* The second counter rolls over, the third stands still, the fourth takes all hits but one of a
 * whole roll. Behind the places of the example stands one more. */
static const uint8_t earlier[(PLACES + 1) * FOLDPLOVER_READING] = {
    0x00, 0x00, 0x00, 0x00, 0xff, 0xff, 0xff, 0xfe, 0x80, 0x00, 0x00, 0x00,
    0x00, 0x00, 0x00, 0x01, 0x01, 0x02, 0x03, 0x04, 0x00, 0x00, 0x00, 0x05};
static const uint8_t later[(PLACES + 1) * FOLDPLOVER_READING] = {
    0x00, 0x00, 0x00, 0x11, 0x00, 0x00, 0x00, 0x03, 0x80, 0x00, 0x00, 0x00,
    0x00, 0x00, 0x00, 0x00, 0x02, 0x04, 0x06, 0x08, 0x00, 0x00, 0x00, 0x0c};
static const uint32_t hits_between[PLACES + 1] = {17, 5, 0, 4294967295u, 0x01020304, 7};

/* What the last report left, one more than the least of each. */
static uint64_t totals[FOLDPLOVER_TOTALS + 1];
static uint32_t hits[FOLDPLOVER_HITS + 1];

static void forget_report(void)
{
    memset(totals, UNTOUCHED, sizeof totals);
    memset(hits, UNTOUCHED, sizeof hits);
    memset(work, UNTOUCHED, sizeof work);
}

static uint32_t report(size_t length, const uint8_t *bytes, size_t bytes_length,
                       size_t earlier_length, size_t later_length)
{
    forget_report();
    return foldplover_report(sheet, length, bytes, bytes_length, earlier, earlier_length, later,
                             later_length, totals, FOLDPLOVER_TOTALS + 1, hits,
                             FOLDPLOVER_HITS + 1, work, sizeof work);
}

/* Both readings of so many places. */
static uint32_t report_over(size_t length, const uint8_t *bytes, size_t bytes_length,
                            size_t places)
{
    return report(length, bytes, bytes_length, places * FOLDPLOVER_READING,
                  places * FOLDPLOVER_READING);
}

static void expect_report(const char *what, const uint64_t *wanted, size_t places)
{
    const uint8_t *total_bytes = (const uint8_t *)totals, *hit_bytes = (const uint8_t *)hits;
    const size_t total_end = FOLDPLOVER_TOTALS * sizeof totals[0];
    const size_t hit_end = FOLDPLOVER_HITS * sizeof hits[0], filled = places * sizeof hits[0];
    expect_bytes(what, total_bytes, (const uint8_t *)wanted, total_end);
    expect_bytes(what, hit_bytes, (const uint8_t *)hits_between, filled);
    expect_all("hits behind the places", hit_bytes + filled, 0, hit_end - filled);
    expect_all("the seventh total", total_bytes + total_end, UNTOUCHED, sizeof totals - total_end);
    expect_all("the 1,025th hits", hit_bytes + hit_end, UNTOUCHED, sizeof hits - hit_end);
    expect_all("work after a report", work, 0, FOLDPLOVER_WORK);
    expect_all("behind work after a report", work + FOLDPLOVER_WORK, UNTOUCHED, 1);
}

static void expect_report_refused(const char *what, uint32_t got, int number)
{
    const uint8_t left = number == FOLDPLOVER_BUFFER_SHORT ? UNTOUCHED : 0;
    expect(what, got, REFUSAL(number));
    expect_all(what, (const uint8_t *)totals, UNTOUCHED, sizeof totals);
    expect_all(what, (const uint8_t *)hits, UNTOUCHED, sizeof hits);
    expect_all(what, work, left, FOLDPLOVER_WORK);
    expect_all(what, work + FOLDPLOVER_WORK, UNTOUCHED, 1);
}

static void test_report(void)
{
    /* 2 + 2 + 2 in the gate, then 1 + 1 and 3 + 1; 1 and the new place + 1, five times. */
    static const uint64_t all[FOLDPLOVER_TOTALS] = {5, 12, 22, 2, 6, 11};
    static const uint64_t last[FOLDPLOVER_TOTALS] = {1, 4, 6, 1, 2, 3};
    static const uint64_t none[FOLDPLOVER_TOTALS] = {0, 0, 0, 0, 0, 0};
    move_dairy();
    expect("report", report_over(PAIR_LENGTH, packets, sizeof packets, PLACES), PLACES);
    expect_report("report", all, PLACES);
    expect("report: the last packet",
           report_over(PAIR_LENGTH, packets + 4 * FOLDPLOVER_PACKET, FOLDPLOVER_PACKET, PLACES),
           PLACES);
    expect_report("the last packet", last, PLACES);
    expect("report: no packets", report_over(PAIR_LENGTH, packets, 0, PLACES), PLACES);
    expect_report("no packets", none, PLACES);
    forget_report();
    expect("report: no room to spare",
           foldplover_report(sheet, PAIR_LENGTH, packets, sizeof packets, earlier,
                             PLACES * FOLDPLOVER_READING, later, PLACES * FOLDPLOVER_READING,
                             totals, FOLDPLOVER_TOTALS, hits, FOLDPLOVER_HITS, work,
                             FOLDPLOVER_WORK),
           PLACES);
    expect_report("no room to spare", all, PLACES);
    expect_dairy("sheet after reports");
}

/* An own deny of destination 30 drops the last packet, and the one before it tries a rule more. */
static void test_report_after_edit(void)
{
    static const uint64_t edited[FOLDPLOVER_TOTALS] = {5, 13, 23, 1, 13, 23};
    uint8_t record[RECORD];
    move_dairy();
    put_deny_of_30(record);
    expect("insert an own deny", insert(FOLDPLOVER_B, 0, record, RECORD), PAIR_LENGTH + RECORD);
    expect("report: an own deny",
           report_over(PAIR_LENGTH + RECORD, packets, sizeof packets, PLACES + 1), PLACES + 1);
    expect_report("an own deny", edited, PLACES + 1);
    expect_report_refused("report: the places of before",
                          report_over(PAIR_LENGTH + RECORD, packets, sizeof packets, PLACES),
                          FOLDPLOVER_LENGTH_WRONG);
}

/* Packets of zeros: 3 + 1 tries before, 1 + 5 after. */
static void test_report_of_many(void)
{
    static const uint64_t most[FOLDPLOVER_TOTALS] = {1000000, 4000000, 6000000, 1000000, 2, 3};
    static uint8_t many[(FOLDPLOVER_MOST_PACKETS + 1) * FOLDPLOVER_PACKET + 1];
    const size_t end = FOLDPLOVER_MOST_PACKETS * FOLDPLOVER_PACKET;
    move_dairy();
    expect("report: 1,000,000 packets", report_over(PAIR_LENGTH, many, end, PLACES), PLACES);
    expect_report("1,000,000 packets", most, PLACES);
    expect_report_refused("report: 1,000,000 and a broken one",
                          report_over(PAIR_LENGTH, many, end + 12, PLACES),
                          FOLDPLOVER_LENGTH_WRONG);
    expect_report_refused("report: 1,000,001",
                          report_over(PAIR_LENGTH, many, end + FOLDPLOVER_PACKET, PLACES),
                          FOLDPLOVER_COUNT_OUTSIDE);
    expect_report_refused("report: 1,000,001 and a broken one",
                          report_over(PAIR_LENGTH, many, sizeof many, PLACES),
                          FOLDPLOVER_COUNT_OUTSIDE);
    expect_report_refused("report: 1,000,001, readings of another list",
                          report_over(PAIR_LENGTH, many, sizeof many, PLACES + 1),
                          FOLDPLOVER_LENGTH_WRONG);
}

static void test_report_refusals(void)
{
    const size_t whole = PLACES * FOLDPLOVER_READING;
    move_dairy();
    expect_report_refused("report: a broken packet",
                          report_over(PAIR_LENGTH, packets, sizeof packets - 1, PLACES),
                          FOLDPLOVER_LENGTH_WRONG);
    expect_report_refused("report: a byte of a packet",
                          report_over(PAIR_LENGTH, packets, 1, PLACES), FOLDPLOVER_LENGTH_WRONG);
    expect_report_refused("report: earlier too short",
                          report(PAIR_LENGTH, packets, sizeof packets, whole - 1, whole),
                          FOLDPLOVER_LENGTH_WRONG);
    expect_report_refused("report: earlier too long",
                          report(PAIR_LENGTH, packets, sizeof packets, whole + 1, whole),
                          FOLDPLOVER_LENGTH_WRONG);
    expect_report_refused("report: later too short",
                          report(PAIR_LENGTH, packets, sizeof packets, whole, whole - 4),
                          FOLDPLOVER_LENGTH_WRONG);
    expect_report_refused("report: later too long",
                          report(PAIR_LENGTH, packets, sizeof packets, whole, whole + 4),
                          FOLDPLOVER_LENGTH_WRONG);
    expect_report_refused("report: no readings", report_over(PAIR_LENGTH, packets, 0, 0),
                          FOLDPLOVER_LENGTH_WRONG);
    sheet[PAIR_LENGTH - 1] = 7;
    expect_report_refused("report: another box, no readings",
                          report_over(PAIR_LENGTH, packets, 1, 0), FOLDPLOVER_GROUPS_DIFFER);
    sheet[1] = 0;
    expect_report_refused("report: no gate rule, no readings",
                          report_over(PAIR_LENGTH, packets, 1, 0), FOLDPLOVER_COUNT_OUTSIDE);
}

static void test_report_buffers(void)
{
    move_dairy();
    forget_report();
    expect_report_refused("report: five totals",
                          foldplover_report(sheet, 0, packets, 1, earlier, 0, later, 0, totals,
                                            FOLDPLOVER_TOTALS - 1, hits, FOLDPLOVER_HITS, work,
                                            sizeof work),
                          FOLDPLOVER_BUFFER_SHORT);
    expect_report_refused("report: 1,023 hits",
                          foldplover_report(sheet, 0, packets, 1, earlier, 0, later, 0, totals,
                                            FOLDPLOVER_TOTALS, hits, FOLDPLOVER_HITS - 1, work,
                                            sizeof work),
                          FOLDPLOVER_BUFFER_SHORT);
    expect_report_refused("report: short work",
                          foldplover_report(sheet, 0, packets, 1, earlier, 0, later, 0, totals,
                                            FOLDPLOVER_TOTALS, hits, FOLDPLOVER_HITS, work,
                                            FOLDPLOVER_WORK - 1),
                          FOLDPLOVER_BUFFER_SHORT);
}

static uint32_t remove_rule(size_t used, uint32_t which, size_t place)
{
    return foldplover_delete(sheet, sizeof sheet, used, which, place, work, sizeof work);
}

static void test_edit_refusals(void)
{
    uint8_t record[RECORD];
    memcpy(record, full_allow, RECORD);
    move_dairy();
    expect("stated length", remove_rule(SIZE_MAX, FOLDPLOVER_A, 0),
           REFUSAL(FOLDPLOVER_BUFFER_SHORT));
    expect("stated one short", remove_rule(PAIR_LENGTH - 1, FOLDPLOVER_A, 0),
           REFUSAL(FOLDPLOVER_LENGTH_WRONG));
    expect("place 3", remove_rule(PAIR_LENGTH, FOLDPLOVER_A, 3), REFUSAL(FOLDPLOVER_NO_PLACE));
    expect("largest place", remove_rule(PAIR_LENGTH, FOLDPLOVER_B, SIZE_MAX),
           REFUSAL(FOLDPLOVER_NO_PLACE));
    expect("list 2", remove_rule(PAIR_LENGTH, 2, 0), REFUSAL(FOLDPLOVER_NO_PLACE));
    expect("the only own rule", remove_rule(PAIR_LENGTH, FOLDPLOVER_B, 0),
           REFUSAL(FOLDPLOVER_COUNT_OUTSIDE));
    expect("the last gate rule", remove_rule(PAIR_LENGTH, FOLDPLOVER_A, 2),
           REFUSAL(FOLDPLOVER_NOT_COMPLETE));
    expect("place 4", insert(FOLDPLOVER_A, 4, record, 26), REFUSAL(FOLDPLOVER_NO_PLACE));
    expect("26 bytes", insert(FOLDPLOVER_A, 3, record, 26), REFUSAL(FOLDPLOVER_LENGTH_WRONG));
    record[26] = 2;
    expect("action 2", insert(FOLDPLOVER_A, 3, record, RECORD), REFUSAL(FOLDPLOVER_RULE_BAD));
    expect("not full at the end", insert(FOLDPLOVER_A, 3, dairy + 2, RECORD),
           REFUSAL(FOLDPLOVER_NOT_COMPLETE));
    expect("action 2 in a replace",
           foldplover_replace(sheet, sizeof sheet, PAIR_LENGTH, FOLDPLOVER_B, 0, record, RECORD,
                              work, sizeof work),
           REFUSAL(FOLDPLOVER_RULE_BAD));
    expect_dairy("sheet after refused edits");
    expect_all("work after refused edits", work, 0, FOLDPLOVER_WORK);
}

static void test_split_and_join(void)
{
    static uint8_t a[FOLDPLOVER_A_LIST + 1];
    static uint8_t b[FOLDPLOVER_B_LIST + 1];
    memset(a, UNTOUCHED, sizeof a);
    memset(b, UNTOUCHED, sizeof b);
    memset(order, UNTOUCHED, sizeof order);
    expect("short B list",
           foldplover_split(dairy, ORDER_LENGTH, a, sizeof a, b, FOLDPLOVER_B_LIST - 1),
           REFUSAL(FOLDPLOVER_BUFFER_SHORT));
    expect("split", foldplover_split(dairy, ORDER_LENGTH, a, sizeof a, b, sizeof b), A_LENGTH);
    expect_bytes("A list", a, dairy, A_LENGTH);
    expect_all("behind the A list", a + A_LENGTH, 0, FOLDPLOVER_A_LIST - A_LENGTH);
    expect_all("beyond 1,730", a + FOLDPLOVER_A_LIST, UNTOUCHED, 1);
    expect_bytes("B list", b, dairy + A_LENGTH, 29);
    expect_all("behind the B list", b + 29, 0, FOLDPLOVER_B_LIST - 29);
    expect_all("beyond 6,914", b + FOLDPLOVER_B_LIST, UNTOUCHED, 1);
    expect("join with a byte left over",
           foldplover_join(a, A_LENGTH + 1, b, 29, order, sizeof order),
           REFUSAL(FOLDPLOVER_LENGTH_WRONG));
    expect_all("order sheet after a refusal", order, UNTOUCHED, sizeof order);
    expect("join", foldplover_join(a, A_LENGTH, b, 29, order, sizeof order), ORDER_LENGTH);
    expect_bytes("joined sheet", order, dairy, ORDER_LENGTH);
    expect_all("behind the order sheet", order + ORDER_LENGTH, 0,
               FOLDPLOVER_ORDER_SHEET - ORDER_LENGTH);
    expect_all("beyond 8,644", order + FOLDPLOVER_ORDER_SHEET, UNTOUCHED, 1);
}

static void test_record(void)
{
    static const uint32_t wanted[FOLDPLOVER_NUMBERS] = {
        0, 10, 0, 80, 6, 4294967295u, 19, 65535, 80, 6, 1};
    uint32_t numbers[FOLDPLOVER_NUMBERS + 1];
    uint8_t record[RECORD + 1];
    uint32_t place;
    numbers[FOLDPLOVER_NUMBERS] = 5;
    record[RECORD] = UNTOUCHED;
    expect("ten numbers", foldplover_rule(dairy + 2, RECORD, numbers, 10),
           REFUSAL(FOLDPLOVER_BUFFER_SHORT));
    expect("26 bytes", foldplover_rule(dairy + 2, 26, numbers, 12),
           REFUSAL(FOLDPLOVER_LENGTH_WRONG));
    expect("rule", foldplover_rule(dairy + 2, RECORD, numbers, 12), 0);
    for (place = 0; place < FOLDPLOVER_NUMBERS; place++) {
        expect("a number of the rule", numbers[place], wanted[place]);
    }
    expect("the twelfth number", numbers[FOLDPLOVER_NUMBERS], 5);
    expect("record", foldplover_record(numbers, 12, record, sizeof record), RECORD);
    expect_bytes("record's bytes", record, dairy + 2, RECORD);
    expect_all("behind the record", record + RECORD, UNTOUCHED, 1);
    expect("short record", foldplover_record(numbers, 11, record, 26),
           REFUSAL(FOLDPLOVER_BUFFER_SHORT));
    numbers[5 + 2] = 65536;
    expect("port 65,536", foldplover_record(numbers, 11, record, RECORD),
           REFUSAL(FOLDPLOVER_RULE_BAD));
    expect_bytes("record after a refusal", record, dairy + 2, RECORD);
}

int main(void)
{
    test_move();
    test_move_refusals();
    test_limits();
    test_missed();
    test_check();
    move_dairy();
    test_gate_list();
    test_cell_list();
    test_lookup_table();
    test_lookup();
    test_lookup_fields();
    test_lookup_bad();
    test_edits();
    test_origin();
    test_origin_after_edits();
    test_origin_refusals();
    test_report();
    test_report_after_edit();
    test_report_of_many();
    test_report_refusals();
    test_report_buffers();
    test_edit_refusals();
    test_split_and_join();
    test_record();
    return verdict();
}
