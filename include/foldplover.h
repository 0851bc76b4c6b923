/*
 * Foldplover: moves a firewall policy from a gate filter to a cell filter.
 *
 * How to call it
 *
 * A buffer is handed over as where it begins and how long it is. No two buffers of one call may
 * overlap, and also an empty one needs a pointer that is valid. A buffer may be longer than needed;
 * what lies behind the end named at the call is never changed. Nothing is remembered from one call
 * to the next, so calls with buffers of their own may run at the same time.
 *
 * Every call answers one number: a value below FOLDPLOVER_REFUSED, or FOLDPLOVER_REFUSED plus one
 * of the refusals below. A refused call leaves every output as it was, the pair sheet of a refused
 * edit included. Calls that borrow work leave its first FOLDPLOVER_WORK bytes zero, accepted or
 * refused; only FOLDPLOVER_BUFFER_SHORT leaves it untouched, since that answer touches nothing.
 *
 * Bytes
 *
 * Numbers are big-endian. A rule takes 27 bytes, its record: the range (low, then high) of source
 * address (4 bytes each), destination address (4), source port (2), destination port (2) and
 * protocol (1), then the action (1): 0 denies, 1 allows. A box is a record without its action. A
 * list is a two-byte count and its records. An order sheet is two lists, A (gate rules) and B (the
 * cell's own rules). A pair sheet is an order sheet, a two-byte count of groups, and for each group
 * a two-byte count and its boxes: one group for each deny rule of A. So a pair sheet begins with
 * its order sheet. docs/FORMATS.md has all of it in tables.
 *
 * Loading
 *
 * After a move load the cell list first, then the gate list: in between the pair forwards what it
 * forwarded before. To go back load the gate's old list first. After an edit only the cell list has
 * changed. A move is right only where both filters see the same packets.
 * docs/FORMATS.md, section 7, says why, and section 8 has stack, time and linking.
 *
 * In what order refusals are given
 *
 * FOLDPLOVER_BUFFER_SHORT comes before all else. Then the input is read byte after byte, and
 * whatever is wrong first is the answer. Reading a list, section A or section B: count there
 * (LENGTH_WRONG) and within its limits (COUNT_OUTSIDE), all records there (LENGTH_WRONG), each
 * record in turn (RULE_BAD), last rule full (NOT_COMPLETE). Reading the groups: their count there
 * (LENGTH_WRONG) and right (GROUPS_DIFFER); for each group its count there (LENGTH_WRONG), boxes so
 * far and own rules not over 1,024 (TOO_MANY_BOXES), its boxes there (LENGTH_WRONG), each box
 * (RULE_BAD). Where the input should end: nothing more (LENGTH_WRONG).
 *
 * At the calls 'reading {2, 3, 4, 5}' stands for this: which of these numbers is given depends on
 * where the first one lies in the input, not on the order in which they are written.
 */
#ifndef FOLDPLOVER_H
#define FOLDPLOVER_H

#include <stddef.h>
#include <stdint.h>

#ifdef __cplusplus
extern "C" {
#endif

/* The least length of each buffer that is written, and how far it is zeroed behind its content. */
#define FOLDPLOVER_PAIR_SHEET 28742u  /* pair sheet: move, insert, delete, replace */
#define FOLDPLOVER_WORK 53248u        /* work: move, edits, check, both lists, origin, report */
#define FOLDPLOVER_CELL_LIST 27650u   /* list: foldplover_cell_list */
#define FOLDPLOVER_GATE_LIST 29u      /* list: foldplover_gate_list */
#define FOLDPLOVER_ORDER_SHEET 8644u  /* order sheet: foldplover_join */
#define FOLDPLOVER_A_LIST 1730u       /* A list: foldplover_split */
#define FOLDPLOVER_B_LIST 6914u       /* B list: foldplover_split */
#define FOLDPLOVER_RECORD 27u         /* record: foldplover_record, and every record read */
#define FOLDPLOVER_NUMBERS 11u        /* a rule as numbers: 5 lows, 5 highs, action */
#define FOLDPLOVER_ORIGIN 3u          /* foldplover_origin, in numbers and not in bytes */
#define FOLDPLOVER_TOTALS 6u          /* totals: foldplover_report, in numbers */
#define FOLDPLOVER_HITS 1024u         /* hits: foldplover_report, in numbers */

/* What foldplover_report reads, in bytes. */
#define FOLDPLOVER_PACKET 13u
#define FOLDPLOVER_READING 4u         /* for each place of the cell list */

/* Counts. */
#define FOLDPLOVER_MOST_GATE_RULES 64u
#define FOLDPLOVER_MOST_OWN_RULES 256u
#define FOLDPLOVER_MOST_RULES 1024u   /* of a list; of pieces; of boxes and own rules together */
#define FOLDPLOVER_MOST_PACKETS 1000000u

/* The list that an edit changes, or that an origin names. */
#define FOLDPLOVER_A 0u               /* gate rules */
#define FOLDPLOVER_B 1u               /* the cell's own rules */

/* An answer from here on is a refusal: the number is what it exceeds this by. */
#define FOLDPLOVER_REFUSED 65536u

enum foldplover_refusal {
    FOLDPLOVER_BUFFER_SHORT = 1,    /* a buffer below its least length, or used beyond its buffer */
    FOLDPLOVER_COUNT_OUTSIDE = 2,   /* a list without a rule or with too many; too many packets */
    FOLDPLOVER_LENGTH_WRONG = 3,    /* input too short or too long; a record not of 27 bytes; readings
                                       not of 4 bytes a place, or the last packet not whole */
    FOLDPLOVER_RULE_BAD = 4,        /* a range or an action that cannot be */
    FOLDPLOVER_NOT_COMPLETE = 5,    /* no full rule at the end; no rule has the packet */
    FOLDPLOVER_TOO_MANY_PIECES = 6, /* over 1,024 pieces of one deny rule after some allow */
    FOLDPLOVER_TOO_MANY_BOXES = 7,  /* boxes and own rules together exceed 1,024 */
    FOLDPLOVER_GROUPS_DIFFER = 8,   /* wrong number of groups; groups not what A gives */
    FOLDPLOVER_NO_PLACE = 9         /* no such place, or a list neither A nor B */
};

/*
 * Moves the gate's policy: reads an order sheet, writes the pair sheet it gives.
 *
 * Answers the pair sheet's length. sheet: the pair sheet, zero from there up to 28,742.
 * Refuses in this order: 1 (sheet, work); reading the order sheet {2, 3, 4, 5}; then 6; then 7.
 */
uint32_t foldplover_move(const uint8_t *order, size_t order_len,
                         uint8_t *sheet, size_t sheet_len,
                         uint8_t *work, size_t work_len);

/*
 * Puts a record in before the rule at a place of A or B; the place after the last rule counts, and
 * a record put in there has to be a full rule, since the list has to end in one.
 *
 * The pair sheet is the first used bytes of sheet: used is what move or the last accepted edit
 * answered. Answers its new length. sheet: the edited pair sheet, zero from there up to 28,742.
 * Groups before the place stay as they stand, and so do those after it if the record is a deny;
 * its own group, and after an allow all later ones, are worked out anew. An insert in B keeps all
 * groups. Groups are not compared with A here.
 * Refuses in this order: 1 (sheet, work, used above sheet_len); reading the pair sheet {2, 3, 4, 5,
 * 7, 8}; then 9 (list, place); 3 (record not of 27 bytes); 2 (one rule too many); 4 (the record);
 * 5 (last rule of the edited list); 6 (groups worked out anew); 7 (all groups with B).
 */
uint32_t foldplover_insert(uint8_t *sheet, size_t sheet_len, size_t used,
                           uint32_t list, size_t place,
                           const uint8_t *record, size_t record_len,
                           uint8_t *work, size_t work_len);

/*
 * Takes out the rule at a place of A or B.
 *
 * Answers and leaves what foldplover_insert does. In A groups before the place stay; those after
 * it stay if a deny is taken out, and are worked out anew if an allow is. In B all groups stay.
 * Refuses in this order: 1; reading {2, 3, 4, 5, 7, 8}; then 9; 2 (the only rule); 5; 6; 7.
 */
uint32_t foldplover_delete(uint8_t *sheet, size_t sheet_len, size_t used,
                           uint32_t list, size_t place,
                           uint8_t *work, size_t work_len);

/*
 * Puts a record in for the rule at a place of A or B.
 *
 * Answers and leaves what foldplover_insert does. In A groups before the place stay; those after
 * it stay if neither the old rule nor the new one is an allow; the group of a deny put in is
 * always worked out anew. In B all groups stay.
 * Refuses in this order: 1; reading {2, 3, 4, 5, 7, 8}; then 9; 3; 4; 5; 6; 7.
 */
uint32_t foldplover_replace(uint8_t *sheet, size_t sheet_len, size_t used,
                            uint32_t list, size_t place,
                            const uint8_t *record, size_t record_len,
                            uint8_t *work, size_t work_len);

/*
 * Says whether sheet is a pair sheet whose groups are what its section A gives.
 *
 * sheet_len is the pair sheet's own length: bytes behind it are left over. Answers 0.
 * Refuses in this order: 1 (work); reading the pair sheet {2, 3, 4, 5, 7, 8}; then 6; then 8.
 */
uint32_t foldplover_check(const uint8_t *sheet, size_t sheet_len,
                          uint8_t *work, size_t work_len);

/*
 * Checks a pair sheet and writes the list to load into the cell filter: the boxes of all groups,
 * each as a deny rule, and behind them the cell's own rules.
 *
 * Answers the list's length. list: the list, zero from there up to 27,650.
 * Refuses in this order: 1 (list, work); then as foldplover_check.
 */
uint32_t foldplover_cell_list(const uint8_t *sheet, size_t sheet_len,
                              uint8_t *list, size_t list_len,
                              uint8_t *work, size_t work_len);

/*
 * Checks a pair sheet and writes the list to load into the gate filter: one full allow rule.
 *
 * Answers 29, which is all that is written.
 * Refuses in this order: 1 (list, work); then as foldplover_check.
 */
uint32_t foldplover_gate_list(const uint8_t *sheet, size_t sheet_len,
                              uint8_t *list, size_t list_len,
                              uint8_t *work, size_t work_len);

/*
 * Finds the first rule of a list that has the packet. An address is a plain number: 10.10.4.2 is
 * 0x0A0A0402. Both ports are 0 where the protocol has none. A number above its field's highest is
 * in no rule.
 *
 * Answers 2 x place + action. Writes nothing. The list need not be complete, and no record behind
 * the rule found is looked at. A filter lets the packet through only where the answer is below
 * FOLDPLOVER_REFUSED and odd, and drops it at any refusal: some refusals are odd numbers too.
 * Refuses in this order: 3 (count missing); 2 (count not 1 to 1,024); 3 (length not exactly that of
 * the records); then from rule to rule 4 (a bad one before any that has the packet); 5 (none has).
 */
uint32_t foldplover_lookup(uint32_t src, uint32_t dst, uint32_t sport, uint32_t dport,
                           uint32_t proto,
                           const uint8_t *list, size_t list_len);

/*
 * A rule in memory, fields in the order source, destination, source port, destination port,
 * protocol: the eleven numbers of the record calls in their order, 44 bytes without gaps. Between
 * the struct and an array of eleven numbers, copy the 44 bytes with memcpy; C does not let a
 * pointer into low reach beyond its five numbers.
 *
 * The call foldplover_rule has the same name. The type is always written struct foldplover_rule, in
 * C++ too: foldplover_rule alone is the call (g++ -Wshadow warns of this).
 */
struct foldplover_rule {
    uint32_t low[5];
    uint32_t high[5];
    uint32_t action;
};

/*
 * The same lookup in a table of rules in memory. Rules read from a list get the list's answers.
 * count is the number of rules; a count of 0 still takes a valid pointer.
 *
 * Answers 2 x place + action. Writes nothing, and looks at no rule behind the one found.
 * Refuses in this order: 2 (count not 1 to 1,024); then from rule to rule 4 (a bad one, such as a
 * port over 65,535, before any that has the packet); 5 (none has).
 */
uint32_t foldplover_lookup_table(uint32_t src, uint32_t dst, uint32_t sport, uint32_t dport,
                                 uint32_t proto,
                                 const struct foldplover_rule *rules, size_t count);

/*
 * Checks a pair sheet, looks the packet up in its cell list, and says whose rule decides it: a rule
 * of A by one of its boxes, or a rule of B. The packet is given as in foldplover_lookup.
 *
 * Answers 2 x place + action, as foldplover_lookup does in the list that foldplover_cell_list
 * writes. Test for FOLDPLOVER_REFUSED first: some refusals are odd, and numbers is then as it was.
 * numbers: the list (FOLDPLOVER_A or FOLDPLOVER_B) and the rule's place in it, as an edit takes
 * them (in A denies and allows count), and the number of the box inside the rule's group (0 in B);
 * any further ones stay. Show people the rule, or its place with the words 'counted from 0', and
 * not the answer's place: in A that is mostly another rule's, or none's.
 * numbers_len counts numbers, not bytes; sheet_len is the pair sheet's own length, which move or
 * the last edit answered.
 * Refuses in this order: 1 (fewer than 3 numbers, work); then as foldplover_check; then 5 (no rule
 * has the packet: a number is above its field's highest. Where check refuses with 5, so does this).
 */
uint32_t foldplover_origin(uint32_t src, uint32_t dst, uint32_t sport, uint32_t dport,
                           uint32_t proto,
                           const uint8_t *sheet, size_t sheet_len,
                           uint32_t *numbers, size_t numbers_len,
                           uint8_t *work, size_t work_len);

/*
 * Checks a pair sheet and reports over packets: how many rules they try in the old pair and in the
 * moved pair, how many of them are forwarded, and the hits that the cell filter's own counters took
 * between two readings.
 *
 * A packet takes 13 bytes: source address (4), destination address (4), source port (2),
 * destination port (2), protocol (1). earlier and later are the counters as they were read, 4 bytes
 * for each place of the list that foldplover_cell_list writes, in its order. A counter goes from
 * 4,294,967,295 to 0; its hits are right while fewer than 4,294,967,296 lie between the readings.
 *
 * Answers how many places that list has. totals: packets; rules tried before (the gate's up to the
 * one that decides and, if it allows, the cell's own likewise); rules tried after (the new gate's
 * one, and the cell list's up to the one that decides); packets forwarded; and the gain, before
 * over after in lowest terms, as numerator and denominator, both 0 for no packets. hits: one number
 * for each place, zeros from there up to 1,024. Any further totals and hits stay.
 * totals_len and hits_len count numbers, not bytes; sheet_len is the pair sheet's own length.
 * Refuses in this order: 1 (fewer than 6 totals, fewer than 1,024 hits, work); then as
 * foldplover_check; 3 (earlier or later not of 4 bytes a place); 2 (more than 1,000,000 whole
 * packets); 3 (the last packet not whole).
 */
uint32_t foldplover_report(const uint8_t *sheet, size_t sheet_len,
                           const uint8_t *packets, size_t packets_len,
                           const uint8_t *earlier, size_t earlier_len,
                           const uint8_t *later, size_t later_len,
                           uint64_t *totals, size_t totals_len,
                           uint32_t *hits, size_t hits_len,
                           uint8_t *work, size_t work_len);

/*
 * Splits an order sheet into its A list and its B list.
 *
 * Answers the A list's length; the B list has the rest of order_len. a: the A list, zero from
 * there up to 1,730. b: the B list, zero from there up to 6,914.
 * Refuses in this order: 1 (a, b); reading the whole order sheet {2, 3, 4, 5}.
 */
uint32_t foldplover_split(const uint8_t *order, size_t order_len,
                          uint8_t *a, size_t a_len,
                          uint8_t *b, size_t b_len);

/*
 * Joins an A list and a B list into an order sheet.
 *
 * Answers the order sheet's length. order: the sheet, zero from there up to 8,644.
 * Refuses in this order: 1 (order); reading the A list {2, 3, 4, 5} to its end, where bytes left
 * over are 3; then the B list likewise.
 */
uint32_t foldplover_join(const uint8_t *a, size_t a_len,
                         const uint8_t *b, size_t b_len,
                         uint8_t *order, size_t order_len);

/*
 * Turns a record into a rule as numbers. numbers_len counts numbers, not bytes.
 *
 * Answers 0. numbers: the five lows, the five highs, the action; any further ones stay.
 * Refuses in this order: 1 (fewer than 11 numbers); 3 (record not of 27 bytes); 4 (a bad one).
 */
uint32_t foldplover_rule(const uint8_t *record, size_t record_len,
                         uint32_t *numbers, size_t numbers_len);

/*
 * Turns a rule as numbers into a record. numbers_len counts numbers; any after the eleventh are
 * not looked at.
 *
 * Answers 27, which is all that is written.
 * Refuses in this order: 1 (fewer than 11 numbers, or record below 27 bytes); 4 (a low above its
 * high, a value above its field's highest, an action above 1).
 */
uint32_t foldplover_record(const uint32_t *numbers, size_t numbers_len,
                           uint8_t *record, size_t record_len);

#ifdef __cplusplus
}
#endif

#endif
