/* Whose rule decides a packet once an order sheet is moved: origin ORDER SOURCE DESTINATION SOURCE-PORT DESTINATION-PORT PROTOCOL
 * Addresses are dotted or decimal, the rest is decimal; ports are 0 where the protocol has none. Rules and boxes count from 0. The
 * sheet is moved in memory only: nothing is written. */
#include <stdio.h>
#include <stdlib.h>
#include <string.h>

#include "foldplover.h"

static uint8_t order[FOLDPLOVER_ORDER_SHEET + 1]; /* a byte more than the largest: a longer file is refused */
static uint8_t sheet[FOLDPLOVER_PAIR_SHEET];
static uint8_t work[FOLDPLOVER_WORK];

static int number(const char *text, uint32_t *value) {
    size_t digits = strspn(text, "0123456789");
    if (digits == 0 || digits > 10 || text[digits] != '\0' || strtoull(text, NULL, 10) > UINT32_MAX) return 0;
    *value = (uint32_t)strtoull(text, NULL, 10);
    return 1;
}

static int address(const char *text, uint32_t *value) {
    unsigned a, b, c, d;
    char rest;
    if (strchr(text, '.') == NULL) return number(text, value);
    if (text[strspn(text, "0123456789.")] != '\0' || sscanf(text, "%3u.%3u.%3u.%3u%c", &a, &b, &c, &d, &rest) != 4) return 0;
    *value = (uint32_t)a << 24 | (uint32_t)b << 16 | (uint32_t)c << 8 | (uint32_t)d;
    return a <= 255 && b <= 255 && c <= 255 && d <= 255;
}

static void print_address(const char *before, uint32_t x) {
    printf("%s%u.%u.%u.%u", before, (unsigned)(x >> 24), (unsigned)(x >> 16 & 255), (unsigned)(x >> 8 & 255), (unsigned)(x & 255));
}

/* The rule at a place of A or B, as the sheet has it: action, then the ranges of both addresses, both ports and the protocol. */
static void print_rule(uint32_t list, uint32_t place) {
    const uint8_t *a = sheet, *b = sheet + 2 + FOLDPLOVER_RECORD * (256u * a[0] + a[1]);
    uint32_t r[FOLDPLOVER_NUMBERS];
    foldplover_rule((list == FOLDPLOVER_A ? a : b) + 2 + FOLDPLOVER_RECORD * place, FOLDPLOVER_RECORD, r, FOLDPLOVER_NUMBERS);
    printf("%s", r[10] == 1 ? "allow" : "deny");
    for (int k = 0; k < 2; k++) print_address(" ", r[k]), print_address("-", r[k + 5]);
    for (int k = 2; k < 5; k++) printf(" %u-%u", (unsigned)r[k], (unsigned)r[k + 5]);
    printf("\n");
}

int main(int count, char **words) {
    uint32_t p[5], found[FOLDPLOVER_ORIGIN];
    if (count != 7 || !address(words[2], &p[0]) || !address(words[3], &p[1]) || !number(words[4], &p[2]) ||
        !number(words[5], &p[3]) || !number(words[6], &p[4]))
        return fprintf(stderr, "usage: origin ORDER SOURCE DESTINATION SOURCE-PORT DESTINATION-PORT PROTOCOL\n"
                               "addresses dotted or decimal, ports and protocol decimal, ports 0 where there are none\n"), 2;
    FILE *file = fopen(words[1], "rb");
    if (file == NULL) return perror(words[1]), 2;
    size_t length = fread(order, 1, sizeof order, file);
    if (ferror(file)) return perror(words[1]), 2;
    fclose(file);

    uint32_t used = foldplover_move(order, length, sheet, sizeof sheet, work, sizeof work);
    if (used >= FOLDPLOVER_REFUSED) return printf("refused %u\n", (unsigned)(used - FOLDPLOVER_REFUSED)), 1;
    uint32_t answer = foldplover_origin(p[0], p[1], p[2], p[3], p[4], sheet, used, found, FOLDPLOVER_ORIGIN, work, sizeof work);
    if (answer == FOLDPLOVER_REFUSED + FOLDPLOVER_NOT_COMPLETE) return printf("no rule: a number is above its field's highest\n"), 1;
    if (answer >= FOLDPLOVER_REFUSED) return printf("refused %u\n", (unsigned)(answer - FOLDPLOVER_REFUSED)), 1;
    const char *verdict = answer % 2 == 1 ? "forwarded" : "dropped";
    printf("%s by %s rule %u (counted from 0)", verdict, found[0] == FOLDPLOVER_A ? "gate" : "own", (unsigned)found[1]);
    if (found[0] == FOLDPLOVER_A) printf(", its box %u", (unsigned)found[2]);
    printf("; place %u of the cell list\n", (unsigned)(answer / 2));
    print_rule(found[0], found[1]);
    return fflush(stdout) == 0 ? 0 : (perror("origin"), 2);
}
