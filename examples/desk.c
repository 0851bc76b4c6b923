/* From an order sheet in a file to the two lists to load, each in a file: desk ORDER GATE CELL [PAIR]
 * Load CELL first, then GATE: in between the two filters forward what they forwarded before. PAIR gets
 * the pair sheet, which edits, origin and report take. */
#include <stdio.h>

#include "foldplover.h"

static uint8_t order[FOLDPLOVER_ORDER_SHEET + 1]; /* a byte more than the largest: a longer file is refused */
static uint8_t sheet[FOLDPLOVER_PAIR_SHEET];
static uint8_t gate[FOLDPLOVER_GATE_LIST];
static uint8_t cell[FOLDPLOVER_CELL_LIST];
static uint8_t work[FOLDPLOVER_WORK];

static int save(const char *name, const uint8_t *bytes, uint32_t length) {
    FILE *file = fopen(name, "wb");
    if (file == NULL) return 0;
    size_t written = fwrite(bytes, 1, length, file);
    return fclose(file) == 0 && written == length;
}

int main(int count, char **names) {
    if (count != 4 && count != 5) return fprintf(stderr, "usage: desk ORDER GATE CELL [PAIR]\n"), 2;
    FILE *file = fopen(names[1], "rb");
    if (file == NULL) return perror(names[1]), 2;
    size_t length = fread(order, 1, sizeof order, file);
    if (ferror(file)) return perror(names[1]), 2;
    fclose(file);

    uint32_t used = foldplover_move(order, length, sheet, sizeof sheet, work, sizeof work);
    if (used >= FOLDPLOVER_REFUSED) return printf("refused %u\n", (unsigned)(used - FOLDPLOVER_REFUSED)), 1;
    uint32_t up = foldplover_gate_list(sheet, used, gate, sizeof gate, work, sizeof work);
    uint32_t down = foldplover_cell_list(sheet, used, cell, sizeof cell, work, sizeof work);
    if (up >= FOLDPLOVER_REFUSED || down >= FOLDPLOVER_REFUSED) return printf("not a sheet of a move\n"), 1;
    if (!save(names[2], gate, up) || !save(names[3], cell, down)) return perror("desk"), 2;
    if (count == 5 && !save(names[4], sheet, used)) return perror("desk"), 2;
    printf("gate %u bytes, cell %u bytes\n", (unsigned)up, (unsigned)down);
    return 0;
}
