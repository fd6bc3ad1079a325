/* Calls the two functions of include/guvtemi.h for records on standard input and writes what came back to standard output.
   Every buffer has just its length, so that a memory checker sees each byte read or written past it; an empty one is null.

   A record, little-endian: call (0 plan, 1 check), filter, choice, limit, sheet length, class list length, cells length
   (32 bits each), then the bytes of the three. An answer: the number returned (64 bits), 32 bits that are 0 where everything
   that must stay as it was did, then the cells' bytes. */

#include "guvtemi.h"

#include <stdio.h>
#include <stdlib.h>
#include <string.h>

static uint8_t *take(size_t length, uint8_t **copy)
{
    uint8_t *bytes = malloc(length ? length : 1);
    *copy = malloc(length ? length : 1);
    if (bytes == NULL || *copy == NULL || fread(bytes, 1, length, stdin) != length) {
        fprintf(stderr, "driver: a record is cut short\n");
        exit(2);
    }
    memcpy(*copy, bytes, length);
    return bytes;
}

int main(void)
{
    uint8_t head[28];
    while (fread(head, 1, sizeof head, stdin) == sizeof head) {
        uint32_t field[7];
        for (size_t i = 0; i < 7; i++)
            field[i] = guvtemi_khz(head, i);
        uint8_t *sheet_before, *classes_before, *cells_before;
        uint8_t *sheet = take(field[4], &sheet_before);
        uint8_t *classes = take(field[5], &classes_before);
        uint8_t *cells = take(field[6], &cells_before);

        const uint8_t *lent_sheet = field[4] ? sheet : NULL, *lent_classes = field[5] ? classes : NULL;
        uint8_t *lent_cells = field[6] ? cells : NULL;
        uint64_t returned = field[0] == 0
            ? guvtemi_plan(lent_sheet, field[4], field[1], field[2], field[3], lent_classes, field[5], lent_cells, field[6])
            : guvtemi_check(lent_sheet, field[4], lent_cells, field[6]);

        uint32_t changed = memcmp(sheet, sheet_before, field[4]) != 0 || memcmp(classes, classes_before, field[5]) != 0
            || (field[0] != 0 && memcmp(cells, cells_before, field[6]) != 0);
        uint8_t answer[12];
        for (int i = 0; i < 8; i++)
            answer[i] = (uint8_t)(returned >> (8 * i));
        for (int i = 0; i < 4; i++)
            answer[8 + i] = (uint8_t)(changed >> (8 * i));
        fwrite(answer, 1, sizeof answer, stdout);
        fwrite(cells, 1, field[6], stdout);

        free(sheet), free(sheet_before), free(classes), free(classes_before), free(cells), free(cells_before);
    }
    return 0;
}
