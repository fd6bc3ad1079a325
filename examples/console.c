/* Plans a sheet file through the console library, checks the plan and prints it. examples/build compiles and runs it. */

#include "guvtemi.h"

#include <stdio.h>
#include <string.h>

/* One byte more than the largest sheet: a longer file is then refused for its length. */
static uint8_t sheet[GUVTEMI_MOST_SHEET_BYTES + 1];
static uint8_t cells[4 * GUVTEMI_MOST_LINKS];

static const char usage[] = "usage: console SHEET\nPlans the binary sheet SHEET (tools/sheet make writes one) and prints the plan.\n";

int main(int argc, char **argv)
{
    if (argc == 2 && strcmp(argv[1], "--help") == 0) {
        fputs(usage, stdout);
        return 0;
    }
    if (argc != 2) {
        fputs(usage, stderr);
        return 2;
    }
    FILE *file = fopen(argv[1], "rb");
    if (file == NULL) {
        fprintf(stderr, "console: cannot open %s. Give the path of a binary sheet, such as examples/theatre.sheet.\n", argv[1]);
        return 2;
    }
    size_t length = fread(sheet, 1, sizeof sheet, file);
    if (ferror(file)) {
        fprintf(stderr, "console: cannot read %s. Give the path of a binary sheet, such as examples/theatre.sheet.\n", argv[1]);
        fclose(file);
        return 2;
    }
    fclose(file);

    static const uint8_t no_classes[1];
    uint64_t returned = guvtemi_plan(sheet, length, 7, 0, 1000000, no_classes, 0, cells, sizeof cells);
    uint32_t number = guvtemi_number(returned), nodes = guvtemi_nodes(returned);

    switch (number) {
    case GUVTEMI_FOUND:
        printf("found %u\n", (unsigned)nodes);
        break;
    case GUVTEMI_NONE:
        printf("none %u\n", (unsigned)nodes);
        return 1;
    case GUVTEMI_STOPPED:
        printf("stopped %u\n", (unsigned)nodes);
        return 1;
    default:
        printf("refused %u\n", (unsigned)number);
        return 1;
    }

    /* The sheet was accepted, so byte 4 is the number of links, 1 to 64. */
    size_t links = sheet[4];
    for (size_t link = 0; link < links; link++)
        printf("%u %u\n", (unsigned)link, (unsigned)guvtemi_khz(cells, link));

    if (guvtemi_check(sheet, length, cells, sizeof cells) != GUVTEMI_YES) {
        fprintf(stderr, "console: the check does not agree with the plan: do not tune by it\n");
        return 2;
    }
    return 0;
}
