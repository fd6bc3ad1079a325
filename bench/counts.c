/* Counts the plans of a sheet, or plans it, through the desk library as often as asked. */

#define _POSIX_C_SOURCE 200809L
#include "guvtemi_desk.h"

#include <stdio.h>
#include <stdlib.h>
#include <string.h>
#include <time.h>

static const char usage[] =
    "usage: counts SHEET FILTER SECONDS count|plan\n"
    "Counts the plans of SHEET, or plans it, under FILTER and choice 0, with the largest limit, repeated for SECONDS.\n"
    "Prints the answer's number, the nodes and, of counting, the number of plans; then the processor time of one call.\n";

static size_t read_file(const char *path, uint8_t *bytes, size_t most)
{
    FILE *file = fopen(path, "rb");
    if (file == NULL) {
        fprintf(stderr, "counts: cannot read %s\n", path);
        exit(2);
    }
    size_t length = fread(bytes, 1, most, file);
    fclose(file);
    return length;
}

/* The processor time of this program: other programs on the machine do not count. */
static double processor_time(void)
{
    struct timespec t;
    clock_gettime(CLOCK_PROCESS_CPUTIME_ID, &t);
    return (double)t.tv_sec + 1e-9 * (double)t.tv_nsec;
}

static uint8_t sheet[GUVTEMI_MOST_SHEET_BYTES + 1], cells[4 * GUVTEMI_MOST_LINKS];
static uint8_t counts[GUVTEMI_ENOUGH_PLAN_COUNT_BYTES];

static uint64_t call(int counting, size_t length, uint32_t filter)
{
    if (counting)
        return guvtemi_count_job(sheet, length, NULL, 0, filter, 0, GUVTEMI_MOST_NODES, NULL, 0, cells, sizeof cells,
                                 counts, sizeof counts);
    return guvtemi_plan_job(sheet, length, NULL, 0, filter, 0, GUVTEMI_MOST_NODES, NULL, 0, cells, sizeof cells);
}

int main(int argc, char **argv)
{
    if (argc == 2 && strcmp(argv[1], "--help") == 0) {
        fputs(usage, stdout);
        return 0;
    }
    if (argc != 5 || (strcmp(argv[4], "count") != 0 && strcmp(argv[4], "plan") != 0)) {
        fputs(usage, stderr);
        return 2;
    }
    size_t length = read_file(argv[1], sheet, sizeof sheet);
    uint32_t filter = (uint32_t)strtoul(argv[2], NULL, 10);
    double seconds = atof(argv[3]), took;
    int counting = strcmp(argv[4], "count") == 0;

    /* Batches of calls, each twice as long as the one before; the last one counts. */
    uint64_t returned = 0;
    long calls = 1;
    for (;; calls *= 2) {
        double start = processor_time();
        for (long i = 0; i < calls; i++)
            returned = call(counting, length, filter);
        took = processor_time() - start;
        if (took >= seconds)
            break;
    }

    uint64_t plans = 0, first_count = sheet[42] | sheet[43] << 8;  /* the frequencies of the first link */
    for (size_t v = 0; v < first_count && v < sizeof counts / 8; v++)
        plans += guvtemi_plans(counts, v);
    printf("%u %u %llu\n%.9f\n", (unsigned)guvtemi_number(returned), (unsigned)guvtemi_nodes(returned),
           (unsigned long long)plans, took / (double)calls);
    return 0;
}
