/* Plans a sheet through the console library as often as asked, with the arguments and the output of plain.cpp. With
   -DDESK the sheet goes through the desk library, with no channel on air: its planning call takes form 3 too. */

#define _POSIX_C_SOURCE 200809L
#include "guvtemi_desk.h"

#include <stdio.h>
#include <stdlib.h>
#include <string.h>
#include <time.h>

#ifdef DESK
#define NAME "desk"
enum { MOST_LINKS = 128 };
#else
#define NAME "console"
enum { MOST_LINKS = 64 };
#endif

static const char usage[] =
    "usage: " NAME " SHEET FILTER CHOICE LIMIT [SECONDS [CLASSES]]\n"
    "Plans SHEET through the " NAME " library. Prints the answer, the nodes, and the plan in kHz in link order. With SECONDS\n"
    "above 0 the call is repeated for that long, and a second line gives the processor time of one call and the calls timed.\n"
    "CLASSES is a file of one byte a vertex, for choice 2.\n";

static size_t read_file(const char *path, uint8_t *bytes, size_t most)
{
    FILE *file = fopen(path, "rb");
    if (file == NULL) {
        fprintf(stderr, NAME ": cannot read %s\n", path);
        exit(2);
    }
    size_t length = fread(bytes, 1, most, file);
    fclose(file);
    return length;
}

/* The processor time of this program: other programs on the machine do not count. */
static double processor_time(void)
{
    struct timespec t;
    clock_gettime(CLOCK_PROCESS_CPUTIME_ID, &t);
    return (double)t.tv_sec + 1e-9 * (double)t.tv_nsec;
}

static uint8_t sheet[GUVTEMI_ENOUGH_SHEET_BYTES + 1], classes[1024], cells[4 * MOST_LINKS];

static uint64_t plan(size_t length, uint32_t filter, uint32_t choice, uint32_t limit, size_t listed)
{
#ifdef DESK
    return guvtemi_plan_job(sheet, length, NULL, 0, filter, choice, limit, classes, listed, cells, sizeof cells);
#else
    return guvtemi_plan(sheet, length, filter, choice, limit, classes, listed, cells, sizeof cells);
#endif
}

int main(int argc, char **argv)
{
    if (argc == 2 && strcmp(argv[1], "--help") == 0) {
        fputs(usage, stdout);
        return 0;
    }
    if (argc < 5 || argc > 7) {
        fputs(usage, stderr);
        return 2;
    }
    size_t length = read_file(argv[1], sheet, sizeof sheet);
    uint32_t filter = (uint32_t)strtoul(argv[2], NULL, 10), choice = (uint32_t)strtoul(argv[3], NULL, 10);
    uint32_t limit = (uint32_t)strtoul(argv[4], NULL, 10);
    double seconds = argc > 5 ? atof(argv[5]) : 0;
    size_t listed = argc > 6 ? read_file(argv[6], classes, sizeof classes) : 0;

    /* Batches of calls, each twice as long as the one before; the last one counts. */
    uint64_t returned = 0;
    long calls = 1;
    double took;
    for (;; calls *= 2) {
        double start = processor_time();
        for (long i = 0; i < calls; i++)
            returned = plan(length, filter, choice, limit, listed);
        took = processor_time() - start;
        if (took >= seconds)
            break;
    }

    uint32_t number = guvtemi_number(returned);
    const char *word = number == GUVTEMI_FOUND ? "found" : number == GUVTEMI_NONE ? "none"
                     : number == GUVTEMI_STOPPED ? "stopped" : "refused";
    printf("%s %u", word, (unsigned)(number < 100 ? number : guvtemi_nodes(returned)));
    for (size_t link = 0; number == GUVTEMI_FOUND && link < sheet[4]; link++)
        printf(" %u", (unsigned)guvtemi_khz(cells, link));
    printf("\n");
    if (seconds > 0)
        printf("%.9f %ld\n", took / (double)calls, calls);
    return 0;
}
