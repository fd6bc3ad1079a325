/* How much stack a call takes: stack FUNCTION SHEET FILTER CHOICE LIMIT

   Runs one function of the libraries on a sheet in a thread whose stack was painted, and prints how many bytes of it were written. The
   functions: plan and check of libconsole.a, plan_job, count_job, check_job, spares, export, import and heaviest of libdesk.a; import reads what export
   writes, heaviest the file's first two bytes as k and m. The cells that check, check_job and spares read are the first frequency of each link. */

#define _GNU_SOURCE
#include "guvtemi_desk.h"

#include <pthread.h>
#include <stdio.h>
#include <stdlib.h>
#include <string.h>
#include <sys/mman.h>

enum { STACK = 4 << 20, PAINT = 0xa5, GRAPH = GUVTEMI_MOST_GRAPH_BYTES };

static uint8_t sheet[GUVTEMI_MOST_JOB_SHEET_BYTES], cells[4 * GUVTEMI_MOST_JOB_LINKS], counts[GUVTEMI_ENOUGH_PLAN_COUNT_BYTES];
static uint8_t table[GUVTEMI_MOST_TABLE_BYTES], graph[GRAPH], text[GUVTEMI_MOST_COUNT_BYTES], made[GUVTEMI_ENOUGH_SHEET_BYTES];
static size_t length, graph_length, text_length;
static uint32_t filter, choice, limit;
static const char *function;

static int is(const char *name)
{
    return strcmp(function, name) == 0;
}

static void *call(void *nothing)
{
    if (is("plan")) guvtemi_plan(sheet, length, filter, choice, limit, NULL, 0, cells, sizeof cells);
    if (is("check")) guvtemi_check(sheet, length, cells, sizeof cells);
    if (is("plan_job")) guvtemi_plan_job(sheet, length, NULL, 0, filter, choice, limit, NULL, 0, cells, sizeof cells);
    if (is("count_job")) guvtemi_count_job(sheet, length, NULL, 0, filter, choice, limit, NULL, 0, cells, sizeof cells, counts, sizeof counts);
    if (is("check_job")) guvtemi_check_job(sheet, length, NULL, 0, cells, sizeof cells);
    if (is("spares")) guvtemi_spares(sheet, length, NULL, 0, cells, sizeof cells, table, sizeof table);
    if (is("export")) guvtemi_export(sheet, length, graph, sizeof graph, text, sizeof text);
    if (is("import")) guvtemi_import(graph, graph_length, text, text_length, made, sizeof made);
    if (is("heaviest")) guvtemi_heaviest(sheet[0], sheet[1], made, sizeof made);
    return nothing;
}

/* The first frequency of each link of an accepted sheet. */
static void put_cells(void)
{
    size_t bytes = sheet[0] == 1 ? 4 : 8, links = sheet[4], freqs = 40 + bytes * links;
    for (size_t l = 0; l < links; l++) {
        size_t first = sheet[40 + bytes * l] + 256u * sheet[41 + bytes * l];
        memcpy(cells + 4 * l, sheet + freqs + 4 * first, 4);
    }
}

int main(int argc, char **argv)
{
    FILE *file = argc == 6 ? fopen(argv[2], "rb") : NULL;
    if (file == NULL) {
        fprintf(stderr, "usage: stack FUNCTION SHEET FILTER CHOICE LIMIT\n");
        return 2;
    }
    length = fread(sheet, 1, sizeof sheet, file);
    fclose(file);
    function = argv[1];
    filter = (uint32_t)strtoul(argv[3], NULL, 10);
    choice = (uint32_t)strtoul(argv[4], NULL, 10);
    limit = (uint32_t)strtoul(argv[5], NULL, 10);
    if (!is("heaviest")) put_cells();
    if (is("import")) {
        uint64_t returned = guvtemi_export(sheet, length, graph, sizeof graph, text, sizeof text);
        graph_length = guvtemi_graph_length(returned);
        text_length = guvtemi_counts_length(returned);
    }
    uint8_t *stack = mmap(NULL, STACK, PROT_READ | PROT_WRITE, MAP_PRIVATE | MAP_ANONYMOUS, -1, 0);
    pthread_attr_t own;
    pthread_t thread;
    if (stack == MAP_FAILED || pthread_attr_init(&own) || pthread_attr_setstack(&own, stack, STACK)) return 2;
    memset(stack, PAINT, STACK);
    if (pthread_create(&thread, &own, call, NULL) || pthread_join(thread, NULL)) return 2;
    size_t unused = 0;
    while (unused < STACK && stack[unused] == PAINT) unused++;
    printf("%zu\n", STACK - unused);
    return 0;
}
