/* Calls the functions of include/guvtemi_desk.h for records on standard input and writes what came back to standard output.

   A record, little-endian, 32 bits each: call (0 export, 1 import, 2 plan, 3 check, 4 spares, 5 heaviest, 6 count), three numbers (of
   plan and count: filter, choice, limit; of heaviest: k, m), the lengths of its slices, five numbers, then their bytes; those of a
   slice that is written are what it holds before. A number that a call has no use for is 0.
   An answer: the number returned (64 bits), 32 bits that are 0 where everything that must stay as it was did, then the bytes of each
   slice that is written.

   GUARD bytes stand before and after each slice. Without them every buffer has just its length, so that a memory checker sees each
   byte read or written past it. An empty slice is null. */

#include "guvtemi_desk.h"

#include <stdio.h>
#include <stdlib.h>
#include <string.h>

#ifndef GUARD
#define GUARD 0
#endif

enum { NUMBERS = 4, SLICES = 5 };

/* The slices of each call, and the first of them that it writes. */
static const struct {
    int slices, written;
} SHAPES[] = {{3, 1}, {3, 2}, {4, 3}, {3, 3}, {4, 3}, {1, 0}, {5, 3}};

typedef struct {
    size_t length;
    uint8_t *buffer, *before;
} Slice;

static void *space(size_t length)
{
    void *bytes = malloc(length ? length : 1);
    if (bytes == NULL) {
        fprintf(stderr, "desk_driver: no memory\n");
        exit(2);
    }
    return bytes;
}

static size_t whole(const Slice *slice)
{
    return slice->length + 2 * (size_t)GUARD;
}

static void take(Slice *slice)
{
    slice->buffer = space(whole(slice));
    slice->before = space(whole(slice));
    memset(slice->buffer, 0xa5, whole(slice));
    if (fread(slice->buffer + GUARD, 1, slice->length, stdin) != slice->length) {
        fprintf(stderr, "desk_driver: a record is cut short\n");
        exit(2);
    }
    memcpy(slice->before, slice->buffer, whole(slice));
}

static uint8_t *lent(const Slice *slice)
{
    return slice->length ? slice->buffer + GUARD : NULL;
}

static int changed(const Slice *slice, int written)
{
    if (!written)
        return memcmp(slice->buffer, slice->before, whole(slice)) != 0;
    size_t behind = GUARD + slice->length;
    return memcmp(slice->buffer, slice->before, GUARD) != 0 || memcmp(slice->buffer + behind, slice->before + behind, GUARD) != 0;
}

static uint64_t call(const uint32_t *numbers, const Slice *slices)
{
    const Slice *a = slices, *b = slices + 1, *c = slices + 2, *d = slices + 3, *e = slices + 4;
    switch (numbers[0]) {
    case 0:
        return guvtemi_export(lent(a), a->length, lent(b), b->length, lent(c), c->length);
    case 1:
        return guvtemi_import(lent(a), a->length, lent(b), b->length, lent(c), c->length);
    case 2:
        return guvtemi_plan_job(lent(a), a->length, lent(b), b->length, numbers[1], numbers[2], numbers[3], lent(c), c->length,
                                lent(d), d->length);
    case 3:
        return guvtemi_check_job(lent(a), a->length, lent(b), b->length, lent(c), c->length);
    case 4:
        return guvtemi_spares(lent(a), a->length, lent(b), b->length, lent(c), c->length, lent(d), d->length);
    case 5:
        return guvtemi_heaviest(numbers[1], numbers[2], lent(a), a->length);
    default:
        return guvtemi_count_job(lent(a), a->length, lent(b), b->length, numbers[1], numbers[2], numbers[3], lent(c), c->length,
                                 lent(d), d->length, lent(e), e->length);
    }
}

int main(void)
{
    uint32_t head[NUMBERS + SLICES];
    while (fread(head, sizeof head[0], NUMBERS + SLICES, stdin) == NUMBERS + SLICES) {
        if (head[0] >= sizeof SHAPES / sizeof SHAPES[0]) {
            fprintf(stderr, "desk_driver: there is no call %lu\n", (unsigned long)head[0]);
            return 2;
        }
        Slice slices[SLICES];
        int count = SHAPES[head[0]].slices, first_written = SHAPES[head[0]].written;
        for (int i = 0; i < count; i++) {
            slices[i].length = head[NUMBERS + i];
            take(&slices[i]);
        }
        uint64_t returned = call(head, slices);
        uint32_t other = 0;
        for (int i = 0; i < count; i++)
            other |= (uint32_t)changed(&slices[i], i >= first_written);
        fwrite(&returned, sizeof returned, 1, stdout);
        fwrite(&other, sizeof other, 1, stdout);
        for (int i = 0; i < count; i++) {
            if (i >= first_written)
                fwrite(slices[i].buffer + GUARD, 1, slices[i].length, stdout);
            free(slices[i].buffer), free(slices[i].before);
        }
    }
    return 0;
}
