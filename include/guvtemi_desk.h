/* Guvtemi's calls for a planner's desk: a job planned and checked with the television channels on air, how many plans
   use each of its frequencies, the spare spacing of every two links of a plan, a sheet's graph as DIMACS text, a sheet
   from such a text, and the job that takes the most nodes. Link with crates/desk/out/libdesk.a (written by
   `rt lib` in crates/desk; x86-64). The numbers of an answer and guvtemi_number, guvtemi_nodes and guvtemi_khz are those
   of guvtemi.h, which this header includes; the two functions declared there are in libconsole.a.

   A sheet is bytes as in docs/FORMAT.md, of form 1, 2 or 3; every call that reads one takes all three. A channel list is
   bytes too, a channel on air each, 21 to 48, strictly rising; channel c covers 470,000 + 8,000(c - 21) kHz up to, but
   without, 8,000 more: docs/CHART.md has all. No bytes are no list. The two texts are those of docs/DIMACS.md; a text is
   just the bytes lent, with no zero at its end.

   The caller keeps three things:
   - a pointer is null only where its length is 0;
   - each pointer has at least as many bytes as its length says;
   - what a call writes overlaps nothing else that is lent to it, and nothing else writes any of it during a call.
   Everything else is the callee's: every byte sequence and every number gets an answer.

   The calls keep nothing between them, so several threads may call at once, each with outputs of its own. A call of
   guvtemi_plan_job takes up to 304 KiB of stack, one of guvtemi_count_job up to 320, of guvtemi_export up to 160 and of
   guvtemi_spares up to 144, for every form; the others take up to 72 (docs/ASSURANCE.md). */

#ifndef GUVTEMI_DESK_H
#define GUVTEMI_DESK_H

#include "guvtemi.h"

#include <stddef.h>
#include <stdint.h>

#ifdef __cplusplus
extern "C" {
#endif

/* Causes of these calls. 1 to 8 and 16 are the sheet's refusals, 9, 10 and 12 those of planning and counting, 10 also
   of check and spares: README.md lists them. */
enum {
    GUVTEMI_WRITTEN = 0,       /* export, import and heaviest: no refusal, the outputs hold the result */
    GUVTEMI_MALFORMED = 13,    /* import: a text is malformed, or beyond 64 links or 512 frequencies */
    GUVTEMI_BAD_EDGE = 14,     /* import: an edge inside a link, or repeated either way round */
    GUVTEMI_NO_ROOM = 15,      /* more than 8,192 pairs of kind 3, or an output shorter than what this call writes */
    GUVTEMI_BAD_CHANNELS = 17, /* plan, count, check, spares: a channel out of 21 to 48, or not above the one before */
    GUVTEMI_BAD_SIZES = 18,    /* heaviest: k or m is 0, k above 64, k x m above 512, or the buffer under 65,536 bytes */
    GUVTEMI_FEW_COUNTS = 19    /* count: room for fewer counts than the sheet has frequencies */
};

/* Channels of a list. */
enum {
    GUVTEMI_FIRST_CHANNEL = 21,
    GUVTEMI_LAST_CHANNEL = 48,
    GUVTEMI_MOST_CHANNELS = 28
};

/* Limits of a sheet that these calls read: those of form 3. Forms 1 and 2 have up to 64 links and 512 frequencies. */
enum {
    GUVTEMI_MOST_JOB_LINKS = 128,
    GUVTEMI_MOST_JOB_FREQUENCIES = 1024,  /* also the bytes of the longest class list */
    GUVTEMI_MOST_JOB_SHEET_BYTES = 62120
};

/* Outputs of these sizes are long enough for every call. */
enum {
    GUVTEMI_MOST_GRAPH_BYTES = 5117642,     /* of guvtemi_export; of a sheet of form 1 or 2 1235834 */
    GUVTEMI_MOST_COUNT_BYTES = 355,         /* of guvtemi_export; of a sheet of form 1 or 2 177 */
    GUVTEMI_ENOUGH_SHEET_BYTES = 65536,     /* of guvtemi_import and guvtemi_heaviest */
    GUVTEMI_MOST_TABLE_BYTES = 65536,       /* of guvtemi_spares: 128 x 128 places of four bytes */
    GUVTEMI_ENOUGH_PLAN_COUNT_BYTES = 8192  /* of guvtemi_count_job: 1,024 counts of eight bytes */
};

/* Plans a sheet with channels on air: guvtemi_plan of guvtemi.h with a list beside the sheet, and with form 3 too. A
   frequency that a channel covers is struck: it is in no plan, and a link with no other frequency leaves no plan, in 0
   nodes. A sheet that is accepted in form 2 has the same answer, nodes and cells with form 3 in its header.
   channels  the channels on air; with no bytes the answer, nodes and cells of forms 1 and 2 are those of guvtemi_plan
   filter    0 to 7: 1 pre-filter, 2 colour sweep, 4 unit and failed vertices, added up; 7 is a good choice
   choice    the working partition: 0 the links, 1 greedy classes, 2 the caller's classes
   limit     the most nodes to enter, 1 to 1,000,000,000
   classes   for choice 2 one byte a frequency of the sheet, also for a struck one; not read for choices 0 and 1
   cells     at least four bytes a link; found fills the first cells, every other byte becomes 0, on every answer
   Returns the nodes plus 2^32 times the answer's number: as guvtemi_plan, or 17, which comes after 10 and before 12. */
uint64_t guvtemi_plan_job(const uint8_t *sheet, size_t sheet_len, const uint8_t *channels, size_t channels_len,
                          uint32_t filter, uint32_t choice, uint32_t limit, const uint8_t *classes, size_t classes_len,
                          uint8_t *cells, size_t cells_len);

/* Plans a sheet with channels on air and counts its plans: how many use each frequency. The search goes on after a plan
   to the end of its tree; this longer tree is the one whose nodes are reported and held to the limit. channels, filter,
   choice, limit, classes and cells are as for guvtemi_plan_job; unless stopped, so are verdict and plan.
   counts    at least eight bytes a frequency of the sheet, also for a struck one; found fills them with a count for each
             frequency in the sheet's order, little-endian; every other byte becomes 0, on every answer; guvtemi_plans
             reads them
   A count is the number of plans with that frequency, whatever filter and choice, and 0 for a struck one; those of a
   link's frequencies sum to the number of plans, for every link. Without a plan all are 0, and the nodes are those of
   guvtemi_plan_job. Stopped leaves counts and cells zero, also where the search has met plans.
   Returns the nodes plus 2^32 times the answer's number: as guvtemi_plan_job, or 19, which comes after 12. */
uint64_t guvtemi_count_job(const uint8_t *sheet, size_t sheet_len, const uint8_t *channels, size_t channels_len,
                           uint32_t filter, uint32_t choice, uint32_t limit, const uint8_t *classes, size_t classes_len,
                           uint8_t *cells, size_t cells_len, uint8_t *counts, size_t counts_len);

/* Checks cells against a sheet and the channels on air: guvtemi_check of guvtemi.h, which a struck frequency fails:
   GUVTEMI_NO, no refusal. A refusal is as there, or 17, which comes after 10. Writes nothing. */
uint64_t guvtemi_check_job(const uint8_t *sheet, size_t sheet_len, const uint8_t *channels, size_t channels_len,
                           const uint8_t *cells, size_t cells_len);

/* Checks cells as guvtemi_check_job does, and writes the spare spacing of every two links in half kHz: zero or more where
   the two links allow their two frequencies, below zero where they do not (docs/FORMAT.md).
   table    at least four bytes for each of the k x k places, k being the links of the sheet; place (a, b), row by row, is
            the spare spacing of links a and b, signed and little-endian; guvtemi_spare reads it
   The table is filled where the call is not refused and each of the first k cells is in its link's list: also where two
   links clash, or a channel strikes a frequency, and the answer is GUVTEMI_NO. It is zero in the places (a, a) and past
   the k x k places, and wholly zero where it is not filled.
   Returns what guvtemi_check_job returns, but 10 also where the table is too short. */
uint64_t guvtemi_spares(const uint8_t *sheet, size_t sheet_len, const uint8_t *channels, size_t channels_len,
                        const uint8_t *cells, size_t cells_len, uint8_t *table, size_t table_len);

/* Writes the graph of a sheet as text, without any channel list.
   graph    `p edge n m`, then a line `e u v` for each edge, u < v, rising
   counts   the number of frequencies of each link, one a line
   Both are zero past what is written, and wholly zero on a refusal; both lengths are then 0.
   Returns the graph text's length plus 2^32 times the count text's length plus 2^48 times the cause:
   0, 1 to 8, 15 or 16. */
uint64_t guvtemi_export(const uint8_t *sheet, size_t sheet_len, uint8_t *graph, size_t graph_len,
                        uint8_t *counts, size_t counts_len);

/* Writes the sheet of a graph: form 1, vertex v on v kHz. Links joined by all pairs get no rule, links joined by none
   kind 1 with value 9,999,999, all others kind 3. No two imported links share a frequency, so those without a rule go
   together on any two.
   graph    edges in any order, either way round
   counts   as above
   sheet    zero past what is written, and wholly zero on a refusal; the length is then 0
   Returns the sheet's length plus 2^32 times the cause: 0, 13, 14 or 15. */
uint64_t guvtemi_import(const uint8_t *graph, size_t graph_len, const uint8_t *counts, size_t counts_len,
                        uint8_t *sheet, size_t sheet_len);

/* Writes the heaviest job: a sheet of form 1 of k links with m frequencies each that takes as many nodes under filter 0 and
   choice 0, with no channel on air, as any sheet of such links can: 2 + m + m^2 + .. + m^(k-1), and 2 for k = 1
   (docs/FORMAT.md). It has a plan, which the search finds last.
   k, m      1 to 64 links, 1 or more frequencies each, k x m at most 512; the product is exact
   buffer    at least GUVTEMI_ENOUGH_SHEET_BYTES; zero past the sheet, and wholly zero on a refusal; the length is then 0
   Returns the sheet's length plus 2^32 times the cause: 0 or 18. */
uint64_t guvtemi_heaviest(uint32_t k, uint32_t m, uint8_t *buffer, size_t buffer_len);

/* The half kHz in place (a, b) of a table of k links. */
static inline int32_t guvtemi_spare(const uint8_t *table, size_t k, size_t a, size_t b)
{
    uint32_t bits = guvtemi_khz(table, k * a + b);
    return bits < 0x80000000u ? (int32_t)bits : -(int32_t)(0xffffffffu - bits) - 1;
}

/* The number of plans with frequency number `v` of the sheet, counted through all links from 0. */
static inline uint64_t guvtemi_plans(const uint8_t *counts, size_t v)
{
    return guvtemi_khz(counts, 2 * v) | (uint64_t)guvtemi_khz(counts, 2 * v + 1) << 32;
}

/* The cause and the two lengths in what guvtemi_export returned. */
static inline uint32_t guvtemi_export_cause(uint64_t returned) { return (uint32_t)(returned >> 48); }
static inline uint32_t guvtemi_graph_length(uint64_t returned) { return (uint32_t)returned; }
static inline uint32_t guvtemi_counts_length(uint64_t returned) { return (uint32_t)(returned >> 32) & 0xffff; }

/* The cause and the length in what guvtemi_import or guvtemi_heaviest returned. */
static inline uint32_t guvtemi_import_cause(uint64_t returned) { return (uint32_t)(returned >> 32); }
static inline uint32_t guvtemi_heaviest_cause(uint64_t returned) { return (uint32_t)(returned >> 32); }
static inline uint32_t guvtemi_sheet_length(uint64_t returned) { return (uint32_t)returned; }

#ifdef __cplusplus
}
#endif

#endif
