/* Guvtemi's two calls for a console's C or C++ program. Link with crates/console/out/libconsole.a
   (written by `rt lib` in crates/console; x86-64).

   A sheet is bytes as in docs/FORMAT.md: guvtemi_plan plans forms 1 and 2, guvtemi_check takes form 3 too. Sheets of
   form 3, with up to 128 links, are planned by guvtemi_plan_job of guvtemi_desk.h. Cells are bytes too: four a cell,
   little-endian, the kHz of one link each, in link order.

   The caller keeps three things:
   - a pointer is null only where its length is 0;
   - each pointer has at least as many bytes as its length says;
   - the cells of guvtemi_plan overlap neither sheet nor classes, and nothing else writes any of them during a call.
   Everything else is the callee's: every byte sequence and every number gets an answer.

   The calls keep nothing between them, so several threads may call at once, each with cells of its own. A call of
   guvtemi_plan takes up to 112 KiB of stack (docs/ASSURANCE.md). */

#ifndef GUVTEMI_H
#define GUVTEMI_H

#include <stddef.h>
#include <stdint.h>

#ifdef __cplusplus
extern "C" {
#endif

/* Numbers of an answer. 1 to 12 and 16 are refusals: README.md lists them. */
enum {
    GUVTEMI_NO = 0,        /* check: the cells are no plan of this sheet */
    GUVTEMI_YES = 100,     /* check: the cells are a plan that keeps every rule */
    GUVTEMI_FOUND = 100,   /* plan: the first cells hold a plan */
    GUVTEMI_NONE = 101,    /* plan: there is no plan */
    GUVTEMI_STOPPED = 102  /* plan: the node limit was reached first */
};

/* Limits of a sheet that guvtemi_plan plans, of one that guvtemi_check takes, and of the node limit. */
enum {
    GUVTEMI_MOST_LINKS = 64,                 /* of forms 1 and 2 */
    GUVTEMI_MOST_SHEET_BYTES = 59560,        /* of form 2; of form 1 59304 */
    GUVTEMI_MOST_CHECK_LINKS = 128,          /* of form 3 */
    GUVTEMI_MOST_CHECK_SHEET_BYTES = 62120,  /* of form 3 */
    GUVTEMI_MOST_NODES = 1000000000
};

/* Plans a sheet of form 1 or 2. The answer to one of form 3 is refusal 3, whatever it holds and whatever the other
   arguments are, unless it is refused with 1 or 2.
   filter   0 to 7: 1 pre-filter, 2 colour sweep, 4 unit and failed vertices, added up; 7 is a good choice
   choice   the working partition: 0 the links, 1 greedy classes, 2 the caller's classes
   limit    the most nodes to enter, 1 to 1,000,000,000
   classes  for choice 2 one byte a frequency of the sheet; not read for choices 0 and 1
   cells    at least four bytes a link; found fills the first cells, every other byte becomes 0, on every answer
   Returns the nodes plus 2^32 times the answer's number. */
uint64_t guvtemi_plan(const uint8_t *sheet, size_t sheet_len, uint32_t filter, uint32_t choice, uint32_t limit,
                      const uint8_t *classes, size_t classes_len, uint8_t *cells, size_t cells_len);

/* Checks cells against a sheet: GUVTEMI_YES exactly if each link's cell is in its list, all rules hold, and links
   without a rule differ in frequency; GUVTEMI_NO if not, or the refusal's number. A sheet of form 2 or 3 is judged by
   its links' widths. Writes nothing. */
uint64_t guvtemi_check(const uint8_t *sheet, size_t sheet_len, const uint8_t *cells, size_t cells_len);

/* The answer's number and the nodes in what guvtemi_plan returned. */
static inline uint32_t guvtemi_number(uint64_t returned) { return (uint32_t)(returned >> 32); }
static inline uint32_t guvtemi_nodes(uint64_t returned) { return (uint32_t)returned; }

/* The kHz in cell number `link`. */
static inline uint32_t guvtemi_khz(const uint8_t *cells, size_t link)
{
    const uint8_t *cell = cells + 4 * link;
    return (uint32_t)cell[0] | (uint32_t)cell[1] << 8 | (uint32_t)cell[2] << 16 | (uint32_t)cell[3] << 24;
}

#ifdef __cplusplus
}
#endif

#endif
