/* Rooms and inputs as they are lent to a call: each ends at a page that cannot be touched, or begins behind one, so that a step beyond it ends the
 * program; on its other side lie some bytes that must stay. */
#ifndef JOGASMUN_LEND_H
#define JOGASMUN_LEND_H

#include <stddef.h>
#include <stdint.h>

/* So many places, ways to fill one, and bytes that one may have. */
enum { LENT = 11, DIRTS = 8, LONGEST = 24000000 };

/* How the rooms are lent: what they hold, whether at the front of their pages, and whether an empty one is NULL. */
typedef struct {
    int dirt, front, null;
    unsigned seed;
} Lending;

/* Lends place `which` as n entries of `size` bytes, at the end of its pages or at their front. */
void *lend(int which, size_t n, size_t size, int front);

/* Fills it in one of DIRTS ways; 0 is zero, 1 zero but for one entry, which `seed` chooses. */
void soil(int which, int dirt, unsigned seed);

/* Keeps what it holds now. */
void keep(int which);

/* Whether it holds the `count` entries of `answer` in front, zero up to `stated`, and behind that what was kept; and whether its neighbours stayed. */
int holds(int which, const void *answer, size_t count, size_t stated);

#endif
