/*
 * Memory that is lent to a call, with guards around it: guard bytes before and after, which a stray write changes, and
 * behind them, under a system, a page that nobody may touch, on which a stray read or write ends the program.
 */
#ifndef LENT_H
#define LENT_H

#include <stddef.h>
#include <stdint.h>

/* The most bytes that can be lent: more than the largest listing has, unless a small board has less. */
#ifndef LENT_MOST
#define LENT_MOST 139264
#endif

/* The most bytes of what a listing is lent besides: 8 for each line that there is room for, and a few where 8 are due.
 */
#define LENT_ORDER (LENT_MOST / 128 * 8)
#define LENT_WRITTEN 64

/* The most bytes of guards before what is lent, and behind it. */
#define LENT_GUARDS 64

struct lent {
    uint8_t *end; /* the page that nobody may touch begins here */
    uint8_t *at;  /* what is lent, or null */
    size_t size;  /* its bytes */
};

/* Gets the memory, once, for so many bytes at most. */
void lent_open(struct lent *lent, size_t most);

/*
 * Lends so many bytes, which end so many bytes below the forbidden page, 64 at most. A size of 0 lends the null pointer
 * if null says so. What it holds is for the caller to fill.
 */
void *lend(struct lent *lent, size_t size, size_t below, int null);

/* Whether all guard bytes are as they were. */
int lent_untouched(const struct lent *lent);

#endif
