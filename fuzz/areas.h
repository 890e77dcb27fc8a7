/* Lent areas between two pages that can't be touched (tests/pages.h): the archive isn't compiled with ASan, so what it
 * reads and writes out of range is for the processor to notice. */
#ifndef AREAS_H
#define AREAS_H

#include <stdbool.h>
#include <stddef.h>
#include <stdint.h>

/* An area of elements of |width| bytes. What it holds between calls is kept apart; for a call it is lent so that it
 * begins or ends at a forbidden page, with a strip of known bytes at its other side. */
struct area {
    uint8_t *base;  /* the pages it is lent in */
    size_t room;    /* their bytes */
    size_t width;
    uint8_t *kept;  /* as many bytes again: what a call finds, and after it what it must have left */
    uint8_t *at;    /* where it is lent now */
    size_t len;     /* elements lent now */
};

/* Where it doesn't hold, says what is wrong and ends the program. */
void must(bool holds, const char *what);

void area_map(struct area *a, size_t most, size_t width);

/* Fills the pages with |byte_at|, and forbids to write them from then on. */
void area_fix(struct area *a, uint8_t (*byte_at)(size_t));

/* Elements that it can have at most. */
size_t area_most(const struct area *a);

/* Lends |len| of the kept elements, at the front of the pages or at their end. */
void area_lend(struct area *a, size_t len, bool front);

/* Nothing beside the lent elements was written, and they are as they are kept. */
void area_stays(const struct area *a);

#endif
