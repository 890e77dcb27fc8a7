/* pages.h: memory between two pages that fault, so that one element too far is noticed by the processor. */
#ifndef PAGES_H
#define PAGES_H

#include <stddef.h>
#include <stdint.h>

size_t page_bytes(void);

/* Room for at least |bytes| bytes, in whole pages with a page that faults on either side, and |*room| = how many bytes
 * it has; NULL where there is no memory. */
uint8_t *pages_open(size_t bytes, size_t *room);

#endif
