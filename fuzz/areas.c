#include "areas.h"

#include <stdio.h>
#include <stdlib.h>
#include <string.h>
#include <sys/mman.h>

#include "pages.h"

enum { STRIP = 32 };

/* The known bytes of a strip. */
static const char marks[] = "beside an area nothing changes..";

void must(bool holds, const char *what)
{
    if (holds)
        return;
    fprintf(stderr, "fuzz: %s\n", what);
    abort();
}

void area_map(struct area *a, size_t most, size_t width)
{
    a->width = width;
    a->base = pages_open(most * width + STRIP, &a->room);
    must(a->base != NULL, "no memory for an area");
    a->kept = calloc(1, a->room);
    must(a->kept != NULL, "no memory for an area");
}

void area_fix(struct area *a, uint8_t (*byte_at)(size_t))
{
    for (size_t i = 0; i < a->room; i++)
        a->base[i] = byte_at(i);
    must(mprotect(a->base, a->room, PROT_READ) == 0, "an area can't be fixed");
}

size_t area_most(const struct area *a)
{
    return (a->room - STRIP) / a->width;
}

/* The strip beside the lent elements. */
static uint8_t *strip(const struct area *a)
{
    return a->at == a->base ? a->at + a->len * a->width : a->at - STRIP;
}

void area_lend(struct area *a, size_t len, bool front)
{
    const size_t bytes = len * a->width;
    a->len = len;
    a->at = front ? a->base : a->base + a->room - bytes;
    memcpy(a->at, a->kept, bytes);
    memcpy(strip(a), marks, STRIP);
}

void area_stays(const struct area *a)
{
    must(memcmp(strip(a), marks, STRIP) == 0, "a byte beside a lent area was written");
    must(memcmp(a->at, a->kept, a->len * a->width) == 0, "a lent byte is another than document 01 leaves");
}
