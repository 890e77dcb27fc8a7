/* numbers.c: document 01's "Numbers and their ends". */
#include "inside.h"

/* "Distance from a to b is (b - a) modulo 2^31." */
uint32_t distance(uint64_t from, uint64_t to)
{
    return (uint32_t)((to - from) & 0x7fffffff);
}

/* The number as it goes out: "31 bits", "wraps to 0". */
uint32_t wire(uint64_t number)
{
    return (uint32_t)(bent(NumberWrapsLate) ? number : number & 0x7fffffff);
}

/* "Window = max(latency + floor(latency / 4), 1,000,000)." */
uint64_t late_window(const struct phel_settings *c)
{
    const uint64_t latency = c->latency;
    if (bent(LateWindowBare))
        return most(latency, 1000000);
    if (bent(LateWindowNoFloor))
        return latency + latency / 4;
    return most(latency + latency / 4, 1000000);
}

/* "Capacity is the buffer size, or 1 where that is 0." */
size_t capacity_of(const struct phel_settings *c)
{
    return c->buffer == 0 ? 1 : c->buffer;
}

uint64_t least(uint64_t a, uint64_t b)
{
    return a < b ? a : b;
}

uint64_t most(uint64_t a, uint64_t b)
{
    return a < b ? b : a;
}

/* A refusal with its values; number 0 for none. */
struct phel_refusal refusal(uint32_t number, uint64_t first, uint64_t second, uint64_t third)
{
    const struct phel_refusal r = {number, first, second, third};
    return r;
}
