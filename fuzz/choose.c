/* choose.c: arguments chosen by a call's numbers, near to what is kept. */
#include "host.h"

uint64_t time_of(unsigned how, uint64_t value, uint64_t *clock, unsigned bits)
{
    const uint64_t limit = 1ull << bits, seconds = bits == 48 ? 1ull << 21 : 1ull << 32;
    if ((how & 3) == 2)
        return value;
    if ((how & 3) == 3)
        return limit - 2 + value % 4;
    const uint64_t time = *clock + value % (how & 1 ? seconds : 1ull << 16);
    if (time < limit)
        *clock = time;
    return time;
}

uint32_t sequence_of(const struct call *k)
{
    const struct phel_books *b = &kept.sender.books;
    const uint32_t near[8] = {
        b->front + k->a % (b->sent % 4096 + 2), b->front + b->sent,
        b->front + (uint32_t)b->ring.len,       b->front - 1 - k->a % 4,
        b->front + k->a,                        b->held.number,
        0x80000000u + k->a,                     k->b,
    };
    const uint32_t number = near[k->how & 7];
    return (k->how & 7) < 6 ? number % 0x80000000u : number;
}

size_t length_of(const struct call *k)
{
    const size_t size = kept.sender.settings.size;
    switch (k->how >> 4 & 3) {
    case 0:
        return k->a % (3 * (size % 4096) + 2);
    case 1:
        return (size % 4096) * (k->a % 8);
    case 2:
        return size < 16 ? k->a % 1024 : k->a;
    default:
        return size < 256 ? PHEL_MESSAGE_MOST + 1 + k->a % 2 : PHEL_MESSAGE_MOST - 1 + k->a % 3;
    }
}

/* A word of a loss report from a byte: near the front or one, two or three quarters of the circle away; its top bit
 * opens a range. */
uint32_t word_of(const struct call *k, size_t i)
{
    const uint32_t byte = (uint8_t)(i % 12 < 8 ? k->c >> 8 * (i % 12) : k->b >> 8 * (i % 12 - 8));
    const uint32_t away = (byte >> 5 & 3) * 0x20000000u + (byte & 31) + (uint32_t)(i / 12) * 24 - 4;
    return (kept.sender.books.front + away) % 0x80000000u | (byte >> 7) << 31;
}

size_t room_of(unsigned how, size_t needed, uint32_t any, const struct area *a)
{
    const size_t most = area_most(a);
    const size_t rooms[4] = {needed, needed - (needed > 0), needed + any % 64, any % (most + 1)};
    return least(rooms[how & 3], most);
}
