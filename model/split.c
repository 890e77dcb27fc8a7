/* split.c: how document 01's "Message" cuts a message into packets. */
#include "inside.h"

/* "max(1, ceil(length / size)) packets" */
size_t pieces_of(size_t len, size_t size)
{
    const size_t whole = (len + size - 1) / size;
    if (bent(MultipleOneMore))
        return len / size + 1;
    return whole == 0 && !bent(EmptyNoPacket) ? 1 : whole;
}

/* "Place bits: 10 first, 00 middle, 01 last, 11 only one." */
static uint64_t place_of(size_t k, size_t pieces)
{
    const bool first = k == 0, last = k + 1 == pieces;
    const uint64_t place = (uint64_t)first << 1 | (uint64_t)last;
    if (bent(OnlyIsFirst) && place == PHEL_PLACE_ONLY)
        return PHEL_PLACE_FIRST;
    if (bent(LastIsMiddle) && place == PHEL_PLACE_LAST)
        return PHEL_PLACE_MIDDLE;
    return place;
}

/* Packet |k|: "all full but the last". */
struct piece piece_at(size_t len, size_t size, size_t k)
{
    const struct piece p = {place_of(k, pieces_of(len, size)), k * size, (size_t)least(size, len - k * size)};
    return p;
}

static uint32_t split_refusal(size_t len, size_t size)
{
    if (size < 1 || size > PHEL_SIZE_MOST)
        return PHEL_BAD_SETTING;
    return len > PHEL_MESSAGE_MOST ? PHEL_TOO_LONG : 0;
}

struct model_packets_answer model_split_packets(size_t len, size_t size)
{
    const uint32_t number = split_refusal(len, size);
    const struct model_packets_answer a = {number, number != 0 ? 0 : pieces_of(len, size)};
    return a;
}

struct model_piece_answer model_split_packet(size_t len, size_t size, size_t k)
{
    struct model_piece_answer a = {split_refusal(len, size), false, 0, 0, 0};
    struct piece p;
    if (a.refusal != 0 || k >= pieces_of(len, size))
        return a;
    p = piece_at(len, size, k);
    a.found = true;
    a.place = (uint32_t)p.place;
    a.start = p.start;
    a.len = p.len;
    return a;
}
