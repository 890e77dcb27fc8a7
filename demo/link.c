/* link.c: the camera's pictures, the link, and the bytes of its packets. */
#include "story.h"

#include <string.h>

/* A generator (splitmix64): the same numbers in every run. */
static uint64_t random_next(uint64_t *state)
{
    uint64_t z = *state += UINT64_C(0x9e3779b97f4a7c15);
    z = (z ^ z >> 30) * UINT64_C(0xbf58476d1ce4e5b9);
    z = (z ^ z >> 27) * UINT64_C(0x94d049bb133111eb);
    return z ^ z >> 31;
}

/* ---- The camera ------------------------------------------------------------------------------------------------ */

/* One picture in every three seconds, within their first two: so none is under way at a full quarter of an hour. The
 * seed is chosen so that one is under way when the stamp rolls over. */
uint64_t camera_time(uint32_t k)
{
    uint64_t random = UINT64_C(20) << 32 | k;
    return k * 3 * SECOND + random_next(&random) % (2 * SECOND);
}

/* 20 to 60 packets, the last of them seldom full. */
size_t camera_picture(uint32_t k, uint8_t *bytes)
{
    uint64_t random = (uint64_t)(k + 1) << 32;
    const size_t least = 19 * PAYLOAD + 1;
    const size_t len = least + (size_t)(random_next(&random) % (PICTURE_MOST - least + 1));
    for (size_t i = 0; i < len; i += 8) {
        const uint64_t eight = random_next(&random);
        memcpy(bytes + i, &eight, len - i < 8 ? len - i : 8);
    }
    return len;
}

/* ---- The link -------------------------------------------------------------------------------------------------- */

#define QUEUE (sizeof ((struct link *)0)->queue / sizeof(struct packet))

void link_start(struct link *l, uint64_t seed)
{
    l->front = 0;
    l->len = 0;
    l->delay = 30 * MILLISECOND;
    l->random = seed;
}

/* The delay goes up or down by at most two milliseconds from one packet to the next. */
static uint64_t link_wander(struct link *l)
{
    const uint64_t moved = l->delay + random_next(&l->random) % (4 * MILLISECOND) - 2 * MILLISECOND;
    if (moved >= 20 * MILLISECOND && moved <= 40 * MILLISECOND)
        l->delay = moved;
    return l->delay;
}

void link_send(struct link *l, uint64_t now, const uint8_t *header, const uint8_t *rest, size_t rest_len)
{
    struct packet *p = &l->queue[(l->front + l->len) % QUEUE];
    const struct packet *before = &l->queue[(l->front + l->len + QUEUE - 1) % QUEUE];
    const uint64_t at = now + link_wander(l);
    if (random_next(&l->random) % 10 == 0 || l->len == QUEUE)
        return; /* lost */
    p->at = l->len > 0 && before->at > at ? before->at : at;
    p->len = HEADER + rest_len;
    memcpy(p->bytes, header, HEADER);
    if (rest_len > 0)
        memcpy(p->bytes + HEADER, rest, rest_len);
    l->len++;
}

uint64_t link_due(const struct link *l)
{
    return l->len > 0 ? l->queue[l->front].at : UINT64_MAX;
}

const struct packet *link_take(struct link *l)
{
    const struct packet *p = &l->queue[l->front];
    l->front = (l->front + 1) % QUEUE;
    l->len--;
    return p;
}

/* ---- The bytes of packets -------------------------------------------------------------------------------------- */

uint32_t read_word(const uint8_t *at)
{
    return (uint32_t)at[0] << 24 | (uint32_t)at[1] << 16 | (uint32_t)at[2] << 8 | (uint32_t)at[3];
}

void write_word(uint8_t *at, uint32_t word)
{
    for (int i = 0; i < 4; i++)
        at[i] = (uint8_t)(word >> (24 - 8 * i));
}

void control_header(uint8_t *out, enum control type, uint32_t number, uint64_t now)
{
    write_word(out, 0x80000000u | (uint32_t)type << 16);
    write_word(out + 4, number);
    write_word(out + 8, (uint32_t)now);
    write_word(out + 12, SOCKET);
}
