/* desk.c: a sender with all that it is lent, each area between pages that fault. */
#include "outside.h"

struct desk desk;
enum side side;
const struct phel_settings small = {15, 4, 4, 8, 120000, 0, 0x11223344};
static struct area ring, lost, store, records, runs, payload, loss_words, header;

/* Room for the largest settings. */
void desk_open(void)
{
    area_open(&ring, "the ring", PHEL_RING_WORDS(PHEL_BUFFER_MOST) * 8 + 64);
    area_open(&lost, "the loss list", PHEL_LOST_WORDS(PHEL_BUFFER_MOST) * 4 + 64);
    area_open(&store, "the store", PHEL_STORE_BYTES(PHEL_BUFFER_MOST, PHEL_SIZE_MOST) + 64);
    area_open(&records, "the records", PHEL_RECORDS_BYTES(PHEL_BUFFER_MOST, PHEL_BUFFER_MOST) + 64);
    area_open(&runs, "the runs", PHEL_RUNS_WORDS(PHEL_WORDS_MOST) * 4 + 64);
    area_open(&payload, "the payload", PHEL_MESSAGE_MOST + 64);
    area_open(&loss_words, "the loss words", (PHEL_WORDS_MOST + 16) * 4);
    area_open(&header, "the header", PHEL_HEADER_BYTES);
}

/* Just enough for these settings, a run of |budget| with a full buffer, and a report of |items|. */
struct lengths lengths_for(const struct phel_settings *c, uint32_t budget, size_t items)
{
    const struct lengths n = {PHEL_RING_WORDS(c->buffer), PHEL_LOST_WORDS(c->buffer), PHEL_STORE_BYTES(c->buffer, c->size),
                              PHEL_RECORDS_BYTES(budget, PHEL_CAPACITY(c->buffer)), PHEL_RUNS_WORDS(items)};
    return n;
}

/* Lends so many elements; what they hold is as it was at that place. */
void desk_set(struct lengths n)
{
    desk.lent.ring = area_at(&ring, n.ring * 8);
    desk.lent.ring_len = n.ring;
    desk.lent.lost = area_at(&lost, n.lost * 4);
    desk.lent.lost_len = n.lost;
    desk.lent.store = area_at(&store, n.store);
    desk.lent.store_len = n.store;
    desk.records = area_at(&records, n.records);
    desk.records_len = n.records;
    desk.runs = area_at(&runs, n.runs * 4);
    desk.runs_len = n.runs;
}

uint8_t *payload_at(size_t len)
{
    uint8_t *at = area_at(&payload, len);
    for (size_t i = 0; i < len; i++)
        at[i] = (uint8_t)(i * 7 + i / 251 + len);
    return at;
}

uint32_t *words_at(size_t len)
{
    return area_at(&loss_words, len * 4);
}

uint8_t *header_at(void)
{
    return area_at(&header, PHEL_HEADER_BYTES);
}

/* ---- What the cases share */

void fresh(const struct phel_settings *c, size_t items)
{
    desk_set(lengths_for(c, UINT32_MAX, items));
    memset(desk.lent.ring, 0xa5, desk.lent.ring_len * 8);
    memset(desk.lent.lost, 0xa5, desk.lent.lost_len * 4);
    check(do_new(c, PHEL_MODE_UNLIMITED, 0, 0) == 0, "a fresh sender is refused");
}

void set_scene(const char *name)
{
    snprintf(scene, sizeof scene, "%s; %s", name, side == AT_END ? "areas at an end" : "areas at a beginning");
}

struct phel_action action_at(size_t k)
{
    return phel_action_at(desk.records, k);
}

int nak_one(uint32_t word)
{
    uint32_t *words = words_at(1);
    words[0] = word;
    return do_nak(words, 1, NULL);
}

int nak_two(uint32_t first, uint32_t second)
{
    uint32_t *words = words_at(2);
    words[0] = first;
    words[1] = second;
    return do_nak(words, 2, NULL);
}
