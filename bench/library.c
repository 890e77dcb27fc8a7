/* A sender with the areas that it is lent, behind plain numbers: so the Rust program needs no declaration of the
 * library's structs, and the library is called as a host calls it, by include/phelgomrit.h. */
#include "phelgomrit.h"

#include <stdlib.h>
#include <string.h>

/* The books of a sender. */
struct kept {
    struct phel_sender sender;
    uint64_t *ring;
    uint32_t *lost;
};

struct lent {
    struct kept now;
    struct kept mark; /* as it was at lent_mark */
    uint8_t *store;
    uint8_t *records;
    size_t records_len;
    uint32_t *runs;
    size_t runs_len;
};

static void *taken(size_t bytes)
{
    void *area = calloc(1, bytes);
    if (area == NULL)
        abort();
    return area;
}

static void take_areas(struct kept *k, const struct phel_settings *c)
{
    k->ring = taken(PHEL_RING_WORDS(c->buffer) * sizeof *k->ring);
    k->lost = taken(PHEL_LOST_WORDS(c->buffer) * sizeof *k->lost);
}

static void free_areas(struct kept *k)
{
    free(k->ring);
    free(k->lost);
}

static struct phel_areas areas(const struct lent *l)
{
    const struct phel_settings *c = &l->now.sender.settings;
    struct phel_areas a = {l->now.ring, PHEL_RING_WORDS(c->buffer),           l->now.lost, PHEL_LOST_WORDS(c->buffer),
                          l->store,    PHEL_STORE_BYTES(c->buffer, c->size)};
    return a;
}

/* A sender with these settings, its rate unlimited; NULL where it is refused. */
struct lent *lent_new(const struct phel_settings *settings)
{
    struct lent *l = taken(sizeof *l);
    if (phel_sender_new(&l->now.sender, settings, PHEL_MODE_UNLIMITED, 0, 0, NULL) != 0) {
        free(l);
        return NULL;
    }
    l->mark.sender = l->now.sender;
    take_areas(&l->now, settings);
    take_areas(&l->mark, settings);
    l->store = taken(PHEL_STORE_BYTES(settings->buffer, settings->size));
    l->records_len = PHEL_RECORDS_BYTES(settings->buffer, settings->buffer);
    l->records = taken(l->records_len);
    l->runs_len = PHEL_RUNS_WORDS(PHEL_WORDS_MOST);
    l->runs = taken(l->runs_len * sizeof *l->runs);
    return l;
}

void lent_free(struct lent *l)
{
    free_areas(&l->now);
    free_areas(&l->mark);
    free(l->store);
    free(l->records);
    free(l->runs);
    free(l);
}

/* The books and their areas; no call that is timed reads a payload in the store, so that stays as it is. */
static void copy(struct kept *to, const struct kept *from)
{
    const uint32_t buffer = from->sender.settings.buffer;
    to->sender = from->sender;
    memcpy(to->ring, from->ring, PHEL_RING_WORDS(buffer) * sizeof *to->ring);
    memcpy(to->lost, from->lost, PHEL_LOST_WORDS(buffer) * sizeof *to->lost);
}

/* Notes the sender as it is, and goes back to it. */
void lent_mark(struct lent *l)
{
    copy(&l->mark, &l->now);
}

void lent_back(struct lent *l)
{
    copy(&l->now, &l->mark);
}

/* Each call returns the refusal's number; |answer| is what an accepted one answers, in the header's order. */

int lent_message(struct lent *l, uint64_t time, uint64_t now, const uint8_t *payload, size_t len, uint64_t answer[4])
{
    const struct phel_areas a = areas(l);
    struct phel_messaged done = {0, 0, 0, 0};
    const int refused = phel_sender_message(&l->now.sender, &a, time, now, payload, len, &done, NULL);
    answer[0] = done.made;
    answer[1] = done.removed;
    answer[2] = done.bytes;
    answer[3] = done.period;
    return refused;
}

/* A full ACK. */
int lent_ack(struct lent *l, uint32_t number, uint32_t full, uint32_t mean, uint32_t variance, uint64_t answer[3])
{
    const struct phel_areas a = areas(l);
    const struct phel_rtt rtt = {mean, variance};
    struct phel_acked done = {0, 0, false, 0};
    const int refused = phel_sender_ack(&l->now.sender, &a, number, &full, &rtt, &done, NULL);
    answer[0] = done.received;
    answer[1] = done.recovered;
    answer[2] = done.full_number;
    return refused;
}

int lent_nak(struct lent *l, const uint32_t *words, size_t len, size_t *runs)
{
    const struct phel_areas a = areas(l);
    return phel_sender_nak(&l->now.sender, &a, words, len, l->runs, l->runs_len, runs, NULL);
}

int lent_run(struct lent *l, uint64_t now, uint32_t budget, uint64_t answer[2])
{
    const struct phel_areas a = areas(l);
    struct phel_ran done = {0, 0};
    const int refused = phel_sender_run(&l->now.sender, &a, now, budget, false, l->records, l->records_len, &done, NULL);
    answer[0] = done.records;
    answer[1] = done.left;
    return refused;
}

int lent_reports(const struct lent *l, uint64_t answer[5])
{
    const struct phel_areas a = areas(l);
    struct phel_reports done = {false, false, 0, 0, 0};
    const int refused = phel_sender_reports(&l->now.sender, &a, &done, NULL);
    answer[0] = done.is_flushed;
    answer[1] = done.has_packets_to_send;
    answer[2] = done.len;
    answer[3] = done.len_bytes;
    answer[4] = done.duration;
    return refused;
}

/* The lists that the last run and the last loss report filled. */
const uint8_t *lent_records(const struct lent *l)
{
    return l->records;
}

const uint32_t *lent_runs(const struct lent *l)
{
    return l->runs;
}
