/* fields.c: the fields of a sender, of timers and of answers: whether two agree in all of them, but for padding. */
#include <string.h>
#include "fields.h"

#define FIELD(m) {#m, offsetof(struct phel_sender, m), sizeof(((struct phel_sender *)0)->m)}
const struct field sender_fields[] = {
    FIELD(settings.first), FIELD(settings.size), FIELD(settings.buffer), FIELD(settings.flow), FIELD(settings.latency),
    FIELD(settings.overhead), FIELD(settings.socket), FIELD(books.ring.cap), FIELD(books.ring.slot),
    FIELD(books.ring.len), FIELD(books.front), FIELD(books.sent), FIELD(books.lost), FIELD(books.bytes),
    FIELD(books.rtt.mean), FIELD(books.rtt.variance), FIELD(books.expected), FIELD(books.held.held),
    FIELD(books.held.number), FIELD(books.held.slot), FIELD(books.held.len), FIELD(books.message), FIELD(pacing.mode),
    FIELD(pacing.begun), FIELD(pacing.rate), FIELD(pacing.overhead), FIELD(pacing.next), FIELD(pacing.packets.count),
    FIELD(pacing.packets.mean), FIELD(pacing.packets.variance), FIELD(pacing.bytes.count), FIELD(pacing.bytes.mean),
    FIELD(pacing.bytes.variance),
};
const size_t sender_fields_len = sizeof sender_fields / sizeof sender_fields[0];

/* Every byte of the struct is a field's, but the padding after settings and after message, where size_t has 8 bytes. */
bool fields_complete(void)
{
    size_t bytes = 0;
    for (size_t i = 0; i < sender_fields_len; i++)
        bytes += sender_fields[i].bytes;
    return sizeof(size_t) != 8 || bytes + 8 == sizeof(struct phel_sender);
}

bool same_refusal(const struct phel_refusal *a, const struct phel_refusal *b)
{
    return a->number == b->number && a->first == b->first && a->second == b->second && a->third == b->third;
}

/* Whether two senders agree in every field. */
bool same_sender(const struct phel_sender *a, const struct phel_sender *b)
{
    for (size_t i = 0; i < sender_fields_len; i++) {
        const struct field *f = &sender_fields[i];
        if (memcmp((const uint8_t *)a + f->at, (const uint8_t *)b + f->at, f->bytes) != 0)
            return false;
    }
    return true;
}

static bool same_timer(struct phel_timer a, struct phel_timer b)
{
    return a.period == b.period && a.last == b.last;
}

bool same_timers(const struct phel_timers *a, const struct phel_timers *b)
{
    return same_timer(a->snd, b->snd) && same_timer(a->full_ack, b->full_ack) && same_timer(a->nak, b->nak) &&
           same_timer(a->exp, b->exp) && a->exp_count == b->exp_count && same_timer(a->peer_idle, b->peer_idle) &&
           same_timer(a->statistics, b->statistics);
}

/* ---- Answers */

bool same_messaged(const struct phel_messaged *a, const struct phel_messaged *b)
{
    return a->made == b->made && a->removed == b->removed && a->bytes == b->bytes && a->period == b->period;
}

bool same_acked(const struct phel_acked *a, const struct phel_acked *b)
{
    return a->received == b->received && a->recovered == b->recovered && a->full == b->full &&
           a->full_number == b->full_number;
}

bool same_ran(const struct phel_ran *a, const struct phel_ran *b)
{
    return a->records == b->records && a->left == b->left;
}

bool same_found(const struct phel_found *a, const struct phel_found *b)
{
    return a->place == b->place && a->len == b->len;
}

bool same_reports(const struct phel_reports *a, const struct phel_reports *b)
{
    return a->is_flushed == b->is_flushed && a->has_packets_to_send == b->has_packets_to_send && a->len == b->len &&
           a->len_bytes == b->len_bytes && a->duration == b->duration;
}
