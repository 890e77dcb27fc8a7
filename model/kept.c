/* kept.c: document 01's book rules, as docs/BOOKS.md lists them. */
#include "inside.h"

/* "first sequence number below 2^31; packet size 1 to 1,456; buffer size 0 to 8,192; ..." */
bool settings_kept(const struct phel_settings *c)
{
    if (c->first >= BIT(31) || c->size < 1 || c->size > 1456)
        return false;
    return c->buffer <= 8192 && c->flow <= 65535 && c->latency <= 65535000 && c->overhead <= 128;
}

/* "Rates to 2^40, overhead to 10,000"; a number that the mode has no use for is 0. */
bool mode_kept(uint32_t mode, uint64_t rate, uint64_t overhead)
{
    switch (mode) {
    case PHEL_MODE_INPUT:
    case PHEL_MODE_ESTIMATED:
        return rate <= BIT(40) && overhead <= 10000;
    case PHEL_MODE_MAX:
        return rate <= BIT(40) && overhead == 0;
    case PHEL_MODE_UNLIMITED:
        return rate == 0 && overhead == 0;
    }
    return false;
}

/* "its counts at most 2^38, means and variances at most 2^42" */
static bool estimate_kept(const struct phel_estimate *e)
{
    return e->count <= BIT(38) && e->mean <= BIT(42) && e->variance <= BIT(42);
}

/* "pacing's next below 2^49"; it is 0 until pacing has begun. */
bool pacing_kept(const struct phel_pacing *p)
{
    if (p->begun > 1 || (p->begun == 0 && p->next != 0) || p->next >= BIT(49))
        return false;
    return estimate_kept(&p->packets) && estimate_kept(&p->bytes) && mode_kept(p->mode, p->rate, p->overhead);
}

/* "RTT mean and variance: 0 to 100,000,000" */
bool rtt_kept(const struct phel_rtt *r)
{
    return r->mean <= 100000000 && r->variance <= 100000000;
}

/* "timer origins below 2^58, periods at most 10^15" */
bool timer_kept(const struct phel_timer *t)
{
    return t->last < BIT(58) && t->period <= 1000000000000000;
}

/* The EXP count is 1 to 2^32 - 1. */
bool timers_kept(const struct phel_timers *t)
{
    return timer_kept(&t->snd) && timer_kept(&t->full_ack) && timer_kept(&t->nak) && timer_kept(&t->exp) &&
           timer_kept(&t->peer_idle) && timer_kept(&t->statistics) && t->exp_count >= 1;
}

/* A flushed packet is held, with a number, a slot and a length in their ranges, or nothing is and all is 0. */
static bool held_kept(const struct phel_held *h, const struct phel_settings *c)
{
    if (h->held == 0)
        return h->number == 0 && h->slot == 0 && h->len == 0;
    return h->held == 1 && h->number < BIT(31) && h->slot < capacity_of(c) && h->len <= c->size;
}

/* "sent packets, and only those, have a transmit count of at least 1 (held at 65,535) and a resend time below 2^49;
 * times below 2^48; payloads at most packet size"; place 0 to 3; a message number has 26 bits. */
static bool packet_kept(const struct packet *p, const struct phel_settings *c, bool sent)
{
    if (p->time >= BIT(48) || p->message >= BIT(26) || p->place > 3 || p->length > c->size)
        return false;
    if (!sent)
        return p->count == 0 && p->resend == 0;
    return p->count >= 1 && p->count <= 65535 && p->resend < BIT(49);
}

/* Every packet, and "byte count below 2^62 and not below the sum of buffered wire sizes". */
static bool packets_kept(struct model *m)
{
    uint64_t sum = 0;
    for (size_t i = 0; i < m->len; i++) {
        const struct packet *p = packet_at(m, i);
        if (!packet_kept(p, &m->settings, p->number < m->next_unsent))
            return false;
        sum += p->length + m->settings.overhead;
    }
    return m->bytes < BIT(62) && sum <= m->bytes;
}

/* "the loss list ascending from the front, without repeats, all sent" */
static bool losses_kept(const struct model *m)
{
    for (size_t i = 0; i < m->lost_len; i++)
        if (m->lost[i] >= m->next_unsent || (i > 0 && m->lost[i - 1] >= m->lost[i]))
            return false;
    return true;
}

/* All rules of a sender that could be read. */
bool books_kept(struct model *m)
{
    if (!pacing_kept(&m->pacing) || !rtt_kept(&m->rtt) || !held_kept(&m->held, &m->settings))
        return false;
    if (m->expected < 1 || m->expected > BIT(32) || m->message >= BIT(26))
        return false;
    return packets_kept(m) && losses_kept(m);
}
