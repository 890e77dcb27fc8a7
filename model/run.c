/* run.c: document 01's "Run", its rules 2 to 7, and the records that they write. */
#include "inside.h"

/* A run at work. */
struct run {
    struct model *m;
    uint64_t now;
    uint32_t left; /* of the budget */
    bool draining;
    uint8_t *out;
    size_t records, room; /* room always suffices; only a bent rule could go past it */
};

static void put_record(struct run *r, const struct record *record)
{
    if (r->records < r->room)
        write_record(r->out + 24 * r->records++, record);
}

/* "Every send costs one unit, never below 0." */
static void spend(struct run *r, bool free_of_charge)
{
    r->left -= r->left > 0 && !free_of_charge;
}

/* ---- Sends */

/* The record of a packet that was sent so often before: "The retransmitted flag is clear on the first sending only." */
static void write_sent(struct run *r, uint64_t kind, const struct packet *p, uint64_t sendings)
{
    const bool again = bent(FlagOnFirst) || sendings > (bent(FlagLate) ? 1 : 0);
    const struct record record = {kind, p->place << 6 | again, p->length, wire(p->number), p->message,
                                  p->time & 0xffffffff, p->time};
    put_record(r, &record);
}

/* "now + C on the first transmission, else now + count x C + 10,000, with count the sendings before this one and
 * C = mean + 4 x variance + 20,000; the addition is held at 2^30 - 1": that addition. */
static uint64_t addition(const struct model *m, uint64_t count)
{
    const uint64_t c = m->rtt.mean + (bent(VarianceOnce) ? 1 : 4) * (uint64_t)m->rtt.variance + 20000;
    if (bent(CountOneMore) && count > 0)
        count++;
    if (bent(CountOneLess) && count > 1)
        count--;
    return least(count == 0 ? c : count * c + (bent(NoExtraOnResend) ? 0 : 10000), BIT(30) - 1);
}

/* A send by rule 2, 3 or 5 of a buffered packet; it sets the resend time. */
static void send_packet(struct run *r, uint64_t kind, uint64_t number)
{
    struct packet *p = find_packet(r->m, number);
    if (p == NULL)
        return;
    write_sent(r, kind, p, p->count);
    p->resend = r->now + addition(r->m, p->count);
    p->count += p->count < 65535;
}

/* Rule 4: "If next unsent - front exceeds the window". */
static bool window_exceeded(struct model *m)
{
    const uint64_t window = m->settings.flow, out = unacknowledged(m);
    return out > window || (bent(WindowNotStrict) && out == window && window > 0);
}

static bool unsent_buffered(const struct model *m)
{
    return m->len > 0 && m->next_unsent < m->next_number;
}

/* Rule 5: "If the one after it has a number divisible by 16 and is buffered, send it at once, also past budget and
 * window." */
static void send_next(struct run *r)
{
    struct model *m = r->m;
    const bool divides = (m->next_unsent + (bent(SixteenthFirst) ? 0 : 1)) % 16 == 0 || bent(SixteenthAny);
    const bool short_of_budget = bent(BudgetOnSixteenth) && r->left < 2;
    send_packet(r, PHEL_SEND, m->next_unsent++);
    spend(r, false);
    if (!divides || short_of_budget || !unsent_buffered(m) || (bent(WindowOnSixteenth) && window_exceeded(m)))
        return;
    send_packet(r, PHEL_SEND, m->next_unsent++);
    spend(r, bent(SixteenthFree));
}

/* Rule 6: "send and remove it"; its payload is held. */
static void flush(struct run *r)
{
    struct model *m = r->m;
    const size_t slot = m->slot;
    const struct packet p = pop_front(m);
    const struct phel_held held = {1, wire(p.number), slot, (size_t)p.length};
    write_sent(r, PHEL_SEND, &p, bent(FlushFlagClear) ? 0 : p.count);
    spend(r, bent(FlushFree));
    if (!bent(FlushKeepsBytes))
        m->bytes -= wire_size(m, p.length);
    if (!bent(FlushedNotHeld))
        m->held = held;
    m->has_flushed = true;
    m->flushed = p;
    m->flushed_slot = slot;
}

/* ---- Choosing */

/* Rule 3: "the packet with the earliest resend time strictly before now; ties to the number nearer the front": NULL where
 * there is none. */
static struct packet *earliest_due(struct run *r)
{
    struct packet *found = NULL;
    for (size_t i = 0; i < r->m->len; i++) {
        struct packet *p = packet_at(r->m, i);
        const bool due = p->resend < r->now || (bent(DueNotStrict) && p->resend == r->now);
        if (p->count == 0 || !due)
            continue;
        if (found == NULL || (!bent(FrontFirst) && p->resend < found->resend) ||
            (bent(TieToFar) && p->resend == found->resend))
            found = p;
    }
    return found != NULL && found->resend >= outlived ? NULL : found;
}

/* Rule 2: "the number on the loss list nearest the front, removing it there". */
static void send_lost(struct run *r)
{
    struct model *m = r->m;
    const uint64_t number = m->lost[bent(LossFromBack) ? m->lost_len - 1 : 0];
    if (!bent(LossStays))
        unlist(m, number, number + 1);
    send_packet(r, bent(LossKind) ? PHEL_RESEND_BY_TIME : PHEL_RESEND_BY_LOSS, number);
    spend(r, false);
}

static void send_due(struct run *r, const struct packet *p)
{
    send_packet(r, PHEL_RESEND_BY_TIME, p->number);
    spend(r, false);
}

/* Rules 4 and 7: a wait ends the run. "The record says window 10,000." */
static bool end_waiting(struct run *r, bool for_ack)
{
    const struct model *m = r->m;
    struct record record = {for_ack ? PHEL_WAIT_ACK : PHEL_WAIT_INPUT, 0, 0, 0, 0, 0, 0};
    if (for_ack) {
        record.third = unacknowledged(r->m);
        record.fourth = bent(WindowRecordSetting) ? m->settings.flow : 10000;
    }
    put_record(r, &record);
    return false;
}

/* The rules after the late drop; the answer is whether the run goes on. */
static bool send_or_wait(struct run *r)
{
    struct model *m = r->m;
    const struct packet *due = earliest_due(r);
    const bool exceeded = window_exceeded(m), unsent = unsent_buffered(m);
    const bool last = (r->draining || bent(FlushAlways)) && m->len == 1;
    if (m->lost_len > 0 && !(bent(TimeBeforeLoss) && due != NULL))
        send_lost(r);
    else if (due != NULL && !(bent(WindowBeforeResend) && exceeded))
        send_due(r, due);
    else if (bent(FlushBeforeWindow) && last && !unsent)
        flush(r);
    else if (exceeded)
        return end_waiting(r, true);
    else if (unsent)
        send_next(r);
    else if (last)
        flush(r);
    else
        return end_waiting(r, false);
    return true;
}

/* The first rule that applies. */
static bool step(struct run *r)
{
    const size_t gone = late_count(r->m, r->now);
    struct record record = {0, 0, 0, 0, 0, 0, 0};
    if (gone == 0)
        return send_or_wait(r);
    drop_late(r->m, gone, &record);
    put_record(r, &record);
    spend(r, !bent(LateDropCosts));
    return true;
}

struct phel_run_answer model_run(struct phel_sender given, uint64_t now, uint32_t budget, bool draining, uint64_t *ring,
                                 size_t ring_len, const uint32_t *lost, size_t lost_len, uint8_t *out, size_t out_len)
{
    const struct lent lent = {ring, ring_len, lost, lost_len, NULL, 0, false};
    struct phel_run_answer a = {{0, 0, 0, 0}, {0, 0}, given};
    struct run r = {open_books(&given, &lent, &a.refusal), now, budget, draining, out, 0, out_len / 24};
    if (a.refusal.number == 0 && now >= BIT(48))
        a.refusal.number = PHEL_BAD_TIME;
    else if (a.refusal.number == 0 && r.room < least(budget, r.m->len) + 3)
        a.refusal.number = PHEL_NO_ROOM;
    if (a.refusal.number != 0)
        return a;
    while (r.left > 0 && r.records < r.room && step(&r))
        ;
    a.done.records = r.records;
    a.done.left = r.left;
    write_sender(r.m, &a.sender);
    write_ring(r.m, ring);
    return a;
}
