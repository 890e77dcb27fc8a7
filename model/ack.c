/* ack.c: document 01's "ACK": its refusals in order, the RTT, the full number, what it removes. */
#include "inside.h"

/* "First to next unsent, inclusive." */
static bool within(struct model *m, uint32_t number)
{
    const uint32_t ahead = distance(front_number(m), number);
    if (bent(AckAnyOld) && ahead >= BIT(30))
        return true;
    return bent(AckBelowNext) ? ahead < unacknowledged(m) : ahead <= unacknowledged(m);
}

/* "full number below the expected" */
static bool stale(const struct model *m, uint64_t full)
{
    return full < m->expected || (bent(FullAckNotStrict) && full == m->expected);
}

/* "Loss entries below the ACK go (recovered), then packets below it (received)." */
static void receive(struct model *m, uint32_t number, struct phel_acked *done)
{
    const uint32_t ahead = distance(front_number(m), number);
    const uint64_t acked = front_number(m) + (ahead <= m->len ? ahead : 0);
    if (!bent(AckKeepsLosses))
        done->recovered = (uint32_t)unlist(m, 0, acked + (bent(RecoveredToo) ? 1 : 0));
    for (; front_number(m) < acked; done->received++) {
        const struct packet p = pop_front(m);
        m->bytes -= bent(AckKeepsBytes) ? 0 : wire_size(m, p.length);
    }
    if (bent(RecoveredIsReceived))
        done->recovered = done->received;
}

struct phel_ack_answer model_ack(struct phel_sender given, uint32_t number, bool full, uint32_t full_number,
                                 bool measured, struct phel_rtt rtt, const uint64_t *ring, size_t ring_len,
                                 const uint32_t *lost, size_t lost_len)
{
    const struct lent lent = {ring, ring_len, lost, lost_len, NULL, 0, false};
    struct phel_ack_answer a = {{0, 0, 0, 0}, {0, 0, false, 0}, given};
    struct model *m = open_books(&given, &lent, &a.refusal);
    if (a.refusal.number != 0)
        return a;
    if (number >= BIT(31))
        a.refusal.number = PHEL_BAD_NUMBER;
    else if (measured && !rtt_kept(&rtt))
        a.refusal.number = PHEL_BAD_RTT;
    else if (m->len == 0)
        a.refusal.number = PHEL_EMPTY;
    else if (!within(m, number))
        a.refusal = refusal(PHEL_INVALID_ACK, number, wire(front_number(m)), wire(m->next_unsent));
    else if (full && stale(m, full_number))
        a.refusal = refusal(PHEL_STALE_FULL_ACK, full_number, m->expected, 0);
    /* "RTT is taken over; then the full number is tested": 11 alone keeps a new one. */
    if (measured && ((a.refusal.number == PHEL_STALE_FULL_ACK && !bent(FullAckBeforeRtt)) ||
                     (a.refusal.number == PHEL_INVALID_ACK && bent(InvalidAckKeepsRtt))))
        a.sender.books.rtt = rtt;
    if (a.refusal.number != 0)
        return a;
    m->rtt = measured ? rtt : m->rtt;
    if (full) /* "after n it is n + 1, without wrapping" */
        m->expected = bent(ExpectedOneUp) ? m->expected + 1 : (uint64_t)full_number + 1;
    receive(m, number, &a.done);
    a.done.full = full;
    a.done.full_number = full ? full_number : 0;
    write_sender(m, &a.sender);
    return a;
}
