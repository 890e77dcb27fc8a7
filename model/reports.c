/* reports.c: where a payload lies, and the reports of document 01's first section. */
#include "inside.h"

/* A payload lies in its packet's slot; a flushed one in the slot that it had. */
struct phel_payload_answer model_payload(struct phel_sender given, uint32_t number, const uint64_t *ring,
                                         size_t ring_len, const uint32_t *lost, size_t lost_len, const uint8_t *store,
                                         size_t store_len)
{
    const struct lent lent = {ring, ring_len, lost, lost_len, NULL, store_len, true};
    struct phel_payload_answer a = {{0, 0, 0, 0}, {0, 0}};
    struct model *m = open_books(&given, &lent, &a.refusal);
    size_t i;
    (void)store;
    if (a.refusal.number != 0)
        return a;
    i = distance(front_number(m), number);
    if (number >= BIT(31)) {
        a.refusal.number = PHEL_BAD_NUMBER;
    } else if (i < m->len) {
        a.done.place = (m->slot + i) % capacity_of(&m->settings) * m->settings.size;
        a.done.len = (size_t)packet_at(m, i)->length;
    } else if (m->held.held == 1 && m->held.number == number) {
        a.done.place = m->held.slot * m->settings.size;
        a.done.len = m->held.len;
    } else {
        a.refusal.number = PHEL_NOT_HELD;
    }
    return a;
}

/* "flushed, has packets to send, buffered packets, bytes and time (back's time less front's, 0 if negative or nothing is
 * buffered)" */
struct phel_reports_answer model_reports(struct phel_sender given, const uint64_t *ring, size_t ring_len,
                                         const uint32_t *lost, size_t lost_len)
{
    const struct lent lent = {ring, ring_len, lost, lost_len, NULL, 0, false};
    struct phel_reports_answer a = {{0, 0, 0, 0}, {false, false, 0, 0, 0}};
    struct model *m = open_books(&given, &lent, &a.refusal);
    uint64_t front, back;
    if (a.refusal.number != 0)
        return a;
    front = m->len > 0 ? packet_at(m, 0)->time : 0;
    back = m->len > 0 ? packet_at(m, m->len - 1)->time : 0;
    a.done.is_flushed = m->len == 0 && m->lost_len == 0;
    a.done.has_packets_to_send = m->lost_len > 0 || m->next_unsent < m->next_number || (bent(ReportSeesDue) && m->len > 0);
    a.done.len = m->len;
    a.done.len_bytes = m->bytes;
    a.done.duration = back >= front ? back - front : bent(ReportTimeUnsigned) ? front - back : 0;
    return a;
}
