/* asks.c: the calls that are made on damaged books: of each kind one that would be accepted, and one for each refusal
 * that its arguments bring. */
#include "damage.h"

uint32_t front, next;

static void message_empty(void) { do_message(900, 3000, NULL, 0, NULL); }
static void message_some(void) { do_message(500000, 500000, payload_at(37), 37, NULL); }
static void message_many(void) { do_message(BIT(48) - 1, BIT(48) - 1, payload_at(150), 150, NULL); }
static void message_late(void) { do_message(BIT(48), 0, payload_at(5), 5, NULL); }
static void message_now_late(void) { do_message(0, UINT64_MAX, payload_at(5), 5, NULL); }
static void message_long(void)
{
    static const uint8_t zeros[PHEL_MESSAGE_MOST + 1];
    do_message(0, 0, zeros, sizeof zeros, NULL);
}

static void ack_front(void) { do_ack(front, NULL, NULL, NULL); }
static void ack_next(void)
{
    const struct phel_rtt rtt = {100000000, 0};
    const uint32_t full = 4294967295u;
    do_ack(next, &full, &rtt, NULL);
}
static void ack_one(void)
{
    const uint32_t full = 1;
    do_ack((front + 1) & 0x7fffffff, &full, NULL, NULL);
}
static void ack_stale(void)
{
    const struct phel_rtt rtt = {4321, 1234};
    const uint32_t full = 0;
    do_ack(front, &full, &rtt, NULL);
}
static void ack_outside(void) { do_ack((next + 1) & 0x7fffffff, NULL, NULL, NULL); }
static void ack_bad_number(void) { do_ack(front | 0x80000000u, NULL, NULL, NULL); }
static void ack_bad_rtt(void)
{
    const struct phel_rtt rtt = {1, 100000001};
    do_ack(front, NULL, &rtt, NULL);
}

/* A report of these words, with so many words of room. */
static void report(const uint32_t *given, size_t len, size_t room)
{
    uint32_t *words = words_at(len);
    memcpy(words, given, len * 4);
    desk.runs += side == AT_END ? desk.runs_len - room : 0;
    desk.runs_len = room;
    do_nak(words, len, NULL);
}

static void nak_none(void)
{
    do_nak(NULL, 0, NULL);
}
static void nak_range(void)
{
    const uint32_t words[] = {((front - 3) & 0x7fffffff) | 0x80000000u, (next + 5) & 0x7fffffff, front};
    report(words, 3, 18);
}
static void nak_numbers(void)
{
    const uint32_t words[] = {(front + 1) & 0x7fffffff, front, (next + 0x40000000) & 0x7fffffff};
    report(words, 3, 27);
}
static void nak_bad(void)
{
    const uint32_t words[] = {front, (front | 0x80000000u), (front | 0x80000000u)};
    report(words, 3, 27);
}
static void nak_no_room(void)
{
    const uint32_t words[] = {front, (front + 2) & 0x7fffffff};
    report(words, 2, 17);
}

static void run_nothing(void) { do_run(3000, 0, false, NULL); }
static void run_one(void) { do_run(3000, 1, false, NULL); }
static void run_resends(void) { do_run(900000, 3, true, NULL); }
static void run_late(void) { do_run(BIT(48) - 1, UINT32_MAX, true, NULL); }
static void run_bad_time(void) { do_run(BIT(48), 1, false, NULL); }
static void run_no_room(void)
{
    const size_t need = PHEL_RECORDS_BYTES(2, desk.sender.books.ring.len);
    const size_t room = need <= desk.records_len ? need - 1 : desk.records_len;
    desk.records += side == AT_END ? desk.records_len - room : 0;
    desk.records_len = room;
    do_run(3000, 2, false, NULL);
}

static void payload_front(void) { do_payload(front, NULL); }
static void payload_back(void) { do_payload((next - 1) & 0x7fffffff, NULL); }
static void payload_held(void) { do_payload(7, NULL); }
static void payload_bad(void) { do_payload(0x80000000u, NULL); }
static void reports(void) { do_reports(NULL); }

void (*const asks[])(void) = {
    message_empty, message_some, message_many, message_late, message_now_late, message_long,
    ack_front, ack_next, ack_one, ack_stale, ack_outside, ack_bad_number, ack_bad_rtt,
    nak_none, nak_range, nak_numbers, nak_bad, nak_no_room,
    run_nothing, run_one, run_resends, run_late, run_bad_time, run_no_room,
    payload_front, payload_back, payload_held, payload_bad, reports,
};
const size_t asks_len = sizeof asks / sizeof asks[0];
