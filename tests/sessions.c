/* sessions.c: sessions whose answers are written down here, beside what the model says. */
#include "outside.h"

/* "Figures from the bench". */
static void figures(void)
{
    static const uint8_t written[48] = {
        0x01, 0x80, 0x04, 0, 0x0f, 0, 0, 0, 0, 0, 0, 0, 0xe8, 0x03, 0, 0, 0xe8, 0x03, 0, 0, 0, 0, 0, 0,
        0x01, 0x00, 0x04, 0, 0x10, 0, 0, 0, 0, 0, 0, 0, 0xe8, 0x03, 0, 0, 0xe8, 0x03, 0, 0, 0, 0, 0, 0,
    };
    static const uint8_t once[16] = {0, 0, 0, 5, 0xc0, 0, 0, 0, 0, 0, 3, 0xe8, 0x11, 0x22, 0x33, 0x44};
    uint8_t *header = header_at();
    struct phel_messaged m;
    struct phel_ran r;
    set_scene("figures");
    fresh(&small, 1);
    check(do_message(1000, 1000, payload_at(10), 10, &m) == 0 && m.made == 3, "ten bytes, three packets");
    check(do_run(1000, 1, false, &r) == 0 && r.records == 2 && r.left == 0, "15 and 16 are sent");
    check(memcmp(desk.records, written, 48) == 0, "the two records");
    do_header(header, PHEL_PLACE_ONLY, false, 5, 0, 1000, 0x11223344);
    check(memcmp(header, once, 16) == 0, "the header");
    do_header(header, PHEL_PLACE_ONLY, true, 5, 0, 1000, 0x11223344);
    check(header[4] == 0xc4, "the header, sent again");
    do_header(header, UINT32_MAX, true, UINT32_MAX, UINT32_MAX, UINT32_MAX, UINT32_MAX);
    for (size_t len = 0; len <= 8; len += 4) {
        fresh(&small, 1);
        check(do_message(0, 0, payload_at(len), len, &m) == 0 && m.made == (len < 5 ? 1 : 2), "packets");
    }
    fresh(&small, 1);
    do_message(1000, 1000, NULL, 0, &m);
    do_run(1000, 1, false, &r);
    check(do_run(321000, 1, false, &r) == 0 && action_at(0).kind == PHEL_WAIT_INPUT, "not due at 321,000");
    check(do_run(321001, 1, false, &r) == 0 && action_at(0).kind == PHEL_RESEND_BY_TIME, "due at 321,001");
    check(action_at(0).again && desk.lent.ring[5] == 651001, "its next resend time");
}

/* The numbers wrap, the buffer is full, packets are lost by ones and by a range, a full ACK is stale. */
static void wrapping(void)
{
    const struct phel_settings c = {0x7ffffffd, 4, 6, 3, 0, 28, 9};
    const struct phel_rtt rtt = {30000, 2000}, other = {5, 6};
    uint32_t full = 3;
    struct phel_messaged m;
    struct phel_acked a;
    struct phel_ran r;
    struct phel_reports t;
    size_t n;
    set_scene("a session over the wrap");
    fresh(&c, 2);
    check(do_message(100, 200, payload_at(20), 20, &m) == 0 && m.made == 5, "five packets");
    check(do_run(300, 100, false, &r) == 0 && r.records == 5 && action_at(4).kind == PHEL_WAIT_ACK, "four go");
    check(action_at(3).number == 0 && action_at(4).unacked == 4 && action_at(4).window == 10000, "then it waits");
    check(do_message(400, 400, payload_at(9), 9, &m) == 0 && m.made == 3, "three more");
    check(m.removed == 2 && m.bytes == 64, "for which two give way");
    check(desk.sender.books.front == 0x7fffffff && desk.sender.books.sent == 2, "from the front");
    check(nak_two(0xfffffffdu, 3) == 0, "a range over the wrap");
    check(do_nak(words_at(2), 2, &n) == 0 && n == 3 && phel_loss_run_at(desk.runs, 0).kind == PHEL_DROPPED &&
              phel_loss_run_at(desk.runs, 1).kind == PHEL_ADDED && phel_loss_run_at(desk.runs, 1).end == 1 &&
              phel_loss_run_at(desk.runs, 2).kind == PHEL_IGNORED && phel_loss_run_at(desk.runs, 2).end == 4,
          "is dropped, added and ignored");
    check(desk.sender.books.lost == 2, "once each");
    check(do_run(500, 1, false, &r) == 0 && action_at(0).kind == PHEL_RESEND_BY_LOSS, "a lost one goes first");
    check(action_at(0).number == 0x7fffffff && action_at(0).again, "the one nearest the front");
    check(do_ack(1, &full, &rtt, &a) == 0 && a.received == 2 && a.recovered == 1 && a.full && a.full_number == 3,
          "an ACK takes both");
    check(do_ack(1, &full, &other, &a) == PHEL_STALE_FULL_ACK && said.first == 3 && said.second == 4, "stale");
    check(desk.sender.books.rtt.mean == 5 && desk.sender.books.expected == 4, "which keeps the round-trip time alone");
    check(do_reports(&t) == 0 && t.len == 4 && t.duration == 300 && t.has_packets_to_send, "reports");
}

/* Late packets are dropped; then it drains, and the flushed payload is held until the next message. */
static void drops_and_drain(void)
{
    struct phel_ran r;
    struct phel_found f;
    struct phel_reports t;
    set_scene("late packets, drain and flush");
    fresh(&small, 1);
    do_message(0, 0, payload_at(8), 8, NULL);
    do_message(900000, 900000, payload_at(3), 3, NULL);
    check(do_run(1000000, 1, true, &r) == 0 && action_at(0).kind == PHEL_SEND, "1,000,000 is not late");
    check(do_run(1000001, 5, true, &r) == 0 && r.records == 4 && r.left == 3, "1,000,001 is");
    check(action_at(0).kind == PHEL_DROP && action_at(0).number == 15 && action_at(0).end == 17, "the first goes");
    check(action_at(1).kind == PHEL_SEND && action_at(1).number == 17 && !action_at(1).again, "the second is sent");
    check(action_at(2).kind == PHEL_SEND && action_at(2).number == 17 && action_at(2).again, "and flushed");
    check(action_at(3).kind == PHEL_WAIT_INPUT, "then it waits");
    check(do_payload(17, &f) == 0 && f.len == 3 && f.place == 8, "its payload is held");
    check(do_reports(&t) == 0 && t.is_flushed && t.len_bytes == 8, "a late drop leaves the byte count");
    check(do_message(1000001, 1000001, NULL, 0, NULL) == 0, "a message of no bytes");
    check(do_payload(17, &f) == PHEL_NOT_HELD, "it is held no longer");
}

/* The largest settings: messages of 1,048,576 bytes until the buffer gives way, all sent, all reported lost. */
static void largest(void)
{
    const struct phel_settings c = {0x7fffe000, PHEL_SIZE_MOST, PHEL_BUFFER_MOST, 65535, 65535000, 128, UINT32_MAX};
    uint8_t *payload = payload_at(PHEL_MESSAGE_MOST);
    struct phel_messaged m = {0, 0, 0, 0};
    struct phel_ran r;
    size_t made = 0, removed = 0, n;
    uint32_t front;
    set_scene("the largest settings");
    fresh(&c, 1);
    for (uint64_t i = 0; i < 12; i++) {
        check(do_message(BIT(32) - 6 + i, i * 100000, payload, PHEL_MESSAGE_MOST, &m) == 0, "the longest one");
        made += m.made;
        removed += m.removed;
    }
    check(made == 12 * 721 && removed == made - PHEL_BUFFER_MOST && m.period > 0, "721 packets each");
    front = desk.sender.books.front;
    check(do_run(BIT(32), UINT32_MAX, false, &r) == 0 && r.records == PHEL_BUFFER_MOST + 1, "all are sent");
    check(nak_two(front | 0x80000000u, (front + PHEL_BUFFER_MOST - 1) & 0x7fffffff) == 0, "all are lost");
    check(desk.sender.books.lost == PHEL_BUFFER_MOST, "and on the list");
    check(do_run(BIT(32) + 1, PHEL_BUFFER_MOST, false, &r) == 0 && r.records == PHEL_BUFFER_MOST && r.left == 0 &&
              action_at(8191).kind == PHEL_RESEND_BY_LOSS,
          "and sent again");
    check(do_nak(words_at(2), 2, &n) == 0 && n == 1, "lost again");
    check(do_ack((front + PHEL_BUFFER_MOST) & 0x7fffffff, NULL, NULL, NULL) == 0, "all arrived");
    check(desk.sender.books.ring.len == 0 && desk.sender.books.bytes == 0, "and are gone");
}

void sessions_cases(void)
{
    figures();
    wrapping();
    drops_and_drain();
    largest();
}
