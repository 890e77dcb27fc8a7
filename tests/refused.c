/* refused.c: each refusal by name, then areas and lists for answers of all lengths about the one that is needed. */
#include "outside.h"

static void bad_settings(void)
{
    static const struct phel_settings bad[] = {
        {0x80000000u, 4, 4, 8, 0, 0, 0}, {0, 0, 4, 8, 0, 0, 0},        {0, 1457, 4, 8, 0, 0, 0},
        {0, 4, 8193, 8, 0, 0, 0},        {0, 4, 4, 65536, 0, 0, 0},    {0, 4, 4, 8, 65535001, 0, 0},
        {0, 4, 4, 8, 0, 129, 0},
    };
    set_scene("settings");
    fresh(&small, 1);
    for (size_t i = 0; i < sizeof bad / sizeof bad[0]; i++)
        check(do_new(&bad[i], PHEL_MODE_UNLIMITED, 0, 0) == PHEL_BAD_SETTING, "a setting out of its range");
    for (uint32_t mode = 0; mode < 6; mode++)
        for (size_t i = 0; i < ends_len; i++)
            for (uint64_t overhead = 0; overhead < 4; overhead++)
                do_new(&small, mode, ends[i], overhead == 3 ? 10001 : overhead * 5000);
    check(do_new(&small, PHEL_MODE_INPUT, BIT(40), 10000) == 0, "the highest rate and overhead");
    check(do_new(&small, PHEL_MODE_MAX, BIT(40) + 1, 0) == PHEL_BAD_SETTING, "a rate too high");
    check(do_new(&small, PHEL_MODE_UNLIMITED, 1, 0) == PHEL_BAD_SETTING, "a rate without use");
    check(do_new(&small, PHEL_MODE_UNLIMITED, 0, 1) == PHEL_BAD_SETTING, "an overhead without use");
    check(do_new(&small, PHEL_MODE_MAX, 0, 1) == PHEL_BAD_SETTING, "another");
    check(do_new(&small, 4, 0, 0) == PHEL_BAD_SETTING, "no mode");
}

static void bad_messages(void)
{
    static const uint8_t bytes[PHEL_MESSAGE_MOST + 1];
    set_scene("messages");
    fresh(&small, 1);
    check(do_message(BIT(48), 0, bytes, 1, NULL) == PHEL_BAD_TIME, "a time too high");
    check(do_message(0, BIT(48), bytes, sizeof bytes, NULL) == PHEL_BAD_TIME, "a now too high, before a length");
    check(do_message(0, 0, bytes, sizeof bytes, NULL) == PHEL_TOO_LONG, "a message too long");
    desk.sender.books.bytes = BIT(62) - 5;
    check(do_message(0, 0, bytes, 5, NULL) == PHEL_COUNT_FULL, "the byte count reaches 2^62");
    check(do_message(0, 0, bytes, 4, NULL) == 0, "the byte count stays below");
    desk.sender.pacing.bytes.count = BIT(38) - 3;
    desk.sender.books.bytes = 1000;
    check(do_message(0, 0, bytes, 4, NULL) == PHEL_COUNT_FULL, "pacing's bytes pass 2^38");
    check(do_message(0, 0, bytes, 3, NULL) == 0, "pacing's bytes reach 2^38");
    check(do_message(0, 100000, bytes, 4, NULL) == 0, "an estimate due now is taken as made");
    desk.sender.pacing.packets.count = BIT(38) - 1;
    check(do_message(0, 100000, bytes, 5, NULL) == PHEL_COUNT_FULL, "pacing's packets pass 2^38");
    check(do_message(0, 100000, bytes, 4, NULL) == 0, "pacing's packets reach 2^38");
    desk.sender.books.message = BIT(26);
    check(do_message(BIT(48), 0, bytes, 4, NULL) == PHEL_BAD_STATE, "damaged books, before a time");
}

static void bad_acks(void)
{
    const struct phel_rtt bad = {100000001, 0};
    const uint32_t zero = 0;
    set_scene("ACKs and payloads");
    fresh(&small, 1);
    check(do_ack(0x80000000u, NULL, &bad, NULL) == PHEL_BAD_NUMBER, "a number too high");
    check(do_ack(15, NULL, &bad, NULL) == PHEL_BAD_RTT, "a round-trip time too long");
    check(do_ack(15, NULL, NULL, NULL) == PHEL_EMPTY, "nothing is buffered");
    do_message(0, 0, payload_at(8), 8, NULL);
    do_run(0, 1, false, NULL);
    check(do_ack(18, NULL, NULL, NULL) == PHEL_INVALID_ACK && said.first == 18 && said.second == 15 &&
              said.third == 17,
          "an ACK past next unsent");
    check(do_ack(14, NULL, NULL, NULL) == PHEL_INVALID_ACK && said.first == 14, "an ACK before the front");
    check(do_ack(15, &zero, NULL, NULL) == PHEL_STALE_FULL_ACK && said.first == 0 && said.second == 1, "stale");
    check(do_payload(0x80000000u, NULL) == PHEL_BAD_NUMBER, "a payload's number too high");
    check(do_payload(17, NULL) == PHEL_NOT_HELD, "a payload that isn't held");
}

static void bad_naks(void)
{
    uint32_t *words;
    set_scene("loss reports");
    fresh(&small, 2);
    check(nak_one(0x8000000fu) == PHEL_BAD_NAK && said.first == 0, "a range without a last");
    check(nak_two(15, 0x8000000fu) == PHEL_BAD_NAK && said.first == 1, "behind a number");
    check(nak_two(0x8000000fu, 0x80000010u) == PHEL_BAD_NAK && said.first == 0, "a last with its top bit set");
    check(nak_two(0x80000000u, 0x40000000u) == PHEL_BAD_NAK && said.first == 0, "a range too wide");
    check(nak_two(0x80000000u, 0x3fffffffu) == 0, "the widest range");
    desk.runs = NULL;
    check(nak_two(3, 5) == PHEL_NO_ROOM, "no list at all");
    check(do_nak(NULL, 0, NULL) == 0, "no words need no room");
    fresh(&small, 512);
    words = words_at(513);
    for (size_t i = 0; i < 513; i++)
        words[i] = UINT32_MAX;
    check(do_nak(words, 513, NULL) == PHEL_BAD_NAK && said.first == 512, "513 words, the first bad too");
    words = words_at(512);
    for (size_t i = 0; i < 512; i++)
        words[i] = (uint32_t)(2 * i);
    check(do_nak(words, 512, NULL) == 0, "512 words");
}

/* ---- Areas */

/* Every call, each accepted where the areas suffice: its numbers fit a sender with two of four packets sent. */
static void every_call(int message, int others)
{
    const struct phel_sender s = desk.sender;
    check(do_reports(NULL) == others, "reports");
    check(do_payload(15, NULL) == message, "payload");
    check(nak_one(15) == others, "nak");
    desk.sender = s;
    check(do_run(100, 0, false, NULL) == others, "run");
    check(do_ack(15, NULL, NULL, NULL) == others, "ack");
    check(do_message(100, 100, payload_at(4), 4, NULL) == message, "message");
}

/* A sender with two of four packets sent, and areas that are longer or shorter than it needs. */
static void lend(int ring, int lost, int store)
{
    struct lengths n = lengths_for(&small, UINT32_MAX, 1);
    uint64_t entries[24];
    fresh(&small, 1);
    do_message(50, 50, payload_at(13), 13, NULL);
    do_run(50, 1, false, NULL);
    memcpy(entries, desk.lent.ring, sizeof entries);
    n.ring += (size_t)ring;
    n.lost += (size_t)lost;
    n.store += (size_t)store;
    desk_set(n);
    memset(desk.lent.ring, 0x77, n.ring * 8);
    memcpy(desk.lent.ring, entries, n.ring * 8 < sizeof entries ? n.ring * 8 : sizeof entries);
}

static void areas(void)
{
    struct phel_areas whole;
    set_scene("areas");
    for (int more = 0; more <= 5; more++) {
        lend(more, more, more);
        every_call(0, 0);
    }
    for (int less = 1; less <= 4; less++) {
        lend(-less, 0, 0);
        every_call(PHEL_BAD_STORE, PHEL_BAD_STORE);
        lend(0, -less, 0);
        every_call(PHEL_BAD_STORE, PHEL_BAD_STORE);
        lend(0, 0, -less);
        every_call(PHEL_BAD_STORE, 0);
    }
    lend(0, 0, 0);
    whole = desk.lent;
    desk.lent.store = NULL; /* whatever its length says */
    every_call(PHEL_BAD_STORE, 0);
    desk.lent = whole;
    desk.lent.ring = NULL;
    every_call(PHEL_BAD_STORE, PHEL_BAD_STORE);
    desk.lent = whole;
    desk.lent.lost = NULL;
    every_call(PHEL_BAD_STORE, PHEL_BAD_STORE);
    desk.records = NULL;
    desk.lent = whole;
    check(do_run(100, 1, false, NULL) == PHEL_NO_ROOM, "no list at all");
    desk.sender.settings.size = 0; /* no area is asked for by settings out of range */
    every_call(PHEL_BAD_STATE, PHEL_BAD_STATE);
}

/* "Room needed: min(p, buffered) + 3 records", whole ones; "three per item". */
static void lists(void)
{
    set_scene("lists for answers");
    for (uint32_t budget = 0; budget < 7; budget++)
        for (size_t less = 0; less <= 25; less++) {
            struct lengths n = lengths_for(&small, budget, 2);
            lend(0, 0, 0);
            n.records -= less;
            n.runs -= less < n.runs ? less : n.runs;
            desk.records += side == AT_END ? desk.records_len - n.records : 0;
            desk.records_len = n.records;
            check(do_run(100, budget, false, NULL) == (less == 0 ? 0 : PHEL_NO_ROOM), "records");
            lend(0, 0, 0);
            desk_set(n);
            check(nak_two(15, 16) == (less == 0 ? 0 : PHEL_NO_ROOM), "runs");
        }
}

void refused_cases(void)
{
    bad_settings();
    bad_messages();
    bad_acks();
    bad_naks();
    areas();
    lists();
}
