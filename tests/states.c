/* states.c: the senders that damage.c damages, each made by calls or, where no session soon gets there, by hand. */
#include "damage.h"

struct state states[STATES];
struct lengths lent;

static void take(struct state *s, const char *name)
{
    memset(s, 0, sizeof *s);
    s->name = name;
    memcpy(&s->sender, &desk.sender, sizeof s->sender);
    memcpy(s->ring, desk.lent.ring, lent.ring * 8);
    memcpy(s->lost, desk.lent.lost, lent.lost * 4);
    memcpy(s->store, desk.lent.store, lent.store);
}

void state_put(const struct state *s)
{
    lent = lengths_for(&s->sender.settings, UINT32_MAX, 3);
    desk_set(lent);
    memcpy(&desk.sender, &s->sender, sizeof desk.sender);
    memcpy(desk.lent.ring, s->ring, lent.ring * 8);
    memcpy(desk.lent.lost, s->lost, lent.lost * 4);
    memcpy(desk.lent.store, s->store, lent.store);
    memset(desk.records, 0xcc, lent.records);
    memset(desk.runs, 0xcc, lent.runs * 4);
}

static void begin(uint32_t buffer, uint32_t mode, uint64_t rate, uint64_t overhead)
{
    const struct phel_settings c = {0x7ffffffd, SIZE, buffer, 8, 120000, 8, 0x11223344};
    lent = lengths_for(&c, UINT32_MAX, 3);
    desk_set(lent);
    memset(desk.lent.ring, 0x5a, lent.ring * 8);
    memset(desk.lent.lost, 0x5a, lent.lost * 4);
    memset(desk.lent.store, 0x5a, lent.store);
    do_new(&c, mode, rate, overhead);
}

static void bring(uint64_t now, size_t packets)
{
    do_message(now, now, payload_at(packets * SIZE - 3), packets * SIZE - 3, NULL);
}

static void lose(uint32_t number)
{
    nak_one(number & 0x7fffffff);
}

static void make_small(void)
{
    begin(5, PHEL_MODE_UNLIMITED, 0, 0);
    take(&states[0], "empty");
    bring(1000, 3);
    take(&states[1], "three unsent, pacing begun");
    bring(1500, 1);
    do_run(2000, 2, false, NULL);
    take(&states[2], "some sent");
    do_run(2500, 2, false, NULL);
    lose(0x7ffffffd);
    lose(0x7fffffff);
    take(&states[3], "some lost");
    bring(200000, 3);
    take(&states[4], "full, the ring wrapped");
    do_run(200100, 9, false, NULL);
    for (uint32_t i = 0; i < 5; i++)
        lose(desk.sender.books.front + 4 - i);
    take(&states[5], "full, all lost");
    do_ack((desk.sender.books.front + 5) & 0x7fffffff, NULL, NULL, NULL);
    take(&states[6], "all acknowledged");
}

static void make_others(void)
{
    begin(5, PHEL_MODE_INPUT, 1000000, 25);
    bring(1000, 1);
    do_run(2000, 4, true, NULL);
    take(&states[7], "a flushed packet held");
    begin(5, PHEL_MODE_ESTIMATED, 1000, 10000);
    for (uint64_t i = 0; i < 6; i++)
        bring(1000 + i * 70000, 2);
    take(&states[8], "estimates made");
    begin(0, PHEL_MODE_MAX, BIT(40), 0);
    bring(1000, 1);
    do_run(1000, 1, false, NULL);
    lose(0x7ffffffd);
    take(&states[9], "a buffer of 0");
    begin(8, PHEL_MODE_MAX, 5, 0);
    bring(1000, 8);
    do_run(1000, 20, false, NULL);
    do_ack(2, NULL, NULL, NULL);
    bring(5000, 4);
    lose(3);
    take(&states[10], "a ring that wraps in the middle");
}

/* Books that no session soon reaches, and that keep every rule: a packet held beside buffered ones, and every field at
 * its upper end. */
static void make_ends(void)
{
    struct state *s = &states[11];
    const struct phel_estimate full = {BIT(38), BIT(42), BIT(42)};
    *s = states[3];
    s->name = "a packet held beside others";
    s->sender.books.held.held = 1;
    s->sender.books.held.number = 7;
    s->sender.books.held.slot = 4;
    s->sender.books.held.len = SIZE;
    s = &states[12];
    *s = states[5];
    s->name = "at the ends";
    s->sender.books.bytes = BIT(62) - 1;
    s->sender.books.expected = BIT(32);
    s->sender.books.message = (uint32_t)BIT(26) - 1;
    s->sender.books.rtt.mean = s->sender.books.rtt.variance = 100000000;
    s->sender.pacing.next = BIT(49) - 1;
    s->sender.pacing.packets = s->sender.pacing.bytes = full;
    for (size_t i = 0; i < 5; i++) {
        s->ring[i * 6] = BIT(48) - 1;
        s->ring[i * 6 + 1] = BIT(26) - 1;
        s->ring[i * 6 + 4] = 65535;
        s->ring[i * 6 + 5] = BIT(49) - 1;
    }
}

void states_make(void)
{
    make_small();
    make_others();
    make_ends();
}
