/* picture.c: a host that sends a picture. It makes the calls of phelgomrit.h in the order in which a host makes them,
 * on a clock and a link that are only played; "a real host" marks what a real one does instead. Run: `make example`. */
#include <stdio.h>
#include <stdlib.h>
#include <string.h>
#include "phelgomrit.h"

enum { SIZE = 500, BUFFER = 32, PICTURE = 5000, LOST_ONE = 5, ROOM = 64 };
static const char title[] = "glasshouse 7, 05:00";
static const struct phel_settings settings = {
    .first = 0x7ffffffc, /* soon before the numbers wrap, to show that nothing special happens */
    .size = SIZE, .buffer = BUFFER, .flow = 16, .latency = 120000, .overhead = 44, .socket = 0x11223344,
};

/* A host keeps a sender, its timers, and the memory that it lends at each call. */
struct host {
    struct phel_sender sender;
    struct phel_timers timers;
    uint64_t ring[PHEL_RING_WORDS(BUFFER)];
    uint32_t lost[PHEL_LOST_WORDS(BUFFER)];
    uint8_t store[PHEL_STORE_BYTES(BUFFER, SIZE)];
    struct phel_areas lent;
    uint64_t now; /* microseconds since the start; a real host reads a clock that never steps back */
    int messages; /* how many were brought so far: the title, then the picture */
};

/* The other end of the link: it keeps what arrives, by how far a packet's number lies from the first one. */
struct receiver {
    uint8_t bytes[ROOM][SIZE];
    size_t len[ROOM];
    uint32_t message[ROOM];
    bool has[ROOM];
    uint32_t highest, full;
    bool lost_one, reported;
};

/* No call of this host should be refused; a real host decides what to do for each number. */
#define EXPECT(call)                                                                                      \
    do {                                                                                                  \
        const int refusal = (call);                                                                       \
        if (refusal != 0) {                                                                               \
            fprintf(stderr, "line %d: refused: %d, %s\n", __LINE__, refusal, phel_refusal_name(refusal)); \
            exit(1);                                                                                      \
        }                                                                                                 \
    } while (0)

/* Begins a line of the story. */
static void at(const struct host *h)
{
    printf("%6llu us  ", (unsigned long long)h->now);
}

static uint32_t big_endian(const uint8_t *four)
{
    return (uint32_t)four[0] << 24 | (uint32_t)four[1] << 16 | (uint32_t)four[2] << 8 | four[3];
}

/* A packet comes out of the link, which loses one. */
static void receive(struct receiver *r, const uint8_t *packet, size_t len)
{
    const uint32_t i = (big_endian(packet) - settings.first) & 0x7fffffff;
    if (i == LOST_ONE && !r->lost_one) {
        r->lost_one = true;
        printf("           the link loses it\n");
    } else if (i < ROOM) {
        r->has[i] = true;
        r->message[i] = big_endian(packet + 4) & 0x3ffffff;
        r->len[i] = len - PHEL_HEADER_BYTES;
        memcpy(r->bytes[i], packet + PHEL_HEADER_BYTES, r->len[i]);
        r->highest = i > r->highest ? i : r->highest;
    }
}

/* A record says to send a packet: its header is made, its payload lies in the store. */
static void send_packet(struct host *h, const struct phel_action *a, struct receiver *r)
{
    uint8_t packet[PHEL_HEADER_BYTES + SIZE];
    struct phel_found payload;
    EXPECT(phel_sender_payload(&h->sender, &h->lent, a->number, &payload, NULL));
    phel_action_header(packet, a, settings.socket);
    memcpy(packet + PHEL_HEADER_BYTES, h->store + payload.place, payload.len);
    at(h);
    printf("packet %08x, %u bytes%s\n", (unsigned)a->number, (unsigned)payload.len,
           !a->again ? "" : a->kind == PHEL_SEND ? ", flushed" : ", again");
    receive(r, packet, PHEL_HEADER_BYTES + payload.len); /* a real host gives it to its socket */
}

/* SND has expired |budget| times: the sender says what to send now. */
static void run(struct host *h, uint32_t budget, struct receiver *r)
{
    uint8_t records[PHEL_RECORDS_BYTES(BUFFER, BUFFER)];
    const bool draining = h->messages == 2; /* nothing comes after the picture */
    struct phel_ran ran;
    EXPECT(phel_sender_run(&h->sender, &h->lent, h->now, budget, draining, records, sizeof records, &ran, NULL));
    for (size_t k = 0; k < ran.records; k++) {
        const struct phel_action a = phel_action_at(records, k);
        if (phel_action_sends(&a))
            send_packet(h, &a, r);
        else if (a.kind == PHEL_DROP)
            printf("           dropped, too late: %08x to before %08x\n", (unsigned)a.number, (unsigned)a.end);
    }
}

/* A message is brought. It may bring a new period between packets, which the SND timer takes in nanoseconds. */
static void bring(struct host *h, const uint8_t *bytes, size_t len)
{
    struct phel_messaged m;
    EXPECT(phel_sender_message(&h->sender, &h->lent, h->now, h->now, bytes, len, &m, NULL));
    at(h);
    printf("a message of %u bytes; packets: %u\n", (unsigned)len, (unsigned)m.made);
    if (m.period != 0) {
        printf("           from now on a packet every %llu us\n", (unsigned long long)m.period);
        EXPECT(phel_timers_update_snd_period(&h->timers, m.period * 1000));
    }
    h->messages++;
}

/* The receiver reports the packet that it misses, once. */
static void report(struct host *h, struct receiver *r)
{
    const uint32_t word = (settings.first + LOST_ONE) & 0x7fffffff;
    uint32_t runs[PHEL_RUNS_WORDS(1)];
    size_t n;
    if (r->reported || r->has[LOST_ONE] || r->highest < LOST_ONE)
        return;
    r->reported = true;
    EXPECT(phel_sender_nak(&h->sender, &h->lent, &word, 1, runs, PHEL_RUNS_WORDS(1), &n, NULL));
    at(h);
    printf("%08x is reported lost%s\n", (unsigned)word,
           n == 1 && phel_loss_run_at(runs, 0).kind == PHEL_ADDED ? ", and will be sent again" : "");
}

/* The receiver acknowledges a packet once the next one is there: by a light ACK, and every third time by a full one,
 * with its number and the round-trip time that it measured. */
static void acknowledge(struct host *h, struct receiver *r)
{
    static const struct phel_rtt rtt = {20000, 5000};
    uint32_t before = 0, number;
    bool full;
    struct phel_acked acked;
    while (before < r->highest && r->has[before])
        before++;
    number = (settings.first + before) & 0x7fffffff;
    if (number == h->sender.books.front || h->sender.books.ring.len == 0)
        return; /* nothing new */
    full = before % 3 == 0;
    r->full += full;
    EXPECT(phel_sender_ack(&h->sender, &h->lent, number, full ? &r->full : NULL, full ? &rtt : NULL, &acked, NULL));
    if (full)
        EXPECT(phel_timers_update_rtt(&h->timers, &rtt));
    EXPECT(phel_timers_reset_exp(&h->timers, h->now * 1000)); /* the peer was heard */
    at(h);
    printf("%s ACK of %08x; arrived: %u\n", full ? "full" : "light", (unsigned)number, (unsigned)acked.received);
}

/* Sleeps until something is due, and does it; the 0 given to next_timer: no packet waits for an ACK of this host's. The
 * answer is whether all is sent and gone from the buffer, or the peer is. */
static bool wake(struct host *h, struct receiver *r, const uint8_t *picture)
{
    static const uint64_t times[2] = {0, 100000000}; /* when the messages come, in nanoseconds */
    const uint64_t *message = h->messages < 2 ? &times[h->messages] : NULL;
    struct phel_reports told;
    uint64_t next;
    uint32_t periods, idle;
    EXPECT(phel_sender_reports(&h->sender, &h->lent, &told, NULL));
    EXPECT(phel_timers_next_timer(&h->timers, h->now * 1000, told.has_packets_to_send, message, 0, &next));
    h->now = (next + 999) / 1000; /* a real host sleeps, and reads its clock */
    EXPECT(phel_timers_check_snd(&h->timers, h->now * 1000, &periods));
    if (periods > 0)
        run(h, periods, r);
    report(h, r);
    acknowledge(h, r);
    EXPECT(phel_timers_check_nak(&h->timers, h->now * 1000, NULL));
    EXPECT(phel_timers_check_peer_idle_timeout(&h->timers, h->now * 1000, &idle));
    if (message != NULL && *message <= h->now * 1000 && h->messages == 0)
        bring(h, (const uint8_t *)title, sizeof title);
    else if (message != NULL && *message <= h->now * 1000)
        bring(h, picture, PICTURE);
    EXPECT(phel_sender_reports(&h->sender, &h->lent, &told, NULL));
    return idle > 0 || (h->messages == 2 && told.is_flushed);
}

int main(void)
{
    static struct host h;
    static struct receiver r;
    uint8_t picture[PICTURE], arrived[ROOM * SIZE];
    size_t len = 0;
    for (size_t i = 0; i < PICTURE; i++)
        picture[i] = (uint8_t)(i * 7 + i / 251);
    h.lent = (struct phel_areas){
        h.ring, PHEL_RING_WORDS(BUFFER), h.lost, PHEL_LOST_WORDS(BUFFER), h.store, PHEL_STORE_BYTES(BUFFER, SIZE),
    };
    EXPECT(phel_sender_new(&h.sender, &settings, PHEL_MODE_INPUT, 50000, 25, NULL));
    EXPECT(phel_timers_new(&h.timers, 0, 1000000000, 5000000000));
    for (int turn = 0; turn < 10000 && !wake(&h, &r, picture); turn++)
        ;
    for (size_t i = 0; i < ROOM; i++) /* the picture is message 1 */
        if (r.has[i] && r.message[i] == 1) {
            memcpy(arrived + len, r.bytes[i], r.len[i]);
            len += r.len[i];
        }
    if (len != PICTURE || memcmp(arrived, picture, PICTURE) != 0) {
        printf("the picture did not arrive\n");
        return 1;
    }
    printf("the picture arrived whole: %u bytes\n", (unsigned)len);
    return 0;
}
