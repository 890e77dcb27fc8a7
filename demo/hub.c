/* hub.c: the host of the sender. It brings the camera's pictures as messages, sends what runs say, hands over what
 * the desk answers, and sleeps until the timers wake it. */
#include "story.h"
#include "phelgomrit.h"

#include <stdlib.h>

#define BUFFER 256u      /* packets: the largest picture has 60 */
#define LATENCY 2000000u /* two seconds: a packet is late after 2.5 */
#define RATE 1000000u    /* bytes per second that the link may be given */
#define IDLE 5           /* seconds of silence after which the desk counts as gone */
#define NANO 1000u       /* nanoseconds of a microsecond: the timers count them */

/* What the sender is lent. */
static uint64_t ring[PHEL_RING_WORDS(BUFFER)];
static uint32_t lost[PHEL_LOST_WORDS(BUFFER)];
static uint8_t store[PHEL_STORE_BYTES(BUFFER, PAYLOAD)];
static const struct phel_areas areas = {
    ring, PHEL_RING_WORDS(BUFFER), lost, PHEL_LOST_WORDS(BUFFER), store, PHEL_STORE_BYTES(BUFFER, PAYLOAD),
};

static struct {
    struct phel_sender sender;
    struct phel_timers timers;
    uint32_t picture; /* the picture that comes next */
    uint64_t wake;
    bool on_stamp;
    struct link *to_desk;
    struct tally *tally;
} hub;

/* In this story no call but an ACK is ever refused. */
static void must(int refusal, const char *call)
{
    if (refusal != 0) {
        fprintf(stderr, "story: %s was refused: %d, %s\n", call, refusal, phel_refusal_name(refusal));
        exit(2);
    }
}

/* THE SWITCH. A message's time is the whole clock. To judge lateness on the stamp is to know its low 32 bits alone. */
static uint64_t message_time(uint64_t now)
{
    return hub.on_stamp ? (uint32_t)now : now;
}

/* Brings the camera's picture. Periods that elapsed while there was nothing to send are no budget for it. */
static void bring_picture(uint64_t now)
{
    static uint8_t bytes[PICTURE_MOST];
    const size_t len = camera_picture(hub.picture++, bytes);
    struct phel_messaged done = {0};
    must(phel_timers_check_snd(&hub.timers, now * NANO, NULL), "check_snd");
    must(phel_sender_message(&hub.sender, &areas, message_time(now), now, bytes, len, &done, NULL), "message");
    if (done.period != 0)
        must(phel_timers_update_snd_period(&hub.timers, done.period * NANO), "update_snd_period");
    hub.tally->count[MADE]++;
    hub.tally->count[PACKETS] += done.made;
    hub.tally->count[REMOVED] += done.removed;
}

/* Sends the packet of a record. */
static void transmit(uint64_t now, const struct phel_action *a)
{
    uint8_t header[PHEL_HEADER_BYTES];
    struct phel_found found = {0};
    must(phel_sender_payload(&hub.sender, &areas, a->number, &found, NULL), "payload");
    phel_action_header(header, a, hub.sender.settings.socket);
    link_send(hub.to_desk, now, header, store + found.place, found.len);
    hub.tally->count[a->kind == PHEL_SEND ? FIRST : a->kind == PHEL_RESEND_BY_TIME ? BY_TIME : BY_LOSS]++;
}

/* Tells the desk that the numbers from |first| to before |end| won't come any more. */
static void tell_gone(uint64_t now, uint32_t first, uint32_t end)
{
    uint8_t request[HEADER + 8];
    control_header(request, DROP_REQUEST, 0, now);
    write_word(request + HEADER, first);
    write_word(request + HEADER + 4, (end - 1) & NUMBERS_MASK);
    link_send(hub.to_desk, now, request, request + HEADER, 8);
}

/* Runs the sender, and does what the records say. */
static void run(uint64_t now, uint32_t budget)
{
    static uint8_t records[PHEL_RECORDS_BYTES(BUFFER, BUFFER)];
    struct phel_ran ran = {0};
    must(phel_sender_run(&hub.sender, &areas, now, budget, false, records, sizeof records, &ran, NULL), "run");
    for (size_t k = 0; k < ran.records; k++) {
        const struct phel_action a = phel_action_at(records, k);
        if (phel_action_sends(&a))
            transmit(now, &a);
        if (a.kind == PHEL_DROP) {
            tell_gone(now, a.number, a.end);
            hub.tally->count[DROPPED] += (a.end - a.number) & NUMBERS_MASK;
        }
    }
}

/* Gives the sender an ACK. It may refuse one that comes again: all of it is acknowledged, or it is old. */
static void give_ack(uint32_t number, const uint32_t *full, const struct phel_rtt *rtt)
{
    const int refusal = phel_sender_ack(&hub.sender, &areas, number, full, rtt, NULL, NULL);
    if (refusal != PHEL_EMPTY && refusal != PHEL_INVALID_ACK)
        must(refusal, "ack");
}

/* Takes an ACK. One with a number brings the round-trip time, and is answered even where the sender refuses it. */
static void hear_ack(uint64_t now, const struct packet *p)
{
    const uint32_t full = read_word(p->bytes + 4);
    const uint32_t number = read_word(p->bytes + HEADER);
    if (full == 0) {
        give_ack(number, NULL, NULL);
        return;
    }
    const struct phel_rtt rtt = {read_word(p->bytes + HEADER + 4), read_word(p->bytes + HEADER + 8)};
    uint8_t answer[HEADER + 4] = {0};
    give_ack(number, &full, &rtt);
    must(phel_timers_update_rtt(&hub.timers, &rtt), "update_rtt");
    control_header(answer, ACKACK, full, now);
    link_send(hub.to_desk, now, answer, answer + HEADER, 4);
}

/* Takes a loss report, and says which of its numbers are no longer buffered. */
static void hear_nak(uint64_t now, const struct packet *p)
{
    static uint32_t words[PAYLOAD / 4], runs[PHEL_RUNS_WORDS(PAYLOAD / 4)];
    const size_t len = (p->len - HEADER) / 4;
    size_t count = 0;
    for (size_t i = 0; i < len; i++)
        words[i] = read_word(p->bytes + HEADER + 4 * i);
    must(phel_sender_nak(&hub.sender, &areas, words, len, runs, PHEL_RUNS_WORDS(PAYLOAD / 4), &count, NULL), "nak");
    for (size_t k = 0; k < count; k++) {
        const struct phel_loss_run r = phel_loss_run_at(runs, k);
        if (r.kind == PHEL_DROPPED)
            tell_gone(now, r.first, r.end);
    }
}

void hub_hear(uint64_t now, const struct packet *p)
{
    const uint32_t type = read_word(p->bytes) >> 16 & 0x7fff;
    must(phel_timers_reset_exp(&hub.timers, now * NANO), "reset_exp");
    hub.wake = now;
    if (type == ACK)
        hear_ack(now, p);
    else if (type == NAK)
        hear_nak(now, p);
}

/* Asks the timers when to wake: for a packet to send, for the next picture, or to look for packets due again. The 0:
 * nothing waits for an ACK of ours, the hub receives no data. */
static void sleep_from(uint64_t now)
{
    const uint64_t picture = camera_time(hub.picture) * NANO;
    struct phel_reports reports = {0};
    uint64_t wake = 0;
    must(phel_sender_reports(&hub.sender, &areas, &reports, NULL), "reports");
    must(phel_timers_next_timer(&hub.timers, now * NANO, reports.has_packets_to_send,
                                hub.picture < PICTURES ? &picture : NULL, 0, &wake),
         "next_timer");
    hub.wake = (wake + NANO - 1) / NANO;
}

void hub_step(uint64_t now)
{
    uint32_t periods = 0, silent = 0;
    if (now < hub.wake)
        return;
    if (hub.picture < PICTURES && camera_time(hub.picture) <= now)
        bring_picture(now);
    must(phel_timers_check_nak(&hub.timers, now * NANO, NULL), "check_nak");
    must(phel_timers_check_peer_idle_timeout(&hub.timers, now * NANO, &silent), "check_peer_idle_timeout");
    must(phel_timers_check_snd(&hub.timers, now * NANO, &periods), "check_snd");
    if (periods > 0)
        run(now, periods);
    sleep_from(now);
    if (silent > 0) {
        fprintf(stderr, "story: the desk was not heard for %d seconds\n", IDLE);
        exit(2);
    }
}

void hub_start(bool on_stamp, struct link *to_desk, struct tally *tally)
{
    const struct phel_settings settings = {
        .first = FIRST_NUMBER, .size = PAYLOAD, .buffer = BUFFER, .flow = 8192, .latency = LATENCY, .overhead = 44,
        .socket = SOCKET,
    };
    hub.on_stamp = on_stamp;
    hub.to_desk = to_desk;
    hub.tally = tally;
    hub.picture = 0;
    must(phel_sender_new(&hub.sender, &settings, PHEL_MODE_MAX, RATE, 0, NULL), "new");
    must(phel_timers_new(&hub.timers, 0, SECOND * NANO, IDLE * SECOND * NANO), "timers_new");
    sleep_from(0);
}

uint64_t hub_due(void)
{
    return hub.wake;
}

size_t hub_buffered(void)
{
    return hub.sender.books.ring.len;
}
