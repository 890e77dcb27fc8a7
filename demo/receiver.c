/* receiver.c: the desk. It puts pictures together again, acknowledges, and reports losses. It doesn't use the library:
 * what it knows of a packet are its bytes. */
#include "story.h"

#include <string.h>

#define SLOTS 512u              /* packets that it can hold; divides 2^31, so a number's slot is number % SLOTS */
#define TICK (10 * MILLISECOND) /* between full ACKs */
#define LIGHT 8u                /* packets after which a light ACK is sent before the next full one is due */
#define FULLS 64u               /* full ACKs of which the time of sending is remembered */
#define WORDS_MOST 300u         /* words of a loss report */

struct slot {
    bool here;
    uint64_t reported; /* when it was last reported lost */
    uint8_t bytes[HEADER + PAYLOAD];
    size_t len;
};

static struct {
    struct slot slots[SLOTS];
    uint32_t next; /* the lowest number that isn't here: all before it have arrived */
    uint32_t end;  /* one past the highest number that is here */

    uint8_t picture[PICTURE_MOST]; /* the picture that is being put together */
    size_t filled;                 /* bytes of it */
    uint64_t slowest;

    uint32_t full;           /* the last full ACK's own number */
    uint64_t full_at[FULLS]; /* when the last ones were sent */
    uint32_t told_by[FULLS]; /* and what they said: all before this number have arrived */
    uint32_t told;           /* what the last one said */
    uint32_t confirmed;      /* what the last one that the hub answered said */
    uint32_t since;          /* packets since the last ACK */
    uint64_t mean, variance; /* of the round-trip time */
    uint64_t wake;           /* when the next tick is */
    uint64_t spoke;          /* when it last sent anything */
    struct link *to_hub;
    struct tally *tally;
} desk;

/* How far |to| lies after |from|. */
static uint32_t distance(uint32_t from, uint32_t to)
{
    return (to - from) & NUMBERS_MASK;
}

static uint32_t after(uint32_t number, uint32_t by)
{
    return (number + by) & NUMBERS_MASK;
}

/* A time in which an answer should have come. */
static uint64_t patience(void)
{
    return desk.mean + 4 * desk.variance;
}

static void say(uint64_t now, enum control type, uint32_t number, const uint8_t *rest, size_t rest_len)
{
    uint8_t header[HEADER];
    control_header(header, type, number, now);
    link_send(desk.to_hub, now, header, rest, rest_len);
    desk.spoke = now;
}

/* ---- Pictures -------------------------------------------------------------------------------------------------- */

/* Counts a finished picture where its length, each byte and its stamp are the camera's. */
static void check_picture(uint64_t now, uint32_t message, uint32_t stamp)
{
    static uint8_t made[PICTURE_MOST];
    const size_t len = camera_picture(message, made);
    const uint64_t time = camera_time(message);
    if (len != desk.filled || memcmp(made, desk.picture, len) != 0 || stamp != (uint32_t)time)
        return;
    desk.tally->count[ARRIVED]++;
    if (now - time > desk.slowest)
        desk.slowest = now - time;
}

/* A packet of the picture won't come: it can't pass the check any more. */
static void spoil(void)
{
    desk.filled = PICTURE_MOST + 1;
}

/* Adds the next packet to its picture. The second word of a header: place 2 bits, order, key 2, again, message 26. */
static void put_together(uint64_t now, const struct slot *s)
{
    const uint32_t word = read_word(s->bytes + 4);
    const bool first = (word & 0x80000000u) != 0, last = (word & 0x40000000u) != 0;
    const size_t len = s->len - HEADER;
    if (first)
        desk.filled = 0;
    if (desk.filled + len <= PICTURE_MOST)
        memcpy(desk.picture + desk.filled, s->bytes + HEADER, len);
    desk.filled += len;
    if (last)
        check_picture(now, word & 0x03ffffffu, read_word(s->bytes + 8));
}

/* ---- Loss reports ---------------------------------------------------------------------------------------------- */

/* Writes the loss words of the numbers from |first| to |last|, and returns how many bytes they are. */
static size_t write_loss(uint8_t *out, uint32_t first, uint32_t last)
{
    write_word(out, first == last ? first : 0x80000000u | first);
    if (first == last)
        return 4;
    write_word(out + 4, last);
    return 8;
}

/* Whether |number| is missing and wasn't reported within a time in which it should have come again. */
static bool wanted(uint32_t number, uint64_t now)
{
    const struct slot *s = &desk.slots[number % SLOTS];
    return !s->here && now - s->reported > patience();
}

/* Reports what is missing, each range once; again and again until it comes. */
static void report_losses(uint64_t now)
{
    uint8_t words[4 * WORDS_MOST];
    size_t len = 0;
    for (uint32_t n = desk.next; n != desk.end && len + 8 <= sizeof words;) {
        uint32_t stop = n;
        for (; stop != desk.end && wanted(stop, now); stop = after(stop, 1))
            desk.slots[stop % SLOTS].reported = now;
        if (stop != n)
            len += write_loss(words + len, n, after(stop, NUMBERS_MASK));
        n = stop == n ? after(n, 1) : stop;
    }
    if (len > 0)
        say(now, NAK, 0, words, len);
}

/* ---- ACKs ------------------------------------------------------------------------------------------------------ */

static void light_ack(uint64_t now)
{
    uint8_t rest[4];
    write_word(rest, desk.next);
    say(now, ACK, 0, rest, sizeof rest);
    desk.since = 0;
}

/* Seven words: the number, the round-trip time and its variance, room, and three rates that no sender needs here. */
static void full_ack(uint64_t now)
{
    uint8_t rest[28] = {0};
    const uint32_t number = ++desk.full;
    write_word(rest, desk.next);
    write_word(rest + 4, (uint32_t)desk.mean);
    write_word(rest + 8, (uint32_t)desk.variance);
    write_word(rest + 12, SLOTS - distance(desk.next, desk.end));
    say(now, ACK, number, rest, sizeof rest);
    desk.full_at[number % FULLS] = now;
    desk.told_by[number % FULLS] = desk.next;
    desk.told = desk.next;
    desk.since = 0;
}

/* The hub answers a full ACK: that measures the round-trip time. */
static void hear_ackack(uint64_t now, uint32_t number)
{
    if (desk.full - number >= FULLS)
        return;
    const uint64_t trip = now - desk.full_at[number % FULLS];
    const uint64_t off = trip > desk.mean ? trip - desk.mean : desk.mean - trip;
    desk.variance = (3 * desk.variance + off) / 4;
    desk.mean = (7 * desk.mean + trip) / 8;
    desk.confirmed = desk.told_by[number % FULLS];
}

/* ---- What the desk hears and does ------------------------------------------------------------------------------ */

/* Passes the next number: what is here goes to its picture. */
static void pass(uint64_t now)
{
    struct slot *s = &desk.slots[desk.next % SLOTS];
    if (s->here)
        put_together(now, s);
    else
        spoil();
    s->here = false;
    if (desk.next == desk.end)
        desk.end = after(desk.end, 1);
    desk.next = after(desk.next, 1);
}

/* Keeps a data packet that isn't here yet, and puts together what is complete then. */
static void hear_data(uint64_t now, const struct packet *p)
{
    const uint32_t number = read_word(p->bytes);
    struct slot *s = &desk.slots[number % SLOTS];
    if (distance(desk.next, number) >= SLOTS || s->here)
        return;
    memcpy(s->bytes, p->bytes, p->len);
    s->len = p->len;
    s->here = true;
    for (; distance(desk.next, number) >= distance(desk.next, desk.end); desk.end = after(desk.end, 1))
        desk.slots[desk.end % SLOTS].reported = 0;
    while (desk.next != desk.end && desk.slots[desk.next % SLOTS].here)
        pass(now);
    report_losses(now);
    if (++desk.since == LIGHT)
        light_ack(now);
}

/* Nothing up to |last| will come any more: a hole there is passed. */
static void hear_gone(uint64_t now, uint32_t last)
{
    if (distance(desk.next, last) < 0x40000000u)
        for (uint32_t n = distance(desk.next, last) + 1; n > 0; n--)
            pass(now);
}

void receiver_hear(uint64_t now, const struct packet *p)
{
    const uint32_t word = read_word(p->bytes);
    if (word >> 31 == 0)
        hear_data(now, p);
    else if (word >> 16 == (0x8000u | ACKACK))
        hear_ackack(now, read_word(p->bytes + 4));
    else if (word >> 16 == (0x8000u | DROP_REQUEST))
        hear_gone(now, read_word(p->bytes + HEADER + 4));
}

/* A full ACK every 10 ms while there is news, or none of the last ones was answered in time; a keep-alive after a
 * second of silence. */
void receiver_step(uint64_t now)
{
    const bool news = desk.next != desk.told;
    const bool unanswered = desk.next != desk.confirmed && now - desk.full_at[desk.full % FULLS] > patience();
    const uint8_t nothing[4] = {0};
    if (now < desk.wake)
        return;
    desk.wake = now + TICK;
    report_losses(now);
    if (news || unanswered)
        full_ack(now);
    if (now - desk.spoke >= SECOND)
        say(now, KEEP_ALIVE, 0, nothing, sizeof nothing);
}

void receiver_start(struct link *to_hub, struct tally *tally)
{
    desk.next = desk.end = desk.told = desk.confirmed = FIRST_NUMBER;
    desk.mean = 100 * MILLISECOND;
    desk.variance = 50 * MILLISECOND;
    desk.wake = TICK;
    desk.to_hub = to_hub;
    desk.tally = tally;
}

uint64_t receiver_due(void)
{
    return desk.wake;
}

uint64_t receiver_slowest(void)
{
    return desk.slowest;
}
