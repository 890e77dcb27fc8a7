/* story.h: a hub sends a camera's pictures to a desk from 5:00:00 to 6:30:00, on a simulated clock.
 *
 * The clock counts microseconds from 5:00:00, when the sender starts. A packet's stamp has the low 32 bits of its
 * message's time, so it rolls over to 0 at 6:11:34.967, which is 6:11:35.
 *
 *   link.c      the camera's pictures, and a link that loses one packet in ten
 *   hub.c       the host of the sender: the only file that calls the library
 *   receiver.c  the desk: it knows SRT by its bytes alone
 *   report.c    the table and the figures
 *   story.c     the clock, and the verdict */
#ifndef STORY_H
#define STORY_H

#include <stdbool.h>
#include <stddef.h>
#include <stdint.h>
#include <stdio.h>

#define MILLISECOND UINT64_C(1000)
#define SECOND (1000 * MILLISECOND)
#define ROLLOVER (UINT64_C(1) << 32)
#define END (90 * 60 * SECOND)

#define HEADER 16u                          /* bytes of a packet's header */
#define PAYLOAD 1456u                       /* bytes of a full packet's payload */
#define PICTURE_MOST (60u * PAYLOAD)        /* bytes of the largest picture */
#define PICTURES 1800u                      /* one in every three seconds */
#define FIRST_NUMBER (0x80000000u - 40000u) /* so that the sequence number wraps to 0 on the way too */
#define NUMBERS_MASK 0x7fffffffu            /* sequence numbers have 31 bits */
#define SOCKET 0x11223344u                  /* the peer's socket id: there is one connection, and nobody reads it */

/* ---- What is counted ------------------------------------------------------------------------------------------- */

enum count {
    MADE,    /* pictures that the camera made */
    ARRIVED, /* pictures that the desk has, each byte as it was made */
    PACKETS, /* packets that the pictures became */
    FIRST,   /* packets sent for the first time */
    BY_LOSS, /* packets sent again because a loss report named them */
    BY_TIME, /* packets sent again because no ACK came in time: mostly they had arrived, behind a hole */
    DROPPED, /* packets dropped as late */
    REMOVED, /* packets removed by a full buffer */
    HELD,    /* buffered packets times microseconds */
    COUNTS
};

/* Counts since 5:00:00; |most| is the most that was buffered since the report last looked. */
struct tally {
    uint64_t count[COUNTS];
    uint64_t most;
};

/* ---- link.c ---------------------------------------------------------------------------------------------------- */

/* When picture |k| is made. */
uint64_t camera_time(uint32_t k);

/* Makes picture |k| in |bytes|, which has room for PICTURE_MOST, and returns its length. */
size_t camera_picture(uint32_t k, uint8_t *bytes);

/* A packet under way, and when it arrives. */
struct packet {
    uint64_t at;
    size_t len;
    uint8_t bytes[HEADER + PAYLOAD];
};

/* One direction of the link: it keeps the order, and its delay wanders between 20 and 40 ms. */
struct link {
    struct packet queue[512];
    size_t front;
    size_t len;
    uint64_t delay;
    uint64_t random;
};

void link_start(struct link *l, uint64_t seed);
void link_send(struct link *l, uint64_t now, const uint8_t *header, const uint8_t *rest, size_t rest_len);

/* When the next packet arrives; UINT64_MAX for none. */
uint64_t link_due(const struct link *l);

/* Takes the packet that arrives next. It stays readable until 511 more are sent. */
const struct packet *link_take(struct link *l);

/* Words of a packet, the highest byte first. */
uint32_t read_word(const uint8_t *at);
void write_word(uint8_t *at, uint32_t word);

/* The header of a control packet. */
enum control { KEEP_ALIVE = 1, ACK = 2, NAK = 3, ACKACK = 6, DROP_REQUEST = 7 };
void control_header(uint8_t *out, enum control type, uint32_t number, uint64_t now);

/* ---- hub.c ----------------------------------------------------------------------------------------------------- */

/* |on_stamp|: lateness is judged on the stamp. */
void hub_start(bool on_stamp, struct link *to_desk, struct tally *tally);

/* Takes a packet of the desk's; it wakes the hub. */
void hub_hear(uint64_t now, const struct packet *p);

/* Does what is due at |now|: nothing before the time that hub_due tells. */
void hub_step(uint64_t now);
uint64_t hub_due(void);

/* How many packets are buffered. */
size_t hub_buffered(void);

/* ---- receiver.c ------------------------------------------------------------------------------------------------ */

void receiver_start(struct link *to_hub, struct tally *tally);
void receiver_hear(uint64_t now, const struct packet *p);
void receiver_step(uint64_t now);
uint64_t receiver_due(void);

/* How long the slowest picture took from the camera to the desk. */
uint64_t receiver_slowest(void);

/* ---- report.c -------------------------------------------------------------------------------------------------- */

/* Starts the table on the output, and the figures in |csv|. */
void report_start(FILE *csv, struct tally *tally);
void report_step(uint64_t now);
uint64_t report_due(void);

/* The counts as they stood when the stamp rolled over. */
const struct tally *report_rollover(void);

#endif
