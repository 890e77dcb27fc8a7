/* phelgomrit.h: the sender of an SRT connection, with its timers.
 *
 * The library does no I/O, reads no clock, allocates no memory, and keeps no pointer from one call to the next. The
 * host brings the time, lends the memory at each call, and sends the packets that it is told to send. A sender is a
 * plain struct that the host keeps, with three areas of memory; two senders share nothing, and one may be copied with
 * its areas. Sockets, the handshake, encryption and the receiver are not here.
 *
 * Any numbers may be given: each call checks what it is given, the kept struct and the lent areas too, and returns 0,
 * or the number of the refusal, the lowest that applies. A refusal changes nothing kept or lent, with one exception:
 * PHEL_STALE_FULL_ACK keeps the round-trip time that the ACK brought. The check passes over all that is buffered, so a
 * call takes time in proportion to that.
 *
 * Any pointer may be NULL. It is never followed, and stands for:
 *     an area, or all of |lent|   memory of length 0, whatever length is given with it: PHEL_BAD_STORE if any is needed
 *     a list for an answer        memory of length 0 too: PHEL_NO_ROOM if room is needed
 *     a message, a loss report    an empty one if its length is 0, else one that is missing: PHEL_BAD_STORE
 *     a sender, timers            what breaks the book rules: PHEL_BAD_STATE; those to be made: PHEL_BAD_SETTING
 *     settings                    settings out of range: PHEL_BAD_SETTING
 *     |rtt| for the timers        a round-trip time out of range: PHEL_BAD_RTT
 *     |full|, |rtt| of an ACK     that it doesn't bring one
 *     |message| for the timers    that no time of a next message is known
 *     where an answer goes        that it isn't wanted: |answer|, |why|, |periods|, |wake|
 * Of any other pointer a call can check nothing: it must point to as many elements as its length says, and what is lent
 * to one call must not overlap.
 *
 * A session in short:
 *     phel_sender_new      once
 *     phel_sender_message  for each message; where it answers a period, phel_timers_update_snd_period
 *     phel_sender_run      whenever phel_timers_check_snd finds periods elapsed; it writes records of what to send
 *     phel_sender_ack      for each ACK that arrives; phel_timers_update_rtt where it brings a round-trip time
 *     phel_sender_nak      for each loss report that arrives
 * and between them the host sleeps until phel_timers_next_timer. examples/picture.c does all of it.
 *
 * Units: the sender's times, periods and round-trip times are microseconds, times below 2^48 since the start; the
 * timers' are nanoseconds, times below 2^58. Sequence numbers have 31 bits, message numbers 26; both wrap to 0. */
#ifndef PHEL_PHELGOMRIT_H
#define PHEL_PHELGOMRIT_H

#include <stdbool.h>
#include <stddef.h>
#include <stdint.h>

/* The version. Header and archive belong together: compile a host again with every new one. Before 1.0 a new MINOR may
 * ask a host to change its source, and a new PATCH does not. From 1.0 on only a new MAJOR may; MINOR adds, PATCH mends.
 * docs/changes says what a host must do. */
#define PHEL_VERSION_MAJOR 0
#define PHEL_VERSION_MINOR 2
#define PHEL_VERSION_PATCH 0
#define PHEL_VERSION "0.2.0"

/* ---- Names for numbers ------------------------------------------------------------------------------------------ */

/* Why a call is refused. phel_refusal_name has their names for a log. */
enum phel_refusal_number {
    PHEL_BAD_SETTING = 1,     /* a setting is outside its range */
    PHEL_BAD_STORE = 2,       /* a lent area is too short, or the bytes of a message or loss report are missing */
    PHEL_BAD_STATE = 3,       /* what is kept breaks a book rule: it is damaged, or isn't what the last call left */
    PHEL_BAD_TIME = 4,        /* a time is at or over its limit */
    PHEL_TOO_LONG = 5,        /* a message is over PHEL_MESSAGE_MOST bytes */
    PHEL_COUNT_FULL = 6,      /* the byte count, or what pacing counts, would pass its end */
    PHEL_BAD_NUMBER = 7,      /* a sequence number is 2^31 or more */
    PHEL_BAD_RTT = 8,         /* mean or variance of a round-trip time is over PHEL_RTT_MOST */
    PHEL_EMPTY = 9,           /* an ACK, and nothing is buffered */
    PHEL_INVALID_ACK = 10,    /* an ACK outside front to next unsent: its number, the front, next unsent */
    PHEL_STALE_FULL_ACK = 11, /* a full number below the expected one: that number, the expected one */
    PHEL_BAD_NAK = 12,        /* loss words malformed: the first bad item's first word, from 0; or too many: 512 */
    PHEL_NO_ROOM = 13,        /* a lent list for the answer is too short */
    PHEL_NOT_HELD = 14        /* a payload that isn't held is asked for */
};

/* How the allowed rate is found. */
enum phel_mode {
    PHEL_MODE_INPUT = 0,     /* rate and overhead: the set rate, with the overhead in percent on top */
    PHEL_MODE_ESTIMATED = 1, /* the same of the rate expected, or of the measured one where that is more */
    PHEL_MODE_MAX = 2,       /* rate: the most that may be sent; overhead is 0 */
    PHEL_MODE_UNLIMITED = 3  /* 125,000,000 bytes per second; rate and overhead are 0 */
};

/* What a record of a run says. */
enum phel_kind {
    PHEL_SEND = 1,           /* send the packet; a flush on closing is of this kind too */
    PHEL_RESEND_BY_TIME = 2, /* send the packet again: it was not acknowledged in time */
    PHEL_RESEND_BY_LOSS = 3, /* send the packet again: it was reported lost */
    PHEL_DROP = 4,           /* these packets were too late and are gone */
    PHEL_WAIT_INPUT = 5,     /* nothing to send: wait for a message */
    PHEL_WAIT_ACK = 6        /* the flow window is full: wait for an ACK */
};

/* A packet's place in its message: the two bits of the header. */
enum phel_place { PHEL_PLACE_MIDDLE = 0, PHEL_PLACE_LAST = 1, PHEL_PLACE_FIRST = 2, PHEL_PLACE_ONLY = 3 };

/* What became of the numbers of a loss report. */
enum phel_loss_kind {
    PHEL_ADDED = 1,   /* buffered and sent: on the loss list now */
    PHEL_IGNORED = 2, /* not sent yet: less than 2^30 from next unsent on */
    PHEL_DROPPED = 3  /* all others: no longer buffered */
};

#define PHEL_SIZE_MOST 1456u        /* bytes of a packet's payload */
#define PHEL_BUFFER_MOST 8192u      /* packets in the buffer */
#define PHEL_MESSAGE_MOST 1048576u  /* bytes of a message */
#define PHEL_WORDS_MOST 512u        /* words of a loss report */
#define PHEL_RTT_MOST 100000000u    /* microseconds */
#define PHEL_HEADER_BYTES 16u
#define PHEL_RECORD_BYTES 24u

/* ---- Sizes of what the host lends ------------------------------------------------------------------------------- */

/* How many packets there is room for, with a setting |buffer|. */
#define PHEL_CAPACITY(buffer) ((size_t)(buffer) == 0 ? (size_t)1 : (size_t)(buffer))

/* The three areas that stay lent as long as the sender is used. The first call may find anything in them. */
#define PHEL_RING_WORDS(buffer) (PHEL_CAPACITY(buffer) * 6)                     /* of uint64_t */
#define PHEL_LOST_WORDS(buffer) (PHEL_CAPACITY(buffer))                         /* of uint32_t */
#define PHEL_STORE_BYTES(buffer, size) (PHEL_CAPACITY(buffer) * (size_t)(size)) /* of uint8_t */

/* The list of records of a run: 24 x (min(budget, buffered) + 3). PHEL_CAPACITY is the most that may be buffered. */
#define PHEL_RECORDS_BYTES(budget, buffered) \
    (((size_t)(budget) < (size_t)(buffered) ? (size_t)(budget) : (size_t)(buffered)) * 24 + 72)

/* The list of runs of a loss report of so many items; a word is at most one item. */
#define PHEL_RUNS_WORDS(items) ((size_t)(items) * 9) /* of uint32_t */

#ifdef __cplusplus
extern "C" {
#endif

/* ---- What a host keeps and lends -------------------------------------------------------------------------------- */

/* The settings. */
struct phel_settings {
    uint32_t first;    /* the first sequence number, below 2^31 */
    uint32_t size;     /* bytes of a full packet's payload, 1 to 1,456 */
    uint32_t buffer;   /* packets in the buffer, 0 to 8,192; 0 is as 1 */
    uint32_t flow;     /* flow window in packets, 0 to 65,535: more than that unacknowledged, and the sender waits */
    uint32_t latency;  /* TSBPD latency in microseconds, 0 to 65,535,000 */
    uint32_t overhead; /* wire bytes of a packet besides its payload, 0 to 128 */
    uint32_t socket;   /* the peer's socket id, any */
};

/* Which slots of the ring hold packets. */
struct phel_ring {
    size_t cap;  /* how many slots there are: PHEL_CAPACITY(buffer) */
    size_t slot; /* the front packet's slot */
    size_t len;  /* how many packets are buffered */
};

/* A round-trip time in microseconds, 0 to 100,000,000 each. */
struct phel_rtt {
    uint32_t mean;
    uint32_t variance;
};

/* The packet that a closing run flushed: its payload is held until the next accepted message. */
struct phel_held {
    uint32_t held;   /* 1, or 0 and all else with it */
    uint32_t number; /* its sequence number */
    size_t slot;     /* its slot in the store */
    size_t len;      /* bytes of its payload */
};

/* What the send buffer keeps beside the lent areas. */
struct phel_books {
    struct phel_ring ring;
    uint32_t front;       /* the front packet's number; with none buffered the number that the next packet gets */
    uint32_t sent;        /* how many packets are sent, from the front on: next unsent is front + sent */
    size_t lost;          /* how many numbers are on the loss list */
    uint64_t bytes;       /* the byte count */
    struct phel_rtt rtt;  /* the last round-trip time that an ACK brought; at the start 100,000 and 50,000 */
    uint64_t expected;    /* the lowest full number that isn't stale, 1 to 2^32 */
    struct phel_held held;
    uint32_t message;     /* the number that the next message gets */
};

/* An estimate of what comes in. */
struct phel_estimate {
    uint64_t count;    /* since the last estimate, at most 2^38 */
    uint64_t mean;     /* per second, at most 2^42 */
    uint64_t variance; /* per second, at most 2^42 */
};

/* What pacing keeps. A number that a mode has no use for is 0. */
struct phel_pacing {
    uint32_t mode;     /* one of enum phel_mode */
    uint32_t begun;    /* 1 from the first message on; before it 0, and next too */
    uint64_t rate;     /* bytes per second, at most 2^40 */
    uint64_t overhead; /* percent, at most 10,000 */
    uint64_t next;     /* when the next estimate is due, microseconds, below 2^49 */
    struct phel_estimate packets;
    struct phel_estimate bytes; /* of payload */
};

/* A sender: all that is kept beside the lent areas. For the library to write; a host may read it. */
struct phel_sender {
    struct phel_settings settings;
    struct phel_books books;
    struct phel_pacing pacing;
};

/* The areas that stay lent: at each call they must hold what this sender's last call left. Longer ones do no harm. */
struct phel_areas {
    uint64_t *ring;   /* the buffered packets, six words each */
    size_t ring_len;  /* words, at least PHEL_RING_WORDS */
    uint32_t *lost;   /* the loss list */
    size_t lost_len;  /* words, at least PHEL_LOST_WORDS */
    uint8_t *store;   /* the payloads */
    size_t store_len; /* bytes, at least PHEL_STORE_BYTES */
};

/* Why a call was refused: |number| is 0 where it was not. |first| to |third| are the values named at PHEL_INVALID_ACK,
 * PHEL_STALE_FULL_ACK and PHEL_BAD_NAK, in that order; all else is 0. */
struct phel_refusal {
    uint32_t number;
    uint64_t first;
    uint64_t second;
    uint64_t third;
};

/* A timer: it expires every |period| from |last| on. */
struct phel_timer {
    uint64_t period; /* nanoseconds, at most 10^15 */
    uint64_t last;   /* nanoseconds, below 2^58 */
};

/* The timers of a connection. For the library to write; a host may read them. */
struct phel_timers {
    struct phel_timer snd;      /* a packet may be sent */
    struct phel_timer full_ack; /* a full ACK is due (for a receiver) */
    struct phel_timer nak;      /* a loss report is due (for a receiver) */
    struct phel_timer exp;      /* nothing was heard of the peer */
    uint32_t exp_count;         /* 1 to 2^32 - 1: phel_timers_check_peer_idle_timeout says when it goes up */
    struct phel_timer peer_idle;
    struct phel_timer statistics;
};

/* ---- What the calls answer -------------------------------------------------------------------------------------- */

/* What a message came to. */
struct phel_messaged {
    size_t made;     /* packets that it became */
    size_t removed;  /* packets that a full buffer gave up for them */
    uint64_t bytes;  /* wire bytes removed: payload plus overhead */
    uint64_t period; /* the new period between packets in microseconds, at most 10^12; 0 for no new one */
};

/* What an ACK came to. */
struct phel_acked {
    uint32_t received;    /* packets acknowledged */
    uint32_t recovered;   /* those of them that were on the loss list */
    bool full;            /* whether the ACK brought a full number: the host answers it */
    uint32_t full_number; /* that number, or 0 */
};

/* What a run came to. */
struct phel_ran {
    size_t records; /* records written */
    uint32_t left;  /* budget less packets sent, never below 0 */
};

/* Where a payload lies. */
struct phel_found {
    size_t place; /* its first byte in the store */
    size_t len;   /* bytes */
};

/* The reports. */
struct phel_reports {
    bool is_flushed;          /* nothing is buffered, and the loss list is empty */
    bool has_packets_to_send; /* a packet is unsent, or a number on the loss list */
    size_t len;               /* buffered packets */
    uint64_t len_bytes;       /* the byte count */
    uint64_t duration;        /* the back packet's time less the front's, microseconds; 0 where negative or empty */
};

/* ---- The entries of the library --------------------------------------------------------------------------------- */

/* They take what is kept and give it back; a refused call gives back what it was given (phel_entry_ack's refusal
 * PHEL_STALE_FULL_ACK with the new round-trip time), and zeros for its answer. A host calls the functions below, which
 * wrap them in the usual shape. The entries take no NULL: a pointer must point somewhere, even if its length is 0. */

struct phel_new_answer {
    struct phel_refusal refusal;
    struct phel_sender sender; /* zeros where refused */
};

struct phel_message_answer {
    struct phel_refusal refusal;
    struct phel_messaged done;
    struct phel_sender sender;
};

struct phel_ack_answer {
    struct phel_refusal refusal;
    struct phel_acked done;
    struct phel_sender sender;
};

struct phel_nak_answer {
    struct phel_refusal refusal;
    size_t runs;
    struct phel_sender sender;
};

struct phel_run_answer {
    struct phel_refusal refusal;
    struct phel_ran done;
    struct phel_sender sender;
};

struct phel_payload_answer {
    struct phel_refusal refusal;
    struct phel_found done;
};

struct phel_reports_answer {
    struct phel_refusal refusal;
    struct phel_reports done;
};

struct phel_timers_answer {
    uint32_t refusal;
    uint32_t periods;
    struct phel_timers timers; /* zeros where phel_entry_timers_new is refused */
};

struct phel_nanoseconds_answer {
    uint32_t refusal;
    uint64_t nanoseconds;
};

struct phel_new_answer phel_entry_new(struct phel_settings settings, uint32_t mode, uint64_t rate, uint64_t overhead);
struct phel_message_answer phel_entry_message(struct phel_sender given, uint64_t time, uint64_t now,
                                              const uint8_t *payload, size_t payload_len, uint64_t *ring,
                                              size_t ring_len, const uint32_t *lost, size_t lost_len, uint8_t *store,
                                              size_t store_len);
struct phel_ack_answer phel_entry_ack(struct phel_sender given, uint32_t number, bool full, uint32_t full_number,
                                      bool measured, struct phel_rtt rtt, const uint64_t *ring, size_t ring_len,
                                      const uint32_t *lost, size_t lost_len);
struct phel_nak_answer phel_entry_nak(struct phel_sender given, const uint32_t *words, size_t words_len,
                                      const uint64_t *ring, size_t ring_len, uint32_t *lost, size_t lost_len,
                                      uint32_t *out, size_t out_len);
struct phel_run_answer phel_entry_run(struct phel_sender given, uint64_t now, uint32_t budget, bool draining,
                                      uint64_t *ring, size_t ring_len, const uint32_t *lost, size_t lost_len,
                                      uint8_t *out, size_t out_len);
struct phel_payload_answer phel_entry_payload(struct phel_sender given, uint32_t number, const uint64_t *ring,
                                              size_t ring_len, const uint32_t *lost, size_t lost_len,
                                              const uint8_t *store, size_t store_len);
struct phel_reports_answer phel_entry_reports(struct phel_sender given, const uint64_t *ring, size_t ring_len,
                                              const uint32_t *lost, size_t lost_len);
void phel_entry_header(uint8_t *out, uint32_t place, bool again, uint32_t number, uint32_t message, uint32_t stamp,
                       uint32_t id);

struct phel_timers_answer phel_entry_timers_new(uint64_t now, uint64_t statistics, uint64_t idle);
struct phel_nanoseconds_answer phel_entry_timers_next_timer(struct phel_timers timers, uint64_t now, bool packets,
                                                            bool known, uint64_t message, uint32_t unacked);
struct phel_timers_answer phel_entry_timers_check_snd(struct phel_timers timers, uint64_t now);
struct phel_timers_answer phel_entry_timers_check_full_ack(struct phel_timers timers, uint64_t now);
struct phel_timers_answer phel_entry_timers_check_nak(struct phel_timers timers, uint64_t now);
struct phel_timers_answer phel_entry_timers_check_statistics(struct phel_timers timers, uint64_t now);
struct phel_timers_answer phel_entry_timers_check_peer_idle_timeout(struct phel_timers timers, uint64_t now);
struct phel_timers_answer phel_entry_timers_update_snd_period(struct phel_timers timers, uint64_t period);
struct phel_timers_answer phel_entry_timers_update_rtt(struct phel_timers timers, struct phel_rtt rtt);
struct phel_timers_answer phel_entry_timers_reset_exp(struct phel_timers timers, uint64_t now);

/* ---- What the functions below share, and a host has no use for -------------------------------------------------- */

/* What a call returns, and |*why| with it. */
static inline int phel_told(struct phel_refusal refusal, struct phel_refusal *why)
{
    if (why != NULL)
        *why = refusal;
    return (int)refusal.number;
}

/* The areas as the entries take them: what is NULL becomes a pointer to |none|, of length 0. */
static inline struct phel_areas phel_areas_given(const struct phel_areas *lent, uint64_t *none)
{
    const struct phel_areas nothing = {none, 0, (uint32_t *)none, 0, (uint8_t *)none, 0};
    struct phel_areas a = lent != NULL ? *lent : nothing;
    if (a.ring == NULL) {
        a.ring = nothing.ring;
        a.ring_len = 0;
    }
    if (a.lost == NULL) {
        a.lost = nothing.lost;
        a.lost_len = 0;
    }
    if (a.store == NULL) {
        a.store = nothing.store;
        a.store_len = 0;
    }
    return a;
}

/* The sender as the entries take it; for NULL one of zeros, which the entries refuse, since 0 is no packet size. */
static inline const struct phel_sender *phel_sender_given(const struct phel_sender *s)
{
    static const struct phel_sender none = {{0, 0, 0, 0, 0, 0, 0},
                                            {{0, 0, 0}, 0, 0, 0, 0, {0, 0}, 0, {0, 0, 0, 0}, 0},
                                            {0, 0, 0, 0, 0, {0, 0, 0}, {0, 0, 0}}};
    return s != NULL ? s : &none;
}

/* The timers as the entries take them; for NULL zeros, which the entries refuse, since 0 is no EXP count. */
static inline const struct phel_timers *phel_timers_given(const struct phel_timers *t)
{
    static const struct phel_timers none = {{0, 0}, {0, 0}, {0, 0}, {0, 0}, 0, {0, 0}, {0, 0}};
    return t != NULL ? t : &none;
}

/* The timers after a call that made, set or checked them. */
static inline int phel_timers_left(struct phel_timers *t, struct phel_timers_answer r, uint32_t *periods)
{
    if (t != NULL && r.refusal == 0) {
        *t = r.timers;
        if (periods != NULL)
            *periods = r.periods;
    }
    return (int)r.refusal;
}

/* Four bytes of a record, the lowest first. */
static inline uint32_t phel_read_u32(const uint8_t *at)
{
    return (uint32_t)at[0] | (uint32_t)at[1] << 8 | (uint32_t)at[2] << 16 | (uint32_t)at[3] << 24;
}

/* ---- The sender's calls ----------------------------------------------------------------------------------------- */

/* In each, |*answer| is written if the call is accepted, and |*why| always; either pointer may be NULL. A refusal
 * leaves |*s|, |*answer|, the lent areas and the lent lists as they were; phel_sender_ack has the one exception. A NULL
 * |lent| is three areas of length 0. Whether an area is too short is judged by the kept settings; where these are out
 * of range the answer is PHEL_BAD_STATE, also where |lent|, an area, a message or a loss report is NULL. */

/* Makes |*s| a sender at its start. |mode| is one of enum phel_mode, |rate| and |overhead| are what it asks for.
 * Returns 0, or:
 *   PHEL_BAD_SETTING   a setting, the mode, the rate or the overhead is outside its range, or one that the mode has no
 *                      use for isn't 0; or |s| or |settings| is NULL */
static inline int phel_sender_new(struct phel_sender *s, const struct phel_settings *settings, uint32_t mode,
                                  uint64_t rate, uint64_t overhead, struct phel_refusal *why)
{
    const struct phel_settings none = {0, 0, 0, 0, 0, 0, 0}; /* 0 is no packet size */
    const struct phel_settings given = s != NULL && settings != NULL ? *settings : none;
    const struct phel_new_answer r = phel_entry_new(given, mode, rate, overhead);
    if (s != NULL && r.refusal.number == 0)
        *s = r.sender;
    return phel_told(r.refusal, why);
}

/* Takes a message, the |len| bytes at |payload|, and makes packets of it. They carry |time|; |now| is for pacing. A
 * message of 0 bytes, whose |payload| may be NULL, becomes one empty packet. Where the buffer is full, packets at its
 * front are removed. Writes to ring and store, reads lost.
 * Returns 0, or:
 *   PHEL_BAD_STORE    an area is shorter than the kept settings ask for, or |payload| is NULL and |len| isn't 0
 *   PHEL_BAD_STATE    what is kept breaks a book rule, or |s| is NULL
 *   PHEL_BAD_TIME     |time| or |now| is 2^48 or more
 *   PHEL_TOO_LONG     |len| is over 1,048,576
 *   PHEL_COUNT_FULL   the byte count with the message's wire sizes is 2^62 or more, or pacing's counts would pass 2^38
 * Run afterwards, when phel_timers_check_snd says so. */
static inline int phel_sender_message(struct phel_sender *s, const struct phel_areas *lent, uint64_t time, uint64_t now,
                                      const uint8_t *payload, size_t len, struct phel_messaged *answer,
                                      struct phel_refusal *why)
{
    uint64_t none = 0;
    const bool missing = payload == NULL && len > 0; /* then the call is judged as one that is lent nothing */
    const struct phel_areas a = phel_areas_given(missing ? NULL : lent, &none);
    const uint8_t *bytes = payload != NULL ? payload : (const uint8_t *)&none;
    const struct phel_message_answer r =
        phel_entry_message(*phel_sender_given(s), time, now, bytes, payload != NULL ? len : 0, a.ring, a.ring_len,
                           a.lost, a.lost_len, a.store, a.store_len);
    if (s != NULL && r.refusal.number == 0) {
        *s = r.sender;
        if (answer != NULL)
            *answer = r.done;
    }
    return phel_told(r.refusal, why);
}

/* Takes an ACK of |number|: all packets before it have arrived. |full| is the full number that it brings, |rtt| the
 * round-trip time; NULL for none, as in a light ACK. Reads ring and lost.
 * Returns 0, or:
 *   PHEL_BAD_STORE       ring or lost is shorter than the kept settings ask for
 *   PHEL_BAD_STATE       what is kept breaks a book rule, or |s| is NULL
 *   PHEL_BAD_NUMBER      |number| is 2^31 or more
 *   PHEL_BAD_RTT         mean or variance is over 100,000,000
 *   PHEL_EMPTY           nothing is buffered
 *   PHEL_INVALID_ACK     |number| is outside front to next unsent, both included; values: it, front, next unsent
 *   PHEL_STALE_FULL_ACK  |*full| is below the expected number; values: it, the expected one.
 *                        The round-trip time in |*s| is then the one that the ACK brought; all else is as it was.
 * Run afterwards: a run that waited for an ACK may send now. */
static inline int phel_sender_ack(struct phel_sender *s, const struct phel_areas *lent, uint32_t number,
                                  const uint32_t *full, const struct phel_rtt *rtt, struct phel_acked *answer,
                                  struct phel_refusal *why)
{
    uint64_t none = 0;
    const struct phel_areas a = phel_areas_given(lent, &none);
    const struct phel_sender *given = phel_sender_given(s);
    const struct phel_ack_answer r =
        phel_entry_ack(*given, number, full != NULL, full != NULL ? *full : 0, rtt != NULL,
                       rtt != NULL ? *rtt : given->books.rtt, a.ring, a.ring_len, a.lost, a.lost_len);
    if (s != NULL && r.refusal.number == 0) {
        *s = r.sender;
        if (answer != NULL)
            *answer = r.done;
    } else if (s != NULL && r.refusal.number == PHEL_STALE_FULL_ACK) {
        s->books.rtt = r.sender.books.rtt;
    }
    return phel_told(r.refusal, why);
}

/* Takes a loss report of |words_len| words. An item is a number, or the first number of a range with the top bit set
 * and then its last. |words| may be NULL where |words_len| is 0. What became of the numbers is written to |runs|, which
 * has |runs_len| words: |*answer| runs, in the report's order, to be read with phel_loss_run_at. Words after the last
 * run stay as they were. Reads ring, writes to lost.
 * Returns 0, or:
 *   PHEL_BAD_STORE   ring or lost is shorter than the kept settings ask for, or |words| is NULL and |words_len| isn't 0
 *   PHEL_BAD_STATE   what is kept breaks a book rule, or |s| is NULL
 *   PHEL_BAD_NAK     the words are malformed or over 512; value: the first bad item's first word, 512 for too many
 *   PHEL_NO_ROOM     |runs_len| is below nine words for each item, or |runs| is NULL and there is an item
 * Run afterwards: what was added is sent first. */
static inline int phel_sender_nak(struct phel_sender *s, const struct phel_areas *lent, const uint32_t *words,
                                  size_t words_len, uint32_t *runs, size_t runs_len, size_t *answer,
                                  struct phel_refusal *why)
{
    uint64_t none = 0;
    const bool missing = words == NULL && words_len > 0; /* then the call is judged as one that is lent nothing */
    const struct phel_areas a = phel_areas_given(missing ? NULL : lent, &none);
    const struct phel_nak_answer r =
        phel_entry_nak(*phel_sender_given(s), words != NULL ? words : (const uint32_t *)&none,
                       words != NULL ? words_len : 0, a.ring, a.ring_len, a.lost, a.lost_len,
                       runs != NULL ? runs : (uint32_t *)&none, runs != NULL ? runs_len : 0);
    if (s != NULL && r.refusal.number == 0) {
        *s = r.sender;
        if (answer != NULL)
            *answer = r.runs;
    }
    return phel_told(r.refusal, why);
}

/* Says what to send at |now|: at most |budget| packets, and one more if its number divides by 16; none for a budget of
 * 0. |draining| says that no message will come any more: the last packet is flushed. What to do is written to |out|,
 * which has |out_len| bytes: answer->records records of 24 bytes, to be read with phel_action_at and done in their
 * order. Bytes after the last record stay as they were. Writes to ring, reads lost.
 * Returns 0, or:
 *   PHEL_BAD_STORE   ring or lost is shorter than the kept settings ask for
 *   PHEL_BAD_STATE   what is kept breaks a book rule, or |s| is NULL
 *   PHEL_BAD_TIME    |now| is 2^48 or more
 *   PHEL_NO_ROOM     |out_len| is below 24 x (min(budget, buffered) + 3), or |out| is NULL
 * Run again when phel_timers_check_snd says so, as long as no record says to wait; a packet that isn't acknowledged is
 * sent again by a later run. */
static inline int phel_sender_run(struct phel_sender *s, const struct phel_areas *lent, uint64_t now, uint32_t budget,
                                  bool draining, uint8_t *out, size_t out_len, struct phel_ran *answer,
                                  struct phel_refusal *why)
{
    uint64_t none = 0;
    const struct phel_areas a = phel_areas_given(lent, &none);
    const struct phel_run_answer r =
        phel_entry_run(*phel_sender_given(s), now, budget, draining, a.ring, a.ring_len, a.lost, a.lost_len,
                       out != NULL ? out : (uint8_t *)&none, out != NULL ? out_len : 0);
    if (s != NULL && r.refusal.number == 0) {
        *s = r.sender;
        if (answer != NULL)
            *answer = r.done;
    }
    return phel_told(r.refusal, why);
}

/* Where the payload of packet |number| lies in the store: of a buffered packet, or of the flushed one. Ask for each
 * packet that a run says to send, before the next message or ACK. Reads all areas' lengths, and ring and lost.
 * Returns 0, or:
 *   PHEL_BAD_STORE    an area is shorter than the kept settings ask for
 *   PHEL_BAD_STATE    what is kept breaks a book rule, or |s| is NULL
 *   PHEL_BAD_NUMBER   |number| is 2^31 or more
 *   PHEL_NOT_HELD     neither a buffered packet has this number nor the flushed one */
static inline int phel_sender_payload(const struct phel_sender *s, const struct phel_areas *lent, uint32_t number,
                                      struct phel_found *answer, struct phel_refusal *why)
{
    uint64_t none = 0;
    const struct phel_areas a = phel_areas_given(lent, &none);
    const struct phel_payload_answer r = phel_entry_payload(*phel_sender_given(s), number, a.ring, a.ring_len, a.lost,
                                                            a.lost_len, a.store, a.store_len);
    if (r.refusal.number == 0 && answer != NULL)
        *answer = r.done;
    return phel_told(r.refusal, why);
}

/* What there is to know of the buffer. Reads ring and lost.
 * Returns 0, or:
 *   PHEL_BAD_STORE   ring or lost is shorter than the kept settings ask for
 *   PHEL_BAD_STATE   what is kept breaks a book rule, or |s| is NULL */
static inline int phel_sender_reports(const struct phel_sender *s, const struct phel_areas *lent,
                                      struct phel_reports *answer, struct phel_refusal *why)
{
    uint64_t none = 0;
    const struct phel_areas a = phel_areas_given(lent, &none);
    const struct phel_reports_answer r =
        phel_entry_reports(*phel_sender_given(s), a.ring, a.ring_len, a.lost, a.lost_len);
    if (r.refusal.number == 0 && answer != NULL)
        *answer = r.done;
    return phel_told(r.refusal, why);
}

/* ---- Reading the answers ---------------------------------------------------------------------------------------- */

/* The name of what a call returned, for a log: "BadSetting" for PHEL_BAD_SETTING and so on, "Accepted" for 0, "Unknown"
 * for a number that no call returns. Never NULL. */
static inline const char *phel_refusal_name(int number)
{
    static const char *const names[] = {
        "Accepted", "BadSetting", "BadStore", "BadState", "BadTime", "TooLong", "CountFull", "BadNumber", "BadRtt",
        "Empty", "InvalidAck", "StaleFullAck", "BadNak", "NoRoom", "NotHeld",
    };
    return number >= 0 && number <= PHEL_NOT_HELD ? names[number] : "Unknown";
}

/* A record of a run. Fields that its kind does not use are 0. */
struct phel_action {
    uint8_t kind;     /* one of enum phel_kind */
    uint8_t place;    /* of a packet: one of enum phel_place */
    bool again;       /* of a packet: it was sent before */
    uint16_t len;     /* of a packet: bytes of its payload */
    uint32_t number;  /* of a packet: its sequence number; of a drop: the first number gone */
    uint32_t message; /* of a packet: its message number */
    uint32_t end;     /* of a drop: one past the last number gone */
    uint32_t unacked; /* of a wait for an ACK: how many packets are sent and not acknowledged */
    uint32_t stamp;   /* of a packet: the low 32 bits of its time */
    uint32_t window;  /* of a wait for an ACK: 10,000 */
    uint64_t time;    /* of a packet: its message's time in microseconds */
};

/* A run of a loss report: the numbers from |first| to before |end|, of one kind. */
struct phel_loss_run {
    uint32_t kind; /* one of enum phel_loss_kind */
    uint32_t first;
    uint32_t end;
};

/* Whether the host is told to send a packet; by NULL it is not. */
static inline bool phel_action_sends(const struct phel_action *a)
{
    return a != NULL && a->kind >= PHEL_SEND && a->kind <= PHEL_RESEND_BY_LOSS;
}

/* Record |k|, from 0, of the list that a run filled; of a NULL list one of zeros, which is of no kind. */
static inline struct phel_action phel_action_at(const uint8_t *records, size_t k)
{
    const uint8_t none[PHEL_RECORD_BYTES] = {0};
    const uint8_t *at = records != NULL ? records + k * PHEL_RECORD_BYTES : none;
    const uint32_t word = phel_read_u32(at + 8), stamp = phel_read_u32(at + 12);
    struct phel_action a;
    a.kind = at[0];
    a.place = (uint8_t)(at[1] >> 6);
    a.again = (at[1] & 1) != 0;
    a.len = (uint16_t)(at[2] | at[3] << 8);
    a.number = phel_read_u32(at + 4);
    a.message = phel_action_sends(&a) ? word : 0;
    a.end = a.kind == PHEL_DROP ? word : 0;
    a.unacked = a.kind == PHEL_WAIT_ACK ? word : 0;
    a.stamp = phel_action_sends(&a) ? stamp : 0;
    a.window = a.kind == PHEL_WAIT_ACK ? stamp : 0;
    a.time = (uint64_t)phel_read_u32(at + 20) << 32 | phel_read_u32(at + 16);
    return a;
}

/* Run |k|, from 0, of the list that a loss report filled; of a NULL list one of zeros, which is of no kind. */
static inline struct phel_loss_run phel_loss_run_at(const uint32_t *runs, size_t k)
{
    struct phel_loss_run r = {0, 0, 0};
    if (runs != NULL) {
        r.kind = runs[3 * k];
        r.first = runs[3 * k + 1];
        r.end = runs[3 * k + 2];
    }
    return r;
}

/* Makes the sixteen header bytes of a data packet. It takes the low bits that the header has room for: 2 of |place|,
 * 31 of |number|, 26 of |message|. Nothing is refused; where |out| is NULL nothing is done. */
static inline void phel_packet_header(uint8_t *out, uint32_t place, bool again, uint32_t number, uint32_t message,
                                      uint32_t stamp, uint32_t socket)
{
    if (out != NULL)
        phel_entry_header(out, place, again, number, message, stamp, socket);
}

/* Makes the header of the packet that a record says to send; where |out| or |a| is NULL nothing is done. */
static inline void phel_action_header(uint8_t *out, const struct phel_action *a, uint32_t socket)
{
    if (a != NULL)
        phel_packet_header(out, a->place, a->again, a->number, a->message, a->stamp, socket);
}

/* ---- The timers' calls ------------------------------------------------------------------------------------------ */

/* Times and periods are nanoseconds. |*periods| and |*wake| are written where the call is accepted, and either pointer
 * may be NULL. A refusal leaves them and |*t| as they were. No refusal of theirs has values, so there is no |why|. */

/* Makes |*t| the timers at their start, with the periods |statistics| and |idle|; one below 1,000 is raised to it.
 * Returns 0, or:
 *   PHEL_BAD_SETTING   a period is over 10^15, or |t| is NULL
 *   PHEL_BAD_TIME      |now| is 2^58 or more */
static inline int phel_timers_new(struct phel_timers *t, uint64_t now, uint64_t statistics, uint64_t idle)
{
    return phel_timers_left(t, phel_entry_timers_new(now, t != NULL ? statistics : UINT64_MAX, idle), NULL);
}

/* |*wake| = the time by which the host must wake, never before |now|. It is the earliest of:
 *   NAK's time and EXP's time;
 *   SND's time, if there are |packets| to send, as phel_sender_reports says;
 *   |*message|, the time at which the next message will be brought, or NULL where that is unknown;
 *   ACK's time, if |unacked| packets wait for an ACK from this host: 0 for a host that only sends.
 * Ask again after every other call. On waking check each timer that may have woken the host, NAK and EXP too where it
 * has no use for them: one that has expired and isn't checked keeps the wake-up at |now|. Packets that fall due to be
 * sent again aren't seen here: NAK and EXP wake the host for them.
 * Returns 0, or:
 *   PHEL_BAD_STATE   what is kept breaks a book rule, or |t| is NULL
 *   PHEL_BAD_TIME    |now| or |*message| is 2^58 or more */
static inline int phel_timers_next_timer(const struct phel_timers *t, uint64_t now, bool packets,
                                         const uint64_t *message, uint32_t unacked, uint64_t *wake)
{
    const struct phel_nanoseconds_answer r = phel_entry_timers_next_timer(
        *phel_timers_given(t), now, packets, message != NULL, message != NULL ? *message : 0, unacked);
    if (r.refusal == 0 && wake != NULL)
        *wake = r.nanoseconds;
    return (int)r.refusal;
}

/* The checks: |*periods| = how many periods of the timer have elapsed at |now|, 0 for none, at most 2^32 - 1, and its
 * origin moves on by so many. A period of 0 answers 1 always. Each returns 0, or:
 *   PHEL_BAD_STATE   what is kept breaks a book rule, or |t| is NULL
 *   PHEL_BAD_TIME    |now| is 2^58 or more */

/* SND: the budget of a run. */
static inline int phel_timers_check_snd(struct phel_timers *t, uint64_t now, uint32_t *periods)
{
    return phel_timers_left(t, phel_entry_timers_check_snd(*phel_timers_given(t), now), periods);
}

/* ACK. */
static inline int phel_timers_check_full_ack(struct phel_timers *t, uint64_t now, uint32_t *periods)
{
    return phel_timers_left(t, phel_entry_timers_check_full_ack(*phel_timers_given(t), now), periods);
}

/* NAK. */
static inline int phel_timers_check_nak(struct phel_timers *t, uint64_t now, uint32_t *periods)
{
    return phel_timers_left(t, phel_entry_timers_check_nak(*phel_timers_given(t), now), periods);
}

/* Statistics. */
static inline int phel_timers_check_statistics(struct phel_timers *t, uint64_t now, uint32_t *periods)
{
    return phel_timers_left(t, phel_entry_timers_check_statistics(*phel_timers_given(t), now), periods);
}

/* EXP, and the idle timer behind it: |*periods| is not 0 where the peer has been silent for too long. Where EXP has
 * expired the idle timer is checked, but it is heard only from an EXP count of 17 on; where it isn't the count goes
 * up. */
static inline int phel_timers_check_peer_idle_timeout(struct phel_timers *t, uint64_t now, uint32_t *periods)
{
    return phel_timers_left(t, phel_entry_timers_check_peer_idle_timeout(*phel_timers_given(t), now), periods);
}

/* Sets the period between packets, which a message answers in microseconds: it is asked for in nanoseconds here.
 * Returns 0, or:
 *   PHEL_BAD_SETTING   |period| is over 10^15
 *   PHEL_BAD_STATE     what is kept breaks a book rule, or |t| is NULL */
static inline int phel_timers_update_snd_period(struct phel_timers *t, uint64_t period)
{
    return phel_timers_left(t, phel_entry_timers_update_snd_period(*phel_timers_given(t), period), NULL);
}

/* Sets the periods of ACK, NAK and EXP from a round-trip time, in microseconds.
 * Returns 0, or:
 *   PHEL_BAD_STATE   what is kept breaks a book rule, or |t| is NULL
 *   PHEL_BAD_RTT     mean or variance is over 100,000,000, or |rtt| is NULL */
static inline int phel_timers_update_rtt(struct phel_timers *t, const struct phel_rtt *rtt)
{
    const struct phel_rtt none = {UINT32_MAX, UINT32_MAX};
    return phel_timers_left(t, phel_entry_timers_update_rtt(*phel_timers_given(t), rtt != NULL ? *rtt : none), NULL);
}

/* The peer was heard at |now|: EXP's count begins again, and the idle timer.
 * Returns 0, or:
 *   PHEL_BAD_STATE   what is kept breaks a book rule, or |t| is NULL
 *   PHEL_BAD_TIME    |now| is 2^58 or more */
static inline int phel_timers_reset_exp(struct phel_timers *t, uint64_t now)
{
    return phel_timers_left(t, phel_entry_timers_reset_exp(*phel_timers_given(t), now), NULL);
}

#ifdef __cplusplus
}
#endif

#endif
