/* The host that an input plays: its sender, its timers, and what it lends. */
#ifndef HOST_H
#define HOST_H

#include "areas.h"
#include "fields.h"
#include "input.h"
#include "model.h"

enum {
    PACKETS_MOST = 340,
    STORE_MOST = 64 * 1024,
    WORDS_ROOM = 640,
    PAYLOAD_ROOM = PHEL_MESSAGE_MOST + 64
};

/* What is kept from call to call. */
struct host {
    struct phel_sender sender;
    struct phel_timers timers;
    struct area ring, lost, store, payload, words, runs, records, header;
    bool front;       /* areas are lent at the front of their pages */
    uint64_t clock;   /* microseconds */
    uint64_t ticks;   /* nanoseconds, for the timers */
    struct call lend; /* how the next call's areas are lent */
    bool damaged;     /* for the next call alone */
    unsigned last;    /* what the last call was and answered */
};

extern struct host kept;

static inline size_t least(size_t a, size_t b)
{
    return a < b ? a : b;
}

/* ---- host.c */

void map_areas(void);

/* Lends ring, loss list and store as the settings ask, or as the call before said. */
void lend_areas(void);

/* The areas as they are lent to the library, and as they are kept for the model, which makes of them what the call must
 * leave. */
#define RING (uint64_t *)kept.ring.at, kept.ring.len
#define LOST (uint32_t *)kept.lost.at, kept.lost.len
#define STORE kept.store.at, kept.store.len
#define KEPT_RING (uint64_t *)kept.ring.kept, kept.ring.len
#define KEPT_LOST (uint32_t *)kept.lost.kept, kept.lost.len
#define KEPT_STORE kept.store.kept, kept.store.len

/* Shows the fuzzer what a step was answered, and after which. */
void note_answer(unsigned step, uint32_t number);

/* A call's refusal, the sender that it gave back and the lent areas are the model's, and the next call takes what it
 * left. The answer is whether it was accepted. */
bool settle(enum step step, const struct phel_refusal *why, const struct phel_refusal *by,
            const struct phel_sender *back, const struct phel_sender *left);

/* The reports of what is kept are the model's. */
void check_reports(const struct phel_reports_answer *r);

/* After an accepted call that changes the books: damage that was for one call is for good, and the books are not
 * refused. */
void go_on(void);

/* Keeps the books as they are, so that a damage is for one call; and undoes it, but where an accepted call went on. */
void before_damage(void);
void repair(void);

/* ---- choose.c: arguments from a call's numbers */

/* A time below 2^bits: a little later, up to some seconds later, any, or at the limit. */
uint64_t time_of(unsigned how, uint64_t value, uint64_t *clock, unsigned bits);

/* A sequence number: near the front, the next unsent, the back, or any. */
uint32_t sequence_of(const struct call *k);

/* The bytes of a message. */
size_t length_of(const struct call *k);

/* Word |i| of a loss report. */
uint32_t word_of(const struct call *k, size_t i);

/* How long a list for the answer is: as long as it must be, one element less, longer, or any. */
size_t room_of(unsigned how, size_t needed, uint32_t any, const struct area *a);

/* ---- calls.c, timers.c, damage.c: the steps */

void call_new(const struct phel_settings *c, uint32_t mode, uint64_t rate, uint64_t overhead);
void call_sender(const struct call *k);
void call_header(const struct call *k);
void call_timers(const struct call *k);

void renew(const struct call *k);
void break_books(const struct call *k);
void break_timers(const struct call *k);

#endif
