/* outside.h: what the files of the outside test share. The model (model/model.h) says what the library must answer and
 * leave.
 *   areas.c     lent areas that end, or begin, exactly at a page that can't be touched (pages.h)
 *   desk.c      a sender with all that it is lent
 *   before.c    what was there before a call, and what the call made of it
 *   calls.c     every call of the sender: made, and held against the model
 *   timers.c    the same for the timers, with their cases
 *   sessions.c  sessions with known answers
 *   refused.c   each refusal by name, short areas and lists
 *   random.c    random sessions
 *   damage.c    each word of what is kept or lent damaged in turn, and every call made on it; with states.c and asks.c
 *   nulls.c     NULL for every pointer, the refusals' names, the version; it stands by itself (nulls.h)
 *   tally.c     what was called how often, and what failed
 *   outside.c   main */
#ifndef OUTSIDE_H
#define OUTSIDE_H

#include <stdio.h>
#include <stdlib.h>
#include <string.h>
#include "fields.h"
#include "model.h"

#define BIT(n) ((uint64_t)1 << (n))

/* The entries of the library. */
enum entry {
    E_NEW, E_MESSAGE, E_ACK, E_NAK, E_RUN, E_PAYLOAD, E_REPORTS, E_HEADER, E_TIMERS_NEW, E_NEXT_TIMER, E_CHECK_SND,
    E_CHECK_FULL_ACK, E_CHECK_NAK, E_CHECK_STATISTICS, E_CHECK_IDLE, E_SND_PERIOD, E_UPDATE_RTT, E_RESET_EXP, ENTRIES
};

/* ---- areas.c */

enum side { AT_END, AT_BEGIN };

/* Room for an area, between two pages that fault. */
struct area {
    const char *name;
    uint8_t *begin;
    size_t room;
};

void area_open(struct area *a, const char *name, size_t room);
void *area_at(const struct area *a, size_t bytes);
void areas_watch(void);

/* ---- desk.c */

/* A sender and all that is lent with it. The lists for answers are of the lengths that the next call is to get. */
struct desk {
    struct phel_sender sender;
    struct phel_areas lent;
    uint8_t *records;
    size_t records_len;
    uint32_t *runs;
    size_t runs_len;
};

/* There is one desk; |side| says at which end of their pages its areas lie. */
extern struct desk desk;
extern enum side side;

/* How many elements are lent: words, words, bytes, bytes, words. */
struct lengths {
    size_t ring, lost, store, records, runs;
};

void desk_open(void);
struct lengths lengths_for(const struct phel_settings *c, uint32_t budget, size_t items);
void desk_set(struct lengths n);
uint8_t *payload_at(size_t len);
uint32_t *words_at(size_t len);
uint8_t *header_at(void);

/* Packets of four bytes, a buffer of four. */
extern const struct phel_settings small;

/* Makes the desk's sender a fresh one, with areas of just the size that it needs. */
void fresh(const struct phel_settings *c, size_t items);

/* Names the case, for a failure's line. */
void set_scene(const char *name);

/* Record |k| of the last run. */
struct phel_action action_at(size_t k);

/* Reports of one word and of two. */
int nak_one(uint32_t word);
int nak_two(uint32_t first, uint32_t second);

/* ---- before.c */

/* A copy of what was there before a call: the sender, the areas, the lists for answers. The model works in it, and makes
 * of it what must be there afterwards. */
struct copy {
    struct phel_sender sender;
    uint64_t *ring;
    uint32_t *lost;
    uint8_t *store;
    uint8_t *records;
    uint32_t *runs;
    size_t ring_len, lost_len, store_len, records_len, runs_len; /* 0 where NULL is lent, whatever its length says */
};

extern int bent;                 /* which bend is in force, 0 for none */
extern bool ask_all;             /* whether every call is given an answer and a why to fill; else some get NULL */
extern struct phel_refusal said; /* the last why */
extern struct copy was;

#define WAS_RING was.ring, was.ring_len
#define WAS_LOST was.lost, was.lost_len
#define WAS_STORE was.store, was.store_len
#define DESK_RING desk.lent.ring, desk.lent.ring_len
#define DESK_LOST desk.lent.lost, desk.lent.lost_len
#define DESK_STORE desk.lent.store, desk.lent.store_len

/* Copies what is kept and lent. */
void begin_call(void);

/* Whether the call is given an answer to fill, and its |why| or NULL. */
bool with_answer(void);
struct phel_refusal *asked_why(void);

/* Holds a call against the model's: its number and values, the sender and all that is lent. The answer is the number. */
int settle(enum entry e, int number, const struct phel_refusal *by, const struct phel_sender *left);

/* The same for a call that makes a sender. */
void settle_new(int number, const struct phel_new_answer *by);

/* An answer is the model's where the call was accepted and asked for one; else as it was filled, with 0xee. */
void check_answer(int number, const void *answer, size_t bytes, bool same);

/* Whether a refused call is made once more by the entry, which takes no NULL; and that it gave back what it got. */
bool once_more(int number);
void given_back(int number, const struct phel_refusal *told, const struct phel_sender *sender);

/* ---- calls.c */

int do_new(const struct phel_settings *c, uint32_t mode, uint64_t rate, uint64_t overhead);
int do_message(uint64_t time, uint64_t now, const uint8_t *payload, size_t len,
               struct phel_messaged *answer);
int do_ack(uint32_t number, const uint32_t *full, const struct phel_rtt *rtt, struct phel_acked *answer);
int do_nak(const uint32_t *words, size_t len, size_t *answer);
int do_run(uint64_t now, uint32_t budget, bool draining, struct phel_ran *answer);
int do_payload(uint32_t number, struct phel_found *answer);
int do_reports(struct phel_reports *answer);
void do_header(uint8_t *out, uint32_t place, bool again, uint32_t number, uint32_t message, uint32_t stamp,
               uint32_t socket);

/* ---- the cases */

void sessions_cases(void);
void refused_cases(void);
void random_cases(void);
void timers_cases(void);
void damage_cases(void);

/* Values that a damaged word is given besides 0, all ones, one more and one less: the ends of document 01's ranges. */
extern const uint64_t ends[];
extern const size_t ends_len;

/* How many ways there are to damage a word; damages the word of 4 or 8 bytes at |at| in one of them. */
size_t damages(void);
void damage_word(void *at, size_t bytes, size_t which);

/* ---- tally.c */

extern char scene[200]; /* where we are, for a failure's line */

void fail(const char *what);
void check(bool well, const char *what);
void count_call(enum entry e, int number);
bool tally(void);

#endif
