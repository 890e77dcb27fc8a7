/* model.h: document 01 in C, written from it and from docs/BOOKS.md, and from nothing of the library. It says what a call
 * must answer and what it must leave: compare/ holds it against the Rust, and compare/, tests/ and fuzz/ hold the library
 * against it. Rules are written out plainly, without regard for speed.
 *
 * Each function takes and gives what the library's entry of that name does (include/phelgomrit.h), so that every answer,
 * every kept number and every lent byte of one can be held against the other: the refusal with its values and what was
 * given given back, or the answer with what is kept next. Within a call the books are plain lists (inside.h); areas.c
 * alone knows how they lie in what a host keeps and lends.
 *   numbers.c   the numbers, their ends, the late window
 *   split.c     a message's packets
 *   header.c    the sixteen header bytes, the action record
 *   kept.c      the book rules
 *   areas.c     the books read from what a host keeps and lends, and written back; refusals 2 and 3
 *   message.c   a new sender, a message
 *   ack.c       ACKs
 *   loss.c      loss words and reports
 *   late.c      the late drop, rule 1 of a run
 *   run.c       the run
 *   reports.c   payloads and reports
 *   pacing.c    pacing
 *   timers.c    the timers
 *   bends.c     the rules bent on purpose (bends.h) */
#ifndef MODEL_H
#define MODEL_H

#include "phelgomrit.h"

/* ---- The sender */

struct phel_new_answer model_new(struct phel_settings settings, uint32_t mode, uint64_t rate, uint64_t overhead);
struct phel_message_answer model_message(struct phel_sender given, uint64_t time, uint64_t now, const uint8_t *payload,
                                         size_t payload_len, uint64_t *ring, size_t ring_len, const uint32_t *lost,
                                         size_t lost_len, uint8_t *store, size_t store_len);
struct phel_ack_answer model_ack(struct phel_sender given, uint32_t number, bool full, uint32_t full_number,
                                 bool measured, struct phel_rtt rtt, const uint64_t *ring, size_t ring_len,
                                 const uint32_t *lost, size_t lost_len);
struct phel_nak_answer model_nak(struct phel_sender given, const uint32_t *words, size_t words_len,
                                 const uint64_t *ring, size_t ring_len, uint32_t *lost, size_t lost_len, uint32_t *out,
                                 size_t out_len);
struct phel_run_answer model_run(struct phel_sender given, uint64_t now, uint32_t budget, bool draining, uint64_t *ring,
                                 size_t ring_len, const uint32_t *lost, size_t lost_len, uint8_t *out, size_t out_len);
struct phel_payload_answer model_payload(struct phel_sender given, uint32_t number, const uint64_t *ring,
                                         size_t ring_len, const uint32_t *lost, size_t lost_len, const uint8_t *store,
                                         size_t store_len);
struct phel_reports_answer model_reports(struct phel_sender given, const uint64_t *ring, size_t ring_len,
                                         const uint32_t *lost, size_t lost_len);
void model_header(uint8_t *out, uint32_t place, bool again, uint32_t number, uint32_t message, uint32_t stamp,
                  uint32_t id);

/* ---- The timers */

struct phel_timers_answer model_timers_new(uint64_t now, uint64_t statistics, uint64_t idle);
struct phel_nanoseconds_answer model_timers_next_timer(struct phel_timers timers, uint64_t now, bool packets, bool known,
                                                       uint64_t message, uint32_t unacked);
struct phel_timers_answer model_timers_check_snd(struct phel_timers timers, uint64_t now);
struct phel_timers_answer model_timers_check_full_ack(struct phel_timers timers, uint64_t now);
struct phel_timers_answer model_timers_check_nak(struct phel_timers timers, uint64_t now);
struct phel_timers_answer model_timers_check_statistics(struct phel_timers timers, uint64_t now);
struct phel_timers_answer model_timers_check_peer_idle_timeout(struct phel_timers timers, uint64_t now);
struct phel_timers_answer model_timers_update_snd_period(struct phel_timers timers, uint64_t period);
struct phel_timers_answer model_timers_update_rtt(struct phel_timers timers, struct phel_rtt rtt);
struct phel_timers_answer model_timers_reset_exp(struct phel_timers timers, uint64_t now);

/* ---- What the comparison calls and no host does: one timer, pacing alone, splitting */

struct model_timer_answer {
    uint32_t refusal;
    uint32_t periods;
    struct phel_timer timer; /* zeros where model_timer_new is refused */
};

struct model_pacing_answer {
    uint32_t refusal;
    uint64_t period; /* 0 for none */
    struct phel_pacing pacing;
};

struct model_packets_answer {
    uint32_t refusal;
    size_t packets;
};

struct model_piece_answer {
    uint32_t refusal;
    bool found; /* whether the message has so many packets; all else is 0 where not */
    uint32_t place;
    size_t start; /* of its payload in the message */
    size_t len;
};

struct model_timer_answer model_timer_new(uint64_t now, uint64_t period);
struct phel_nanoseconds_answer model_timer_period(struct phel_timer timer);
struct phel_nanoseconds_answer model_timer_next_instant(struct phel_timer timer);
struct model_timer_answer model_timer_reset(struct phel_timer timer, uint64_t now);
struct model_timer_answer model_timer_set_period(struct phel_timer timer, uint64_t period);
struct model_timer_answer model_timer_check_expired(struct phel_timer timer, uint64_t now);
struct model_pacing_answer model_pacing_new(uint32_t mode, uint64_t rate, uint64_t overhead);
struct model_pacing_answer model_pacing_on_input(struct phel_pacing pacing, uint64_t now, uint64_t packets,
                                                 uint64_t bytes);
struct model_packets_answer model_split_packets(size_t len, size_t size);
struct model_piece_answer model_split_packet(size_t len, size_t size, size_t k);

/* ---- Rules bent on purpose: who holds the model against another must notice each */

struct model_bent {
    const char *area; /* which calls show it */
    const char *name;
    const char *text; /* what it does */
};

/* Bends rule |which|, from 1; 0 for none. */
void model_bend(uint32_t which);

/* What rule |which| is; NULL past the last. */
const struct model_bent *model_bent_rule(uint32_t which);

#endif
