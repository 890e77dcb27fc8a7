/* inside.h: what the files of the model share: a sender's books as plain lists, and the small functions on them. */
#ifndef INSIDE_H
#define INSIDE_H

#include <string.h>
#include "bends.h"
#include "model.h"

#define BIT(n) ((uint64_t)1 << (n))

/* A buffered packet. */
struct packet {
    uint64_t number; /* not wrapped */
    uint64_t time, message, place, length;
    uint64_t count;  /* sendings so far */
    uint64_t resend; /* of a sent packet: its resend time; else 0 */
};

/* A sender. Sequence numbers count up from the front's without wrapping; wire() stands where one goes out. */
struct model {
    struct phel_settings settings;
    struct packet room[2 * PHEL_BUFFER_MOST];
    size_t first, len; /* the buffered packets are room[first] and the |len| - 1 after it, front first */
    size_t slot;       /* of the front's payload; with none buffered, of the next packet's */
    uint64_t next_number, next_unsent;
    uint64_t lost[PHEL_BUFFER_MOST]; /* the loss list, ascending */
    size_t lost_len;
    uint64_t bytes, expected;
    uint32_t message; /* the next message's number */
    struct phel_rtt rtt;
    struct phel_held held;
    struct phel_pacing pacing;
    uint8_t *store;
    bool has_flushed; /* this call flushed a packet: what it was, and its slot */
    struct packet flushed;
    size_t flushed_slot;
};

/* ---- numbers.c */

uint32_t distance(uint64_t from, uint64_t to);
uint32_t wire(uint64_t number);
uint64_t late_window(const struct phel_settings *c);
uint64_t least(uint64_t a, uint64_t b);
uint64_t most(uint64_t a, uint64_t b);
struct phel_refusal refusal(uint32_t number, uint64_t first, uint64_t second, uint64_t third);

/* ---- split.c */

/* A packet of a message. */
struct piece {
    uint64_t place;
    size_t start, len;
};

size_t pieces_of(size_t len, size_t size);
struct piece piece_at(size_t len, size_t size, size_t k);

/* ---- header.c */

/* The fields of an action record in its order; unused ones are 0. */
struct record {
    uint64_t kind, flags, length, number;
    uint64_t third;  /* message, or exclusive drop end, or unacknowledged count */
    uint64_t fourth; /* stamp, or window */
    uint64_t time;
};

void write_record(uint8_t *out, const struct record *r);

/* ---- kept.c: whether a rule of what is kept holds */

bool settings_kept(const struct phel_settings *c);
bool mode_kept(uint32_t mode, uint64_t rate, uint64_t overhead);
bool pacing_kept(const struct phel_pacing *p);
bool rtt_kept(const struct phel_rtt *r);
bool timer_kept(const struct phel_timer *t);
bool timers_kept(const struct phel_timers *t);
bool books_kept(struct model *m);

/* ---- areas.c */

/* What a call is lent beside its lists. */
struct lent {
    const uint64_t *ring;
    size_t ring_len;
    const uint32_t *lost;
    size_t lost_len;
    uint8_t *store;
    size_t store_len;
    bool stored; /* whether the call is lent the store */
};

/* The books of a call. There is one such model: each call reads it anew. Refusal 2 or 3 where they can't be read or
 * break a rule. */
struct model *open_books(const struct phel_sender *given, const struct lent *lent, struct phel_refusal *why);

/* What the call leaves: the sender, the ring's entries, the loss list. */
void write_sender(const struct model *m, struct phel_sender *s);
void write_ring(struct model *m, uint64_t *ring);
void write_lost(const struct model *m, uint32_t *lost);

struct packet *packet_at(struct model *m, size_t i);
struct packet *find_packet(struct model *m, uint64_t number);
struct packet pop_front(struct model *m);
void push_back(struct model *m, struct packet p);
size_t capacity_of(const struct phel_settings *c);
uint64_t front_number(struct model *m);
uint64_t unacknowledged(struct model *m);
uint64_t wire_size(const struct model *m, uint64_t length);

/* Takes the numbers from |from| to before |to| off the loss list; how many there were. */
size_t unlist(struct model *m, uint64_t from, uint64_t to);

/* ---- late.c, pacing.c */

size_t late_count(struct model *m, uint64_t now);
void drop_late(struct model *m, size_t count, struct record *r);

/* A packet is gone: with a bend its resend time stays behind. */
extern uint64_t outlived;
void outlive(const struct packet *p);

bool pacing_full(const struct phel_pacing *p, uint64_t now, uint64_t packets, uint64_t bytes);
uint64_t pace(struct phel_pacing *p, uint64_t now, uint64_t packets, uint64_t bytes);
struct phel_pacing new_pacing(uint32_t mode, uint64_t rate, uint64_t overhead);

#endif
