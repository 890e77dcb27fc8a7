/* damage.h: what damage.c shares with its states (states.c) and its calls (asks.c). All work on the one desk. */
#ifndef DAMAGE_H
#define DAMAGE_H

#include "outside.h"

/* ---- states.c */

enum { CAP_MOST = 8, SIZE = 16, STATES = 13 };

/* A sender with what its areas hold. */
struct state {
    const char *name;
    struct phel_sender sender;
    uint64_t ring[CAP_MOST * 6];
    uint32_t lost[CAP_MOST];
    uint8_t store[CAP_MOST * SIZE];
};

extern struct state states[STATES];
extern struct lengths lent; /* of the state on the desk */

void states_make(void);

/* Puts a fresh copy of a state on the desk. */
void state_put(const struct state *s);

/* ---- asks.c */

/* The front and the next unsent of the state, before the damage: the calls' numbers. */
extern uint32_t front, next;

extern void (*const asks[])(void);
extern const size_t asks_len;

#endif
