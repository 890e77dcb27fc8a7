/* The shape of an input: a head, the bytes of a sender where the head says so, then calls. fuzz/seeds writes such
 * inputs. */
#ifndef INPUT_H
#define INPUT_H

#include "phelgomrit.h"

enum { HEAD = 32, CALL = 16, CALLS_MOST = 64 };

/* Bits of the head's first byte. */
enum { AT_FRONT = 1, RAW_SETTINGS = 2, LARGE_PACKETS = 4, LARGE_BUFFER = 8, RAW_BOOKS = 16 };

/* What a call's first byte says: a call of an entry, or what happens between two. */
enum step {
    NEW, MESSAGE, ACK, NAK, RUN, PAYLOAD, REPORTS, HEADER, TIMERS, BREAK_SENDER, BREAK_AREA, BREAK_TIMERS, LEND, STEPS
};

/* One call: the step, how its arguments are chosen, and three numbers. */
struct call {
    uint8_t step;
    uint8_t how;
    uint16_t a;
    uint32_t b;
    uint64_t c;
};

/* Where the calls begin. */
static inline size_t calls_from(const uint8_t *data, size_t size)
{
    const bool raw = (data[0] & RAW_BOOKS) && size >= HEAD + sizeof(struct phel_sender);
    return raw ? HEAD + sizeof(struct phel_sender) : HEAD;
}

/* The number in |bytes| bytes, the lowest first. */
static inline uint64_t number_at(const uint8_t *at, size_t bytes)
{
    uint64_t value = 0;
    for (size_t i = 0; i < bytes; i++)
        value |= (uint64_t)at[i] << 8 * i;
    return value;
}

#endif
