/* Changes inputs call by call, so that what follows a change keeps its meaning; within a call libFuzzer chooses. */
#include "input.h"

#include <string.h>

size_t LLVMFuzzerMutate(uint8_t *data, size_t size, size_t most);

static unsigned state;

static size_t below(size_t end)
{
    state = state * 1103515245u + 12345u;
    return end == 0 ? 0 : (state >> 8) % end;
}

/* Changes |size| bytes in place. */
static void change(uint8_t *at, size_t size)
{
    const size_t left = LLVMFuzzerMutate(at, size, size);
    memset(at + left, 0, size - left);
}

/* Makes room for a call at |at| and gives it the bytes of |from|. */
static size_t insert(uint8_t *data, size_t size, size_t most, size_t at, const uint8_t *from)
{
    uint8_t call[CALL];
    if (size + CALL > most)
        return size;
    memcpy(call, from, CALL);
    memmove(data + at + CALL, data + at, size - at);
    memcpy(data + at, call, CALL);
    return size + CALL;
}

static size_t erase(uint8_t *data, size_t size, size_t at)
{
    memmove(data + at, data + at + CALL, size - at - CALL);
    return size - CALL;
}

static void exchange(uint8_t *a, uint8_t *b)
{
    uint8_t call[CALL];
    memcpy(call, a, CALL);
    memcpy(a, b, CALL);
    memcpy(b, call, CALL);
}

size_t LLVMFuzzerCustomMutator(uint8_t *data, size_t size, size_t most, unsigned seed)
{
    static const uint8_t empty[CALL];
    state = seed;
    if (size < HEAD)
        return LLVMFuzzerMutate(data, size, most);
    const size_t from = calls_from(data, size), calls = (size - from) / CALL;
    const size_t one = from + below(calls) * CALL, other = from + below(calls) * CALL;
    if (calls == 0)
        return insert(data, from, most, from, empty);
    switch (below(10)) {
    case 0:
        change(data, from);
        return size;
    case 1:
        return insert(data, size, most, one, data + other);
    case 2:
        return calls > 1 ? erase(data, size, one) : size;
    case 3:
        exchange(data + one, data + other);
        return size;
    case 4:
        size = insert(data, size, most, one, empty);
        break;
    default:
        break;
    }
    change(data + one, CALL);
    return size;
}

/* The first calls of one input and the last of another. */
size_t LLVMFuzzerCustomCrossOver(const uint8_t *a, size_t a_size, const uint8_t *b, size_t b_size, uint8_t *out,
                                 size_t most, unsigned seed)
{
    state = seed;
    if (a_size < HEAD || b_size < HEAD || most < a_size)
        return 0;
    const size_t a_from = calls_from(a, a_size), b_from = calls_from(b, b_size);
    const size_t first = a_from + below((a_size - a_from) / CALL + 1) * CALL;
    const size_t last = b_from + below((b_size - b_from) / CALL + 1) * CALL;
    const size_t rest = b_size - last < most - first ? b_size - last : most - first;
    memcpy(out, a, first);
    memcpy(out + first, b + last, rest);
    return first + rest;
}
