/* entries.c: calls the library's entries with whatever an input says, and checks every answer.
 *
 * An input is a head of 32 bytes (settings, and how the sender begins) and then calls of 16 bytes each (input.h). Books
 * are made by phel_entry_new and driven by the calls, or are the input's bytes; either way calls may damage any word of
 * them, of the ring and of the loss list, for one call or for good, and lend areas of other lengths. Areas and lists
 * lie between forbidden pages (areas.h).
 *
 * After each call: its refusal is document 01's; a refused call left every byte of sender, areas and lists as it was,
 * but for refusal 11's round-trip time; an accepted one answered and left what document 01 says, which the model works
 * out (model/model.h), and the books that it left are not refused.
 *   host.c    what is kept and lent from call to call, and the checks after a call
 *   choose.c  arguments from a call's numbers
 *   calls.c   the sender's calls
 *   timers.c  the timers' calls
 *   damage.c  damage
 *
 * Coverage: libFuzzer. The archive can't be compiled with coverage, and Debian's AFL++ comes without the modes for
 * such objects (qemu, frida); so the fuzzer is shown the answers (notes.h) and the archive's blocks (blocks.c). */
#include "host.h"

#include <string.h>

static struct call call_at(const uint8_t *at)
{
    const struct call k = {at[0], at[1], (uint16_t)number_at(at + 2, 2), (uint32_t)number_at(at + 4, 4),
                           number_at(at + 8, 8)};
    return k;
}

static void begin(const uint8_t *head)
{
    const bool raw = head[0] & RAW_SETTINGS;
    const uint32_t size = (uint32_t)number_at(head + 2, 2), buffer = (uint32_t)number_at(head + 4, 2);
    const struct phel_settings c = {
        .first = (uint32_t)number_at(head + 16, 4) & (raw ? UINT32_MAX : 0x7fffffffu),
        .size = raw ? size : 1 + size % (head[0] & LARGE_PACKETS ? PHEL_SIZE_MOST : 32),
        .buffer = raw ? buffer : buffer % (head[0] & LARGE_BUFFER ? PACKETS_MOST + 1 : 12),
        .flow = (uint32_t)number_at(head + 6, 2) + (raw && head[14] & 1 ? 65530u : 0),
        .latency = (uint32_t)number_at(head + 8, 4) % (raw ? UINT32_MAX : 65535001u),
        .overhead = head[12] % (raw ? 256 : 129),
        .socket = (uint32_t)number_at(head + 20, 4),
    };
    const uint32_t mode = head[1] % (raw ? 6 : 4);
    const uint64_t rate = number_at(head + 24, 8) >> (raw ? 0 : 24);
    const bool unused = !raw && mode == PHEL_MODE_UNLIMITED, no_overhead = !raw && mode >= PHEL_MODE_MAX;
    call_new(&c, mode, unused ? 0 : rate, no_overhead ? 0 : head[13] * (raw ? 64u : 1u));
}

/* One call, or what happens between two. */
static void make_step(const struct call *k)
{
    switch (k->step % STEPS) {
    case NEW:
        renew(k);
        break;
    case HEADER:
        call_header(k);
        break;
    case TIMERS:
        call_timers(k);
        break;
    case BREAK_SENDER:
    case BREAK_AREA:
        break_books(k);
        break;
    case BREAK_TIMERS:
        break_timers(k);
        break;
    case LEND:
        kept.lend = *k;
        break;
    default:
        call_sender(k);
        break;
    }
}

static void clear(const uint8_t *head)
{
    static const struct phel_sender no_sender;
    kept.front = head[0] & AT_FRONT;
    kept.clock = number_at(head + 14, 2);
    kept.ticks = kept.clock * 1000;
    kept.lend.how = 0;
    kept.damaged = false;
    kept.last = 0;
    kept.sender = no_sender;
    kept.timers = phel_entry_timers_new(kept.ticks, 1000000000, 5000000000).timers;
    memset(kept.ring.kept, head[15], kept.ring.room);
    memset(kept.lost.kept, head[15], kept.lost.room);
}

int LLVMFuzzerTestOneInput(const uint8_t *data, size_t size)
{
    if (size < HEAD)
        return 0;
    if (kept.ring.base == NULL)
        map_areas();
    clear(data);
    const uint8_t *at = data + calls_from(data, size), *end = data + size;
    begin(data);
    if (at > data + HEAD)
        memcpy(&kept.sender, data + HEAD, sizeof kept.sender);
    for (int n = 0; n < CALLS_MOST && end - at >= CALL; n++, at += CALL) {
        const struct call k = call_at(at);
        make_step(&k);
    }
    return 0;
}
