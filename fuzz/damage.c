/* damage.c: words of what is kept given other values, for one call or for good. */
#include "host.h"

/* Another value of a word of |width| bytes. */
static void damage(uint8_t *at, size_t width, const struct call *k)
{
    const uint64_t old = number_at(at, width), bit = 1ull << k->b % 64;
    const uint64_t values[8] = {k->c, old + 1, old - 1, old ^ bit, 0, ~0ull, bit - 1, bit};
    for (size_t i = 0; i < width; i++)
        at[i] = (uint8_t)(values[k->how & 7] >> 8 * i);
}

/* A word of |bytes| bytes from |at| on. */
static void damage_one(void *at, size_t bytes, const struct call *k)
{
    const size_t width = k->how & 8 ? 8 : 4;
    damage((uint8_t *)at + k->a % (bytes / width) * width, width, k);
}

/* A sender with a setting changed. */
void renew(const struct call *k)
{
    struct phel_settings c = kept.sender.settings;
    damage_one(&c, sizeof c, k);
    call_new(&c, k->how >> 4 & 3, k->c >> k->a % 64, k->b % 16384);
}

void break_books(const struct call *k)
{
    if (k->how & 64)
        before_damage();
    const uint32_t buffer = kept.sender.settings.buffer;
    const size_t packets = least(PHEL_CAPACITY(buffer), PACKETS_MOST);
    if (k->step % STEPS == BREAK_SENDER)
        damage_one(&kept.sender, sizeof kept.sender, k);
    else if (k->how & 16)
        damage(kept.lost.kept + k->a % packets * 4, 4, k);
    else
        damage(kept.ring.kept + k->a % (packets * 6) * 8, 8, k);
}

void break_timers(const struct call *k)
{
    damage_one(&kept.timers, sizeof kept.timers, k);
}
