/* random.c: sessions of any calls in any order, on books that no one damages. */
#include "outside.h"

static uint64_t seed = 88172645463325252u;

static uint64_t any(uint64_t below)
{
    seed ^= seed << 13;
    seed ^= seed >> 7;
    seed ^= seed << 17;
    return seed % below;
}

/* A report of up to four scattered numbers and ranges near the front. */
static void random_nak(uint32_t near, uint32_t reach)
{
    const size_t len = any(5);
    uint32_t *words = words_at(len);
    for (size_t i = 0; i < len; i++) {
        words[i] = (near + (uint32_t)any(reach)) & 0x7fffffff;
        if (i > 0 && any(3) == 0)
            words[i - 1] |= 0x80000000u; /* a range, if it is not a bad one */
    }
    do_nak(words, len, NULL);
}

static void random_call(uint64_t *now, uint32_t reach)
{
    const struct phel_books *b = &desk.sender.books;
    const uint32_t near = (b->front + (uint32_t)any(reach) - 3) & 0x7fffffff;
    const uint32_t full = (uint32_t)(b->expected + any(4) - 1);
    const struct phel_rtt rtt = {(uint32_t)any(200000), (uint32_t)any(100000)};
    const size_t len = any(4) == 0 ? 0 : any(10 * reach);
    *now += any(any(40) == 0 ? 2000000 : 20000);
    switch (any(12)) {
    case 0: case 1: do_message(*now - any(*now / 2 + 1), *now, payload_at(len), len, NULL); break;
    case 2: do_message(*now, *now, payload_at(len), len, NULL); break;
    case 3: do_ack(near, any(3) == 0 ? &full : NULL, any(3) == 0 ? &rtt : NULL, NULL); break;
    case 4: case 5: random_nak(b->front, reach); break;
    case 6: do_payload(near, NULL); break;
    case 7: do_reports(NULL); break;
    default: do_run(*now, (uint32_t)any(any(3) == 0 ? reach : 3), any(4) == 0, NULL); break;
    }
}

void random_cases(void)
{
    for (int session = 0; session < 600; session++) {
        const uint32_t reach = session % 3 == 0 ? 70 : 12, mode = (uint32_t)any(4);
        const struct phel_settings c = {(uint32_t)(0x80000000u - 1 - any(90)), 1 + (uint32_t)any(20),
                                       (uint32_t)any(reach), (uint32_t)any(reach), (uint32_t)any(1200000),
                                       (uint32_t)any(129), 1};
        uint64_t now = any(BIT(33));
        side = session % 2 == 0 ? AT_END : AT_BEGIN;
        fresh(&c, 4);
        do_new(&c, mode, mode == PHEL_MODE_UNLIMITED ? 0 : any(BIT(any(41))), mode < 2 ? any(300) : 0);
        for (int call = 0; call < 250; call++) {
            snprintf(scene, sizeof scene, "random session %d, call %d", session, call);
            random_call(&now, reach);
        }
    }
}
