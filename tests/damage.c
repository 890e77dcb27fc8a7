/* damage.c: senders in many states; each word of each, of its ring and of its loss list is damaged in turn, and every
 * call is made on a fresh copy. The model says what each must answer, before.c holds it against that. */
#include "damage.h"

const uint64_t ends[] = {
    1, 2, 3, 4, 5, 6, 8, 15, 16, 17, 128, 129, 1456, 1457, 8192, 8193, 10000, 10001, 65535, 65536, 65535000, 65535001,
    100000000, 100000001, BIT(26) - 1, BIT(26), BIT(31) - 1, BIT(31), BIT(32) - 1, BIT(32), BIT(32) + 1, BIT(38),
    BIT(38) + 1, BIT(40), BIT(40) + 1, BIT(42), BIT(42) + 1, BIT(48) - 1, BIT(48), BIT(49) - 1, BIT(49),
    1000000000000000, 1000000000000001, BIT(58) - 1, BIT(58), BIT(62) - 1, BIT(62), BIT(63), UINT64_MAX - 1,
};
const size_t ends_len = sizeof ends / sizeof ends[0];

size_t damages(void)
{
    return 4 + ends_len;
}

static uint64_t damaged(uint64_t word, size_t which)
{
    switch (which) {
    case 0: return 0;
    case 1: return UINT64_MAX;
    case 2: return word + 1;
    case 3: return word - 1;
    default: return ends[which - 4];
    }
}

void damage_word(void *at, size_t bytes, size_t which)
{
    uint32_t half;
    uint64_t word;
    if (bytes == 4) {
        memcpy(&half, at, 4);
        half = (uint32_t)damaged(half, which);
        memcpy(at, &half, 4);
    } else {
        memcpy(&word, at, 8);
        word = damaged(word, which);
        memcpy(at, &word, 8);
    }
}

/* ---- The sweep: words are counted through the fields, the ring, and the loss list */

static size_t words_of(void)
{
    return sender_fields_len + lent.ring + lent.lost;
}

/* Damages word |word| of what is on the desk; the answer is its name. */
static const char *damage(size_t word, size_t which)
{
    if (word < sender_fields_len) {
        damage_word((uint8_t *)&desk.sender + sender_fields[word].at, sender_fields[word].bytes, which);
        return sender_fields[word].name;
    }
    word -= sender_fields_len;
    if (word < lent.ring) {
        damage_word(desk.lent.ring + word, 8, which);
        return "the ring";
    }
    damage_word(desk.lent.lost + (word - lent.ring), 4, which);
    return "the loss list";
}

/* Every call on a copy of |s| with one word damaged. */
static void sweep_word(const struct state *s, size_t word, size_t which)
{
    for (size_t i = 0; i < asks_len; i++) {
        const char *name;
        state_put(s);
        name = damage(word, which);
        snprintf(scene, sizeof scene, "%s; damaged: %s, word %zu, way %zu; call %zu; %s", s->name, name, word, which, i,
                 side == AT_END ? "areas at an end" : "areas at a beginning");
        asks[i]();
    }
}

/* Every call on a copy of |s| with two to four words damaged. */
static void sweep_several(const struct state *s, unsigned round)
{
    for (size_t i = 0; i < asks_len; i++) {
        unsigned mixed = round * 2654435761u + 12345;
        state_put(s);
        for (unsigned k = 0; k < 2 + round % 3; k++) {
            mixed = mixed * 1664525u + 1013904223u;
            damage((mixed >> 8) % words_of(), (mixed >> 20) % damages());
        }
        snprintf(scene, sizeof scene, "%s; several words damaged, round %u; call %zu", s->name, round, i);
        asks[i]();
    }
}

/* One element less of an area, which still ends at the page, or still begins there. */
static void shorten(int area)
{
    const size_t bit = side == AT_END ? 1 : 0;
    if (area == 0) {
        desk.lent.ring += bit;
        desk.lent.ring_len--;
    } else if (area == 1) {
        desk.lent.lost += bit;
        desk.lent.lost_len--;
    } else {
        desk.lent.store += bit;
        desk.lent.store_len--;
    }
}

/* Every call on a copy of |s| with a setting damaged and an area one element too short: 2 where the settings are in
 * range, 3 where they are not. */
static void sweep_short(const struct state *s, size_t word, size_t which, int area)
{
    for (size_t i = 0; i < asks_len; i++) {
        state_put(s);
        damage(word, which);
        shorten(area);
        snprintf(scene, sizeof scene, "%s; area %d too short, setting %zu, way %zu; call %zu", s->name, area, word,
                 which, i);
        asks[i]();
    }
}

static void sweep(const struct state *s)
{
    state_put(s);
    front = s->sender.books.front;
    next = (front + s->sender.books.sent) & 0x7fffffff;
    snprintf(scene, sizeof scene, "the state: %s", s->name);
    check(model_reports(desk.sender, DESK_RING, DESK_LOST).refusal.number == 0, "a state that breaks a rule");
    for (size_t word = 0; word < words_of(); word++)
        for (size_t which = 0; which < damages(); which++)
            sweep_word(s, word, which);
    for (unsigned round = 0; round < 500; round++)
        sweep_several(s, round);
    for (size_t word = 0; word < 7 && s == &states[3]; word++) /* the settings, of one state */
        for (size_t which = 0; which < damages(); which++)
            for (int area = 0; area < 3; area++)
                sweep_short(s, word, which, area);
}

void damage_cases(void)
{
    snprintf(scene, sizeof scene, "the fields of a sender");
    check(fields_complete(), "a field is missing in their list");
    for (int turn = 0; turn < 2; turn++) {
        side = turn == 0 ? AT_END : AT_BEGIN;
        snprintf(scene, sizeof scene, "making states");
        states_make();
        for (size_t i = 0; i < STATES; i++)
            sweep(&states[i]);
    }
}
