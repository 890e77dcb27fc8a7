/* host.c: lending, and what is checked after a call of the sender. */
#include "host.h"
#include "notes.h"

#include <string.h>

struct host kept;

/* ---- Lending --------------------------------------------------------------------------------------------------- */

/* Messages are the last bytes of one area. */
static uint8_t payload_byte(size_t i)
{
    return (uint8_t)(131 * i + i / 251);
}

void map_areas(void)
{
    area_map(&kept.ring, PACKETS_MOST * 6, 8);
    area_map(&kept.lost, PACKETS_MOST, 4);
    area_map(&kept.store, STORE_MOST, 1);
    area_map(&kept.payload, PAYLOAD_ROOM, 1);
    area_map(&kept.words, WORDS_ROOM, 4);
    area_map(&kept.runs, WORDS_ROOM * 9, 4);
    area_map(&kept.records, PHEL_RECORDS_BYTES(PACKETS_MOST, PACKETS_MOST), 1);
    area_map(&kept.header, PHEL_HEADER_BYTES, 1);
    area_fix(&kept.payload, payload_byte);
    memset(kept.runs.kept, 0xee, kept.runs.room);
    memset(kept.records.kept, 0xee, kept.records.room);
}

/* A length other than the one that the settings ask for. */
static size_t other_length(size_t asked, size_t most)
{
    const struct call *l = &kept.lend;
    const size_t by = l->a % 16;
    switch (l->how >> 4 & 3) {
    case 0:
        return asked - least(asked, by);
    case 1:
        return least(asked + by, most);
    case 2:
        return 0;
    default:
        return l->b % (most + 1);
    }
}

static void lend(struct area *a, size_t asked, unsigned bit)
{
    const size_t most = area_most(a);
    const size_t len = least(asked, most);
    area_lend(a, kept.lend.how & bit ? other_length(len, most) : len, kept.front);
}

void lend_areas(void)
{
    const struct phel_settings *c = &kept.sender.settings;
    lend(&kept.ring, PHEL_RING_WORDS(c->buffer), 1);
    lend(&kept.lost, PHEL_LOST_WORDS(c->buffer), 2);
    lend(&kept.store, PHEL_STORE_BYTES(c->buffer, c->size), 4);
    kept.lend.how = 0;
}

/* ---- After a call ---------------------------------------------------------------------------------------------- */

void note_answer(unsigned step, uint32_t number)
{
    const unsigned here = step * 16 + number % 16;
    note(NOTE_ENTRY + step, number);
    note(NOTE_STEP + kept.last % 16, here);
    kept.last = here;
}

void check_reports(const struct phel_reports_answer *r)
{
    const struct phel_books *b = &kept.sender.books;
    const struct phel_reports_answer by = model_reports(kept.sender, KEPT_RING, KEPT_LOST);
    must(same_refusal(&r->refusal, &by.refusal) && same_reports(&r->done, &by.done), "reports: another answer");
    note(NOTE_SHAPE, size_of(b->ring.len) * 16 + size_of(b->lost));
    note(NOTE_SHAPE + 1, size_of(b->sent) * 16 + size_of(b->ring.len - b->sent));
    note(NOTE_SHAPE + 2, size_of(by.done.duration));
}

bool settle(enum step step, const struct phel_refusal *why, const struct phel_refusal *by,
            const struct phel_sender *back, const struct phel_sender *left)
{
    note_answer(step, why->number);
    must(same_refusal(why, by), "another refusal than document 01's");
    must(same_sender(left, back), "a call left another sender than document 01");
    area_stays(&kept.ring);
    area_stays(&kept.lost);
    area_stays(&kept.store);
    kept.sender = *back;
    return why->number == 0;
}

void go_on(void)
{
    kept.damaged = false;
    const struct phel_reports_answer r = phel_entry_reports(kept.sender, RING, LOST);
    must(r.refusal.number == 0, "an accepted call left books that are refused");
    check_reports(&r);
}

/* ---- A damage for one call ------------------------------------------------------------------------------------- */

/* The books as they were before they were damaged. */
static struct {
    struct phel_sender sender;
    uint64_t ring[PACKETS_MOST * 6];
    uint32_t lost[PACKETS_MOST];
} undamaged;

void before_damage(void)
{
    if (kept.damaged)
        return;
    kept.damaged = true;
    undamaged.sender = kept.sender;
    memcpy(undamaged.ring, kept.ring.kept, sizeof undamaged.ring);
    memcpy(undamaged.lost, kept.lost.kept, sizeof undamaged.lost);
}

void repair(void)
{
    if (!kept.damaged)
        return;
    kept.damaged = false;
    kept.sender = undamaged.sender;
    memcpy(kept.ring.kept, undamaged.ring, sizeof undamaged.ring);
    memcpy(kept.lost.kept, undamaged.lost, sizeof undamaged.lost);
}
