/* loss.c: document 01's "Loss words": their faults, and a report answered by the ends of its ranges. */
#include "inside.h"

static const uint64_t HALF = BIT(30), NUMBERS = BIT(31);

/* ---- The words */

/* How many words the item at |at| has: 1 for a number, 2 for a range, 0 where it is malformed. */
static size_t item_words(const uint32_t *words, size_t len, size_t at)
{
    if (words[at] < BIT(31))
        return 1;
    if (at + 1 == len || words[at + 1] >= BIT(31))
        return 0;
    return distance(words[at], words[at + 1]) < HALF ? 2 : 0;
}

/* 12 with the first bad item's first word, "or 512 for too many words, whatever else is bad"; 13 where the list has less
 * than three runs of room per item. */
static struct phel_refusal words_refusal(const uint32_t *words, size_t len, size_t room)
{
    size_t items = 0, width;
    if (len > 512)
        return refusal(PHEL_BAD_NAK, 512, 0, 0);
    for (size_t at = 0; at < len; at += width, items++) {
        width = item_words(words, len, at);
        if (width == 0)
            return refusal(PHEL_BAD_NAK, at, 0, 0);
    }
    return refusal(room < 9 * items ? PHEL_NO_ROOM : 0, 0, 0, 0);
}

/* ---- The report */

/* The runs told so far: three words each. */
struct runs {
    uint32_t *out;
    size_t len;
};

/* "Added numbers enter the list once": |count| from |start| on. */
static void enter(struct model *m, uint64_t start, uint64_t count)
{
    size_t from = 0, to;
    while (from < m->lost_len && m->lost[from] < start)
        from++;
    for (to = from; to < m->lost_len && m->lost[to] < start + count; to++)
        ;
    memmove(m->lost + from + count, m->lost + to, (m->lost_len - to) * sizeof m->lost[0]);
    for (size_t k = 0; k < count; k++)
        m->lost[from + k] = start + k;
    m->lost_len += count - (to - from);
}

static bool listed(const struct model *m, uint64_t number)
{
    for (size_t i = 0; i < m->lost_len; i++)
        if (m->lost[i] == number)
            return true;
    return false;
}

/* The kind, but for three bends. */
static uint32_t bent_kind(struct model *m, uint32_t kind, uint64_t start, uint64_t count)
{
    if (bent(UnsentAdded) && kind == PHEL_IGNORED && start + count <= m->next_number)
        return PHEL_ADDED;
    if (bent(DroppedIsIgnored) && kind == PHEL_DROPPED)
        return PHEL_IGNORED;
    return bent(AgainIsIgnored) && kind == PHEL_ADDED && listed(m, start) ? PHEL_IGNORED : kind;
}

/* "maximal runs of one kind and consecutive numbers, also across items; each has an exclusive end": |count| numbers from
 * |first| on go to the last run or begin another. */
static void tell(struct model *m, struct runs *r, uint32_t kind, uint32_t first, uint64_t count)
{
    const uint64_t start = front_number(m) + distance(front_number(m), first);
    uint32_t *last = r->len > 0 ? r->out + 3 * r->len - 3 : NULL;
    kind = bent_kind(m, kind, start, count);
    if (kind == PHEL_ADDED)
        enter(m, start, count);
    if (last == NULL || last[2] != first || bent(RunsNotJoined) || (last[0] != kind && !bent(RunsJoinedAnyKind))) {
        last = r->out + 3 * r->len++;
        last[0] = kind;
        last[1] = first;
    }
    last[2] = (uint32_t)((first + count) & 0x7fffffff);
}

/* One item, cut where the kind changes. "Added if buffered and sent; else Ignored if its distance from next unsent is
 * below 2^30; else Dropped": by that distance Ignored come first, the sent ones last, Dropped between. */
static void report_item(struct model *m, struct runs *r, uint32_t first, uint64_t count)
{
    const uint64_t sent = unacknowledged(m), half = HALF + (bent(IgnoredAtHalf) ? 1 : 0);
    uint64_t from = distance(m->next_unsent, first), end = from + count, to;
    for (; from < end; from = to) {
        const uint64_t ahead = from % NUMBERS;
        const uint32_t kind = ahead < half ? PHEL_IGNORED : ahead < NUMBERS - sent ? PHEL_DROPPED : PHEL_ADDED;
        const uint64_t bound = ahead < half ? half : ahead < NUMBERS - sent ? NUMBERS - sent : NUMBERS;
        to = least(end, from - ahead + bound);
        tell(m, r, kind, (uint32_t)((m->next_unsent + ahead) & 0x7fffffff), to - from);
    }
}

struct phel_nak_answer model_nak(struct phel_sender given, const uint32_t *words, size_t words_len,
                                 const uint64_t *ring, size_t ring_len, uint32_t *lost, size_t lost_len, uint32_t *out,
                                 size_t out_len)
{
    const struct lent lent = {ring, ring_len, lost, lost_len, NULL, 0, false};
    struct phel_nak_answer a = {{0, 0, 0, 0}, 0, given};
    struct model *m = open_books(&given, &lent, &a.refusal);
    struct runs runs = {out, 0};
    if (a.refusal.number == 0)
        a.refusal = words_refusal(words, words_len, out_len);
    if (a.refusal.number != 0)
        return a;
    for (size_t at = 0; at < words_len; at++) {
        const uint32_t first = words[at] & 0x7fffffff;
        const uint64_t more = words[at] >> 31 ? distance(first, words[at + 1]) : 0;
        at += words[at] >> 31;
        report_item(m, &runs, first, more + (bent(RangeLastOut) && more > 0 ? 0 : 1));
    }
    a.runs = runs.len;
    write_sender(m, &a.sender);
    write_lost(m, lost);
    return a;
}
