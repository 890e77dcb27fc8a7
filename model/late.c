/* late.c: rule 1 of document 01's "Run": packets that are late are dropped from the front. */
#include "inside.h"

uint64_t outlived = UINT64_MAX; /* the earliest resend time that stayed behind */

void outlive(const struct packet *p)
{
    if (bent(ResendEntrySurvives) && p->count > 0)
        outlived = least(outlived, p->resend);
}

/* "now strictly past time + window" */
static bool late(const struct model *m, const struct packet *p, uint64_t now)
{
    const uint64_t window = late_window(&m->settings);
    if (bent(LatenessOnStamp))
        return now % BIT(32) > p->time % BIT(32) + window;
    return now > p->time + window || (bent(LatenessNotStrict) && now == p->time + window);
}

/* "from the front through every packet that is late or of the same message as the latest late one, to the first that is
 * neither": how many go, 0 where the front isn't late. */
size_t late_count(struct model *m, uint64_t now)
{
    uint64_t message;
    size_t count = 0;
    if (m->len == 0 || !late(m, packet_at(m, 0), now))
        return 0;
    message = packet_at(m, 0)->message;
    for (size_t i = 0; i < m->len; i++) {
        const struct packet *p = packet_at(m, i);
        if (late(m, p, now))
            message = p->message;
        if (late(m, p, now) || p->message == message)
            count = i + 1;
        else if (!bent(LateDropAll))
            break;
    }
    return bent(LateDropFrontOnly) ? 1 : count;
}

/* "Loss entries go too; next unsent moves past them"; "a late drop doesn't touch" the byte count. */
void drop_late(struct model *m, size_t count, struct record *r)
{
    const uint64_t first = front_number(m), end = first + count;
    for (size_t i = 0; i < count; i++) {
        const struct packet p = pop_front(m);
        m->bytes -= bent(LateDropLowersBytes) ? wire_size(m, p.length) : 0;
        outlive(&p);
    }
    if (!bent(LateDropKeepsLosses))
        unlist(m, first, end);
    if (!bent(LateDropNextStays))
        m->next_unsent = most(m->next_unsent, end);
    r->kind = PHEL_DROP;
    r->number = wire(first);
    r->third = wire(end);
}
