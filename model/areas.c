/* areas.c: the books as a host keeps and lends them (docs/BOOKS.md), read into plain lists and written back. */
#include "inside.h"

/* The words of a packet in the ring. */
enum { TIME, MESSAGE, PLACE, LENGTH, COUNT, RESEND, WIDTH };

/* ---- The lists */

struct packet *packet_at(struct model *m, size_t i)
{
    return &m->room[m->first + i];
}

/* The buffered packet of an unwrapped number, or NULL. */
struct packet *find_packet(struct model *m, uint64_t number)
{
    const uint64_t front = front_number(m);
    return number >= front && number - front < m->len ? packet_at(m, (size_t)(number - front)) : NULL;
}

/* The front packet goes, from the list of packets alone. */
struct packet pop_front(struct model *m)
{
    m->slot = (m->slot + 1) % capacity_of(&m->settings);
    m->len--;
    return m->room[m->first++];
}

void push_back(struct model *m, struct packet p)
{
    if (m->first + m->len == sizeof m->room / sizeof m->room[0]) {
        memmove(m->room, m->room + m->first, m->len * sizeof p);
        m->first = 0;
    }
    m->room[m->first + m->len++] = p;
}

/* The front's number; with none buffered the number that the next packet gets. */
uint64_t front_number(struct model *m)
{
    return m->next_number - m->len;
}

/* "next unsent - front" */
uint64_t unacknowledged(struct model *m)
{
    const uint64_t front = front_number(m);
    return m->next_unsent > front ? m->next_unsent - front : 0;
}

/* Payload plus overhead, as the byte count takes it. */
uint64_t wire_size(const struct model *m, uint64_t length)
{
    return bent(BytesWithoutOverhead) ? length : length + m->settings.overhead;
}

size_t unlist(struct model *m, uint64_t from, uint64_t to)
{
    size_t kept = 0, gone;
    for (size_t i = 0; i < m->lost_len; i++)
        if (m->lost[i] < from || m->lost[i] >= to)
            m->lost[kept++] = m->lost[i];
    gone = m->lost_len - kept;
    m->lost_len = kept;
    return gone;
}

/* ---- Reading */

static void read_packets(struct model *m, const struct phel_books *b, const uint64_t *ring)
{
    m->first = m->len = 0;
    for (size_t i = 0; i < b->ring.len; i++) {
        const uint64_t *e = ring + (b->ring.slot + i) % b->ring.cap * WIDTH;
        const struct packet p = {b->front + i, e[TIME], e[MESSAGE], e[PLACE], e[LENGTH], e[COUNT], e[RESEND]};
        push_back(m, p);
    }
    m->slot = b->ring.slot;
    m->next_number = b->front + b->ring.len;
    m->next_unsent = (uint64_t)b->front + b->sent;
}

/* The list stands farthest first. */
static bool read_lost(struct model *m, const struct phel_books *b, const uint32_t *lost)
{
    m->lost_len = b->lost;
    for (size_t i = 0; i < b->lost; i++) {
        const uint32_t number = lost[b->lost - 1 - i];
        if (number >= BIT(31))
            return false;
        m->lost[i] = b->front + (uint64_t)distance(b->front, number);
    }
    return true;
}

/* Reads the books, where they say how they lie: "packets number at most the capacity; next unsent between the front and
 * one past the back"; numbers are consecutive by what is kept. Lost ones are sent, so they are no more than those. */
static bool read_books(struct model *m, const struct phel_sender *s, const struct lent *lent)
{
    const struct phel_books *b = &s->books;
    const size_t cap = capacity_of(&s->settings);
    if (b->ring.cap != cap || b->ring.slot >= cap || b->ring.len > cap)
        return false;
    if (b->front >= BIT(31) || b->sent > b->ring.len || b->lost > b->sent)
        return false;
    m->settings = s->settings;
    m->bytes = b->bytes;
    m->expected = b->expected;
    m->message = b->message;
    m->rtt = b->rtt;
    m->held = b->held;
    m->pacing = s->pacing;
    m->store = lent->store;
    m->has_flushed = false;
    read_packets(m, b, lent->ring);
    return read_lost(m, b, lent->lost);
}

/* 2 before 3; settings out of range say nothing of an area's size, and are 3. */
struct model *open_books(const struct phel_sender *given, const struct lent *lent, struct phel_refusal *why)
{
    static struct model m;
    const struct phel_settings *c = &given->settings;
    const size_t cap = capacity_of(c);
    const bool usual = settings_kept(c);
    *why = refusal(0, 0, 0, 0);
    if (usual && (lent->ring_len < cap * WIDTH || lent->lost_len < cap || (lent->stored && lent->store_len < cap * c->size)))
        why->number = PHEL_BAD_STORE;
    else if (!usual || !read_books(&m, given, lent) || !books_kept(&m))
        why->number = PHEL_BAD_STATE;
    return &m;
}

/* ---- Writing */

void write_sender(const struct model *m, struct phel_sender *s)
{
    struct phel_books *b = &s->books;
    const uint64_t front = m->next_number - m->len;
    b->ring.slot = m->slot;
    b->ring.len = m->len;
    b->front = wire(front);
    b->sent = (uint32_t)(m->next_unsent - front);
    b->lost = m->lost_len;
    b->bytes = m->bytes;
    b->rtt = m->rtt;
    b->expected = m->expected;
    b->held = m->held;
    b->message = m->message;
    s->pacing = m->pacing;
}

static void write_packet(uint64_t *ring, size_t slot, const struct packet *p)
{
    uint64_t *e = ring + slot * WIDTH;
    e[TIME] = p->time;
    e[MESSAGE] = p->message;
    e[PLACE] = p->place;
    e[LENGTH] = p->length;
    e[COUNT] = p->count;
    e[RESEND] = p->resend;
}

/* A flushed packet was sent before, by the same run perhaps: its entry says so. */
void write_ring(struct model *m, uint64_t *ring)
{
    for (size_t i = 0; i < m->len; i++)
        write_packet(ring, (m->slot + i) % capacity_of(&m->settings), packet_at(m, i));
    if (m->has_flushed)
        write_packet(ring, m->flushed_slot, &m->flushed);
}

void write_lost(const struct model *m, uint32_t *lost)
{
    for (size_t i = 0; i < m->lost_len; i++)
        lost[m->lost_len - 1 - i] = wire(m->lost[i]);
}
