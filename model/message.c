/* message.c: a new sender, and document 01's "Message" and "Byte count". */
#include "inside.h"

struct phel_new_answer model_new(struct phel_settings settings, uint32_t mode, uint64_t rate, uint64_t overhead)
{
    struct phel_new_answer a;
    memset(&a, 0, sizeof a);
    outlived = UINT64_MAX;
    if (!settings_kept(&settings) || !mode_kept(mode, rate, overhead)) {
        a.refusal.number = PHEL_BAD_SETTING;
        return a;
    }
    a.sender.settings = settings;
    a.sender.books.ring.cap = capacity_of(&settings);
    a.sender.books.front = settings.first;
    a.sender.books.rtt.mean = 100000;
    a.sender.books.rtt.variance = 50000;
    a.sender.books.expected = 1;
    a.sender.pacing = new_pacing(mode, rate, overhead);
    return a;
}

/* "Pushing into a full buffer first removes the front packet, from the loss list too"; next unsent moves past it. The
 * answer is its wire bytes. */
static uint64_t remove_for_room(struct model *m)
{
    const struct packet p = pop_front(m);
    if (!bent(FullBufferKeepsLoss))
        unlist(m, p.number, p.number + 1);
    if (!bent(NextUnsentStays))
        m->next_unsent = most(m->next_unsent, p.number + 1);
    outlive(&p);
    m->bytes -= wire_size(m, p.length);
    return p.length + (bent(RemovedWithoutOverhead) ? 0 : m->settings.overhead);
}

static void push(struct model *m, uint64_t time, const struct piece *cut, const uint8_t *payload)
{
    const size_t cap = capacity_of(&m->settings);
    const size_t slot = bent(StoreByNumber) ? wire(m->next_number) % cap : (m->slot + m->len) % cap;
    const struct packet p = {m->next_number, time, m->message, cut->place, cut->len, 0, 0};
    if (cut->len > 0)
        memcpy(m->store + slot * m->settings.size, payload + cut->start, cut->len);
    push_back(m, p);
    m->next_number++;
    m->bytes += wire_size(m, cut->len);
}

/* "a message number 26" bits; it "goes up once per message". */
static void count_message(struct model *m)
{
    m->message = (m->message + 1) & (bent(MessageWrapsLate) ? 0x7ffffff : 0x3ffffff);
}

static void push_message(struct model *m, uint64_t time, const uint8_t *payload, size_t len, struct phel_messaged *done)
{
    const size_t full = capacity_of(&m->settings) - (bent(CapacityOneLess) && m->settings.buffer > 1);
    done->made = pieces_of(len, m->settings.size);
    for (size_t k = 0; k < done->made; k++) {
        const struct piece cut = piece_at(len, m->settings.size, k);
        for (; m->len >= full; done->removed++)
            done->bytes += remove_for_room(m);
        push(m, time, &cut, payload);
        if (bent(MessagePerPacket))
            count_message(m);
    }
    if (!bent(MessagePerPacket))
        count_message(m);
    memset(&m->held, 0, sizeof m->held);
}

/* "byte count with the message's wire sizes is 2^62 or more; or packets or payload bytes since the last estimate ..." */
static bool count_full(const struct model *m, uint64_t now, size_t len)
{
    const uint64_t made = pieces_of(len, m->settings.size);
    return m->bytes + len + made * m->settings.overhead >= BIT(62) || pacing_full(&m->pacing, now, made, len);
}

struct phel_message_answer model_message(struct phel_sender given, uint64_t time, uint64_t now, const uint8_t *payload,
                                         size_t payload_len, uint64_t *ring, size_t ring_len, const uint32_t *lost,
                                         size_t lost_len, uint8_t *store, size_t store_len)
{
    const struct lent lent = {ring, ring_len, lost, lost_len, store, store_len, true};
    struct phel_message_answer a = {{0, 0, 0, 0}, {0, 0, 0, 0}, given};
    struct model *m = open_books(&given, &lent, &a.refusal);
    if (a.refusal.number != 0)
        return a;
    if (time >= BIT(48) || now >= BIT(48))
        a.refusal.number = PHEL_BAD_TIME;
    else if (payload_len > PHEL_MESSAGE_MOST)
        a.refusal.number = PHEL_TOO_LONG;
    else if (count_full(m, now, payload_len))
        a.refusal.number = PHEL_COUNT_FULL;
    if (a.refusal.number != 0)
        return a;
    push_message(m, bent(TimeFromNow) ? now : time, payload, payload_len, &a.done);
    a.done.period = pace(&m->pacing, now, a.done.made, payload_len);
    write_sender(m, &a.sender);
    write_ring(m, ring);
    return a;
}
