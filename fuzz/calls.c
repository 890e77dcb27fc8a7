/* calls.c: the calls of the sender's entries, each made on the model too (model/model.h) and held against it. */
#include "host.h"
#include "notes.h"

#include <string.h>

/* A sender at its start takes the areas with whatever is in them. */
void call_new(const struct phel_settings *c, uint32_t mode, uint64_t rate, uint64_t overhead)
{
    const struct phel_new_answer by = model_new(*c, mode, rate, overhead);
    const struct phel_new_answer r = phel_entry_new(*c, mode, rate, overhead);
    note_answer(NEW, r.refusal.number);
    must(same_refusal(&r.refusal, &by.refusal), "new: another refusal than document 01's");
    must(same_sender(&by.sender, &r.sender), "new: another sender than document 01's");
    if (r.refusal.number != 0)
        return;
    kept.sender = r.sender;
    kept.damaged = false;
    lend_areas();
    must(phel_entry_reports(kept.sender, RING, LOST).refusal.number != PHEL_BAD_STATE, "new: books that are refused");
}

static void call_message(const struct call *k)
{
    const struct phel_sender given = kept.sender;
    const uint64_t time = time_of(k->how, k->c, &kept.clock, 48), now = time_of(k->how >> 2, k->b, &kept.clock, 48);
    const size_t len = length_of(k);
    const uint8_t *payload = kept.payload.base + kept.payload.room - len;
    lend_areas();
    const struct phel_message_answer r = phel_entry_message(given, time, now, payload, len, RING, LOST, STORE);
    const struct phel_message_answer by =
        model_message(given, time, now, payload, len, KEPT_RING, KEPT_LOST, KEPT_STORE);
    must(same_messaged(&r.done, &by.done), "message: another answer");
    if (!settle(MESSAGE, &r.refusal, &by.refusal, &r.sender, &by.sender))
        return;
    note(NOTE_COUNT, size_of(by.done.made));
    note(NOTE_COUNT + 1, size_of(by.done.removed));
    note(NOTE_COUNT + 2, size_of(by.done.period));
    go_on();
}

static void call_ack(const struct call *k)
{
    const struct phel_sender given = kept.sender;
    const uint32_t number = sequence_of(k), mean = (uint32_t)k->c, variance = (uint32_t)(k->c >> 32);
    const bool with_full = k->how & 8, measured = k->how & 32;
    const uint32_t full = k->how & 16 ? k->b : (uint32_t)(given.books.expected - 1 + k->a % 4);
    const uint32_t most = k->how & 64 ? UINT32_MAX : PHEL_RTT_MOST + 1;
    const struct phel_rtt rtt = {mean % most, variance % most};
    lend_areas();
    const struct phel_ack_answer r = phel_entry_ack(given, number, with_full, full, measured, rtt, RING, LOST);
    const struct phel_ack_answer by = model_ack(given, number, with_full, full, measured, rtt, KEPT_RING, KEPT_LOST);
    must(same_acked(&r.done, &by.done), "ack: another answer");
    if (!settle(ACK, &r.refusal, &by.refusal, &r.sender, &by.sender))
        return;
    note(NOTE_COUNT + 3, size_of(by.done.received));
    note(NOTE_COUNT + 4, size_of(by.done.recovered));
    go_on();
}

/* Makes the words of a report and lends them; the answer is how many items they are, were none malformed. */
static size_t lend_words(const struct call *k, size_t len)
{
    uint32_t *words = (uint32_t *)kept.words.kept;
    size_t items = len;
    for (size_t i = 0; i < len; i++) {
        words[i] = word_of(k, i);
        items -= words[i] >> 31;
    }
    area_lend(&kept.words, len, kept.front);
    return items;
}

static void call_nak(const struct call *k)
{
    const struct phel_sender given = kept.sender;
    const size_t len = k->how & 4 ? PHEL_WORDS_MOST - 8 + k->a % 16 : k->a % 24;
    const size_t items = lend_words(k, len);
    const uint32_t *words = (const uint32_t *)kept.words.at;
    uint32_t *runs = (uint32_t *)kept.runs.kept;
    lend_areas();
    area_lend(&kept.runs, room_of(k->how, PHEL_RUNS_WORDS(items), k->b, &kept.runs), kept.front);
    const struct phel_nak_answer r =
        phel_entry_nak(given, words, len, RING, LOST, (uint32_t *)kept.runs.at, kept.runs.len);
    area_stays(&kept.words);
    const struct phel_nak_answer by = model_nak(given, words, len, KEPT_RING, KEPT_LOST, runs, kept.runs.len);
    must(r.runs == by.runs, "nak: another number of runs");
    area_stays(&kept.runs);
    if (!settle(NAK, &r.refusal, &by.refusal, &r.sender, &by.sender)) {
        note(NOTE_RECORD + 9, (unsigned)r.refusal.first % 256);
        return;
    }
    for (size_t i = 0; i < r.runs; i++)
        note(NOTE_RECORD + 8, phel_loss_run_at(runs, i).kind);
    note(NOTE_COUNT + 5, size_of(r.runs));
    note(NOTE_COUNT + 6, size_of(by.sender.books.lost));
    go_on();
}

/* Shows the fuzzer which record follows which, and how many packets are sent. */
static void note_records(const uint8_t *records, size_t count)
{
    uint64_t sends = 0;
    unsigned before = 0;
    for (size_t i = 0; i < count; i++) {
        const struct phel_action a = phel_action_at(records, i);
        note(NOTE_STEP + 16 + before, a.kind);
        before = a.kind;
        sends += phel_action_sends(&a);
    }
    note(NOTE_COUNT + 7, size_of(count));
    note(NOTE_COUNT + 8, size_of(sends));
}

static void call_run(const struct call *k)
{
    const struct phel_sender given = kept.sender;
    const uint64_t now = time_of(k->how, k->c, &kept.clock, 48);
    const uint32_t budgets[4] = {k->a % 8, k->a, k->b, UINT32_MAX};
    const uint32_t budget = budgets[k->how >> 2 & 3];
    const bool draining = k->how & 16;
    const size_t needed = PHEL_RECORDS_BYTES(budget, given.books.ring.len);
    lend_areas();
    area_lend(&kept.records, room_of(k->how >> 5, needed, k->b, &kept.records), kept.front);
    const struct phel_run_answer r =
        phel_entry_run(given, now, budget, draining, RING, LOST, kept.records.at, kept.records.len);
    const struct phel_run_answer by =
        model_run(given, now, budget, draining, KEPT_RING, KEPT_LOST, kept.records.kept, kept.records.len);
    must(same_ran(&r.done, &by.done), "run: another answer");
    area_stays(&kept.records);
    if (!settle(RUN, &r.refusal, &by.refusal, &r.sender, &by.sender))
        return;
    note_records(kept.records.kept, by.done.records);
    go_on();
}

static void call_payload(const struct call *k)
{
    const struct phel_sender given = kept.sender;
    const uint32_t number = sequence_of(k);
    lend_areas();
    const struct phel_payload_answer r = phel_entry_payload(given, number, RING, LOST, STORE);
    const struct phel_payload_answer by = model_payload(given, number, KEPT_RING, KEPT_LOST, KEPT_STORE);
    must(same_found(&r.done, &by.done), "payload: another place");
    if (settle(PAYLOAD, &r.refusal, &by.refusal, &given, &given))
        note(NOTE_COUNT + 9, size_of(by.done.len));
}

static void call_reports(void)
{
    const struct phel_sender given = kept.sender;
    lend_areas();
    const struct phel_reports_answer r = phel_entry_reports(given, RING, LOST);
    const struct phel_reports_answer by = model_reports(given, KEPT_RING, KEPT_LOST);
    must(same_reports(&r.done, &by.done), "reports: another answer");
    if (settle(REPORTS, &r.refusal, &by.refusal, &given, &given))
        check_reports(&r);
}

/* A call of an entry; damage that was for one call is undone after it. */
void call_sender(const struct call *k)
{
    switch (k->step % STEPS) {
    case MESSAGE:
        call_message(k);
        break;
    case ACK:
        call_ack(k);
        break;
    case NAK:
        call_nak(k);
        break;
    case RUN:
        call_run(k);
        break;
    case PAYLOAD:
        call_payload(k);
        break;
    default:
        call_reports();
        break;
    }
    repair();
}

void call_header(const struct call *k)
{
    const uint32_t number = (uint32_t)k->c, message = (uint32_t)(k->c >> 32);
    const bool again = k->how & 1;
    area_lend(&kept.header, PHEL_HEADER_BYTES, kept.front);
    phel_entry_header(kept.header.at, k->a, again, number, message, k->b, ~k->b);
    model_header(kept.header.kept, k->a, again, number, message, k->b, ~k->b);
    area_stays(&kept.header);
}
