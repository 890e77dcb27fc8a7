/* calls.c: every call of the sender, made through phelgomrit.h and by the model, and settled by before.c. Now and then a
 * refused call is made once more by the entry itself, which must give back what it was given. */
#include "outside.h"

#define FILL(x) memset(&(x), 0xee, sizeof(x))

int do_new(const struct phel_settings *c, uint32_t mode, uint64_t rate, uint64_t overhead)
{
    const struct phel_new_answer by = model_new(*c, mode, rate, overhead);
    int number;
    begin_call();
    number = phel_sender_new(&desk.sender, c, mode, rate, overhead, asked_why());
    settle_new(number, &by);
    if (number == 0)
        check(model_reports(desk.sender, WAS_RING, WAS_LOST).refusal.number != PHEL_BAD_STATE,
              "a fresh sender breaks a rule");
    return number;
}

int do_message(uint64_t time, uint64_t now, const uint8_t *payload, size_t len,
               struct phel_messaged *answer)
{
    static const struct phel_messaged nothing;
    struct phel_message_answer by;
    struct phel_messaged m;
    int number;
    FILL(m);
    begin_call();
    by = model_message(was.sender, time, now, payload, len, WAS_RING, WAS_LOST, WAS_STORE);
    number = phel_sender_message(&desk.sender, &desk.lent, time, now, payload, len, with_answer() ? &m : NULL,
                                asked_why());
    number = settle(E_MESSAGE, number, &by.refusal, &by.sender);
    check_answer(number, &m, sizeof m, same_messaged(&m, &by.done));
    if (payload != NULL && once_more(number)) {
        const struct phel_message_answer r =
            phel_entry_message(desk.sender, time, now, payload, len, DESK_RING, DESK_LOST, DESK_STORE);
        given_back(number, &r.refusal, &r.sender);
        check(same_messaged(&r.done, &nothing), "zeros are due");
    }
    if (answer != NULL)
        *answer = m;
    return number;
}

int do_ack(uint32_t ack, const uint32_t *full, const struct phel_rtt *rtt, struct phel_acked *answer)
{
    static const struct phel_acked nothing;
    const struct phel_rtt brought = rtt != NULL ? *rtt : desk.sender.books.rtt;
    const uint32_t brought_full = full != NULL ? *full : 0;
    struct phel_ack_answer by;
    struct phel_acked a;
    int number;
    FILL(a);
    begin_call();
    by = model_ack(was.sender, ack, full != NULL, brought_full, rtt != NULL, brought, WAS_RING, WAS_LOST);
    number = phel_sender_ack(&desk.sender, &desk.lent, ack, full, rtt, with_answer() ? &a : NULL, asked_why());
    number = settle(E_ACK, number, &by.refusal, &by.sender);
    check_answer(number, &a, sizeof a, same_acked(&a, &by.done));
    if (once_more(number)) {
        const struct phel_ack_answer r =
            phel_entry_ack(desk.sender, ack, full != NULL, brought_full, rtt != NULL, brought, DESK_RING, DESK_LOST);
        given_back(number, &r.refusal, &r.sender);
        check(same_acked(&r.done, &nothing), "zeros are due");
    }
    if (answer != NULL)
        *answer = a;
    return number;
}

int do_nak(const uint32_t *words, size_t len, size_t *answer)
{
    struct phel_nak_answer by;
    size_t n;
    int number;
    FILL(n);
    begin_call();
    by = model_nak(was.sender, words, len, WAS_RING, WAS_LOST, was.runs, was.runs_len);
    number = phel_sender_nak(&desk.sender, &desk.lent, words, len, desk.runs, desk.runs_len, with_answer() ? &n : NULL,
                            asked_why());
    number = settle(E_NAK, number, &by.refusal, &by.sender);
    check_answer(number, &n, sizeof n, n == by.runs);
    if (words != NULL && once_more(number)) {
        const struct phel_nak_answer r =
            phel_entry_nak(desk.sender, words, len, DESK_RING, DESK_LOST, desk.runs, desk.runs_len);
        given_back(number, &r.refusal, &r.sender);
        check(r.runs == 0, "a zero is due");
    }
    if (answer != NULL)
        *answer = n;
    return number;
}

/* Demand 3: "sends at most p + 1 packets, the extra one only if its number divides by 16, none for p = 0". */
static void bounded(size_t records, uint32_t budget)
{
    uint32_t sends = 0, last = 0;
    for (size_t k = 0; k < records; k++) {
        const struct phel_action a = phel_action_at(desk.records, k);
        if (phel_action_sends(&a)) {
            sends++;
            last = a.number;
        }
    }
    check(sends <= budget || (budget > 0 && sends == budget + 1 && last % 16 == 0), "more sends than the budget lets");
}

int do_run(uint64_t now, uint32_t budget, bool draining, struct phel_ran *answer)
{
    static const struct phel_ran nothing;
    struct phel_run_answer by;
    struct phel_ran r;
    int number;
    FILL(r);
    begin_call();
    by = model_run(was.sender, now, budget, draining, WAS_RING, WAS_LOST, was.records, was.records_len);
    number = phel_sender_run(&desk.sender, &desk.lent, now, budget, draining, desk.records, desk.records_len,
                            with_answer() ? &r : NULL, asked_why());
    number = settle(E_RUN, number, &by.refusal, &by.sender);
    check_answer(number, &r, sizeof r, same_ran(&r, &by.done));
    bounded(by.done.records, budget);
    if (once_more(number)) {
        const struct phel_run_answer e = phel_entry_run(desk.sender, now, budget, draining, DESK_RING, DESK_LOST,
                                                        desk.records, desk.records_len);
        given_back(number, &e.refusal, &e.sender);
        check(same_ran(&e.done, &nothing), "zeros are due");
    }
    if (answer != NULL)
        *answer = r;
    return number;
}

int do_payload(uint32_t asked, struct phel_found *answer)
{
    struct phel_payload_answer by;
    struct phel_found f;
    int number;
    FILL(f);
    begin_call();
    by = model_payload(was.sender, asked, WAS_RING, WAS_LOST, WAS_STORE);
    number = phel_sender_payload(&desk.sender, &desk.lent, asked, with_answer() ? &f : NULL, asked_why());
    number = settle(E_PAYLOAD, number, &by.refusal, &was.sender);
    check_answer(number, &f, sizeof f, same_found(&f, &by.done));
    if (answer != NULL)
        *answer = f;
    return number;
}

int do_reports(struct phel_reports *answer)
{
    struct phel_reports_answer by;
    struct phel_reports r;
    int number;
    FILL(r);
    begin_call();
    by = model_reports(was.sender, WAS_RING, WAS_LOST);
    number = phel_sender_reports(&desk.sender, &desk.lent, with_answer() ? &r : NULL, asked_why());
    number = settle(E_REPORTS, number, &by.refusal, &was.sender);
    check_answer(number, &r, sizeof r, same_reports(&r, &by.done));
    if (answer != NULL)
        *answer = r;
    return number;
}

void do_header(uint8_t *out, uint32_t place, bool again, uint32_t number, uint32_t message, uint32_t stamp,
               uint32_t socket)
{
    uint8_t by[PHEL_HEADER_BYTES];
    phel_packet_header(out, place, again, number, message, stamp, socket);
    count_call(E_HEADER, 0);
    model_header(by, place, again, number, message, stamp, socket);
    check(memcmp(out, by, sizeof by) == 0, "another header");
}
