/* Entries with a fault put in on purpose, each where the calls before must first have led to something: the fuzzer has
 * to find them. BEND says which. The linker puts these in the library's place (--wrap). */
#include "phelgomrit.h"

#if BEND == 1
struct phel_run_answer __real_phel_entry_run(struct phel_sender given, uint64_t now, uint32_t budget, bool draining,
                                           uint64_t *ring, size_t ring_len, const uint32_t *lost, size_t lost_len,
                                           uint8_t *out, size_t out_len);

/* A run that drops and then resends by loss writes one byte past its list. */
struct phel_run_answer __wrap_phel_entry_run(struct phel_sender given, uint64_t now, uint32_t budget, bool draining,
                                           uint64_t *ring, size_t ring_len, const uint32_t *lost, size_t lost_len,
                                           uint8_t *out, size_t out_len)
{
    const struct phel_run_answer r =
        __real_phel_entry_run(given, now, budget, draining, ring, ring_len, lost, lost_len, out, out_len);
    if (r.done.records > 1 && out[0] == PHEL_DROP && out[PHEL_RECORD_BYTES] == PHEL_RESEND_BY_LOSS)
        out[out_len] = 0;
    return r;
}
#elif BEND == 2
struct phel_nak_answer __real_phel_entry_nak(struct phel_sender given, const uint32_t *words, size_t words_len,
                                           const uint64_t *ring, size_t ring_len, uint32_t *lost, size_t lost_len,
                                           uint32_t *out, size_t out_len);

/* A loss report that is refused behind its first word, with two numbers on the list, changes a bit of the list. */
struct phel_nak_answer __wrap_phel_entry_nak(struct phel_sender given, const uint32_t *words, size_t words_len,
                                           const uint64_t *ring, size_t ring_len, uint32_t *lost, size_t lost_len,
                                           uint32_t *out, size_t out_len)
{
    const struct phel_nak_answer r =
        __real_phel_entry_nak(given, words, words_len, ring, ring_len, lost, lost_len, out, out_len);
    if (r.refusal.number == PHEL_BAD_NAK && r.refusal.first > 0 && given.books.lost >= 2)
        lost[1] ^= 1;
    return r;
}
#else
struct phel_ack_answer __real_phel_entry_ack(struct phel_sender given, uint32_t number, bool full, uint32_t full_number,
                                           bool measured, struct phel_rtt rtt, const uint64_t *ring, size_t ring_len,
                                           const uint32_t *lost, size_t lost_len);

/* An ACK that recovers two numbers and leaves one on the list leaves a message number over its end. */
struct phel_ack_answer __wrap_phel_entry_ack(struct phel_sender given, uint32_t number, bool full, uint32_t full_number,
                                           bool measured, struct phel_rtt rtt, const uint64_t *ring, size_t ring_len,
                                           const uint32_t *lost, size_t lost_len)
{
    struct phel_ack_answer r =
        __real_phel_entry_ack(given, number, full, full_number, measured, rtt, ring, ring_len, lost, lost_len);
    if (r.refusal.number == 0 && r.done.recovered == 2 && r.sender.books.lost == 1)
        r.sender.books.message |= 1u << 26;
    return r;
}
#endif
