/* timers.c: the timers' calls, each made on the model too and held against it. */
#include "host.h"
#include "notes.h"

/* The checks, by the library and by the model. */
static const struct {
    struct phel_timers_answer (*entry)(struct phel_timers timers, uint64_t now);
    struct phel_timers_answer (*model)(struct phel_timers timers, uint64_t now);
} checks[] = {
    {phel_entry_timers_check_snd, model_timers_check_snd},
    {phel_entry_timers_check_full_ack, model_timers_check_full_ack},
    {phel_entry_timers_check_nak, model_timers_check_nak},
    {phel_entry_timers_check_statistics, model_timers_check_statistics},
    {phel_entry_timers_check_peer_idle_timeout, model_timers_check_peer_idle_timeout},
    {phel_entry_timers_check_peer_idle_timeout, model_timers_check_peer_idle_timeout},
};

/* Which call the low bits of a step's |how| choose: a check below CHECKS, and new timers for the rest. */
enum { CHECKS = 6, SND_PERIOD = 6, UPDATE_RTT, RESET_EXP, NEXT_TIMER = 15 };

static void wake(const struct call *k, uint64_t now)
{
    const bool packets = k->how & 128, known = k->how & 64;
    const uint64_t message = k->c * 3;
    const struct phel_nanoseconds_answer r =
        phel_entry_timers_next_timer(kept.timers, now, packets, known, message, k->b);
    const struct phel_nanoseconds_answer by =
        model_timers_next_timer(kept.timers, now, packets, known, message, k->b);
    note_answer(TIMERS + 1, r.refusal);
    must(r.refusal == by.refusal, "timers: another refusal than document 01's");
    must(r.nanoseconds == by.nanoseconds, "timers: another wake-up");
}

/* A refused call gave back what it was given, an accepted one left what the model does, and the next call takes it. */
static void settle_timers(const struct phel_timers_answer *r, const struct phel_timers_answer *by)
{
    note_answer(TIMERS, r->refusal);
    must(r->refusal == by->refusal, "timers: another refusal than document 01's");
    must(same_timers(&r->timers, &by->timers), "timers: others than document 01 leaves");
    must(r->periods == by->periods, "timers: another number of periods");
    if (r->refusal == 0)
        kept.timers = r->timers;
}

void call_timers(const struct call *k)
{
    const uint64_t now = time_of(k->how >> 4, k->c, &kept.ticks, 58);
    const struct phel_rtt rtt = {k->b, (uint32_t)(k->c >> 32)};
    const unsigned which = k->how & 15;
    struct phel_timers_answer r, by;
    if (which == NEXT_TIMER) {
        wake(k, now);
        return;
    }
    if (which < CHECKS) {
        r = checks[which].entry(kept.timers, now);
        by = checks[which].model(kept.timers, now);
    } else if (which == SND_PERIOD) {
        r = phel_entry_timers_update_snd_period(kept.timers, k->c);
        by = model_timers_update_snd_period(kept.timers, k->c);
    } else if (which == UPDATE_RTT) {
        r = phel_entry_timers_update_rtt(kept.timers, rtt);
        by = model_timers_update_rtt(kept.timers, rtt);
    } else if (which == RESET_EXP) {
        r = phel_entry_timers_reset_exp(kept.timers, now);
        by = model_timers_reset_exp(kept.timers, now);
    } else {
        r = phel_entry_timers_new(now, k->c, k->b);
        by = model_timers_new(now, k->c, k->b);
    }
    settle_timers(&r, &by);
    note(NOTE_RECORD + (k->how & 7), size_of(by.periods));
}
