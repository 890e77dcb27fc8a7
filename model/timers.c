/* timers.c: document 01's "Timers", in nanoseconds: 1 is tested before 3, that before 4, that before 8. */
#include "inside.h"

static const uint64_t TIME_LIMIT = BIT(58), PERIOD_MOST = 1000000000000000, MS = 1000000;

static uint32_t period_refusal(uint64_t period)
{
    return period > PERIOD_MOST ? PHEL_BAD_SETTING : 0;
}

static uint32_t time_refusal(uint64_t now)
{
    return now >= TIME_LIMIT ? PHEL_BAD_TIME : 0;
}

/* ---- One timer */

/* "A new timer's period is at least 1,000". */
static struct phel_timer timer_of(uint64_t now, uint64_t period)
{
    const struct phel_timer t = {bent(NewPeriodKept) ? period : most(period, 1000), now};
    return t;
}

/* "a set one may be 0" */
static void set_period(struct phel_timer *t, uint64_t period)
{
    t->period = bent(SetPeriodRaised) ? most(period, 1000) : period;
}

static uint64_t next_instant(const struct phel_timer *t)
{
    return t->last + t->period;
}

/* "answers nothing before origin + period, and from then on floor(elapsed / period), held at 2^32 - 1, and the origin
 * moves by that many periods"; with a period of 0 it "always answers 1 and doesn't move". */
static uint32_t check(struct phel_timer *t, uint64_t now)
{
    uint64_t periods;
    if (t->period == 0)
        return bent(ZeroPeriodSilent) ? 0 : 1;
    if (now < next_instant(t) || (bent(FiresLate) && now == next_instant(t)))
        return 0;
    periods = least((now - t->last) / t->period, BIT(32) - 1);
    t->last = bent(MovesToNow) ? now : t->last + periods * t->period;
    return bent(AnswersOne) ? 1 : (uint32_t)periods;
}

struct model_timer_answer model_timer_new(uint64_t now, uint64_t period)
{
    struct model_timer_answer a = {period_refusal(period), 0, {0, 0}};
    if (a.refusal == 0)
        a.refusal = time_refusal(now);
    if (a.refusal == 0)
        a.timer = timer_of(now, period);
    return a;
}

struct phel_nanoseconds_answer model_timer_period(struct phel_timer timer)
{
    const bool kept = timer_kept(&timer);
    const struct phel_nanoseconds_answer a = {kept ? 0 : PHEL_BAD_STATE, kept ? timer.period : 0};
    return a;
}

struct phel_nanoseconds_answer model_timer_next_instant(struct phel_timer timer)
{
    const bool kept = timer_kept(&timer);
    const struct phel_nanoseconds_answer a = {kept ? 0 : PHEL_BAD_STATE, kept ? next_instant(&timer) : 0};
    return a;
}

struct model_timer_answer model_timer_reset(struct phel_timer timer, uint64_t now)
{
    struct model_timer_answer a = {timer_kept(&timer) ? time_refusal(now) : PHEL_BAD_STATE, 0, timer};
    if (a.refusal == 0)
        a.timer.last = now;
    return a;
}

struct model_timer_answer model_timer_set_period(struct phel_timer timer, uint64_t period)
{
    struct model_timer_answer a = {period_refusal(period), 0, timer};
    if (a.refusal == 0 && !timer_kept(&timer))
        a.refusal = PHEL_BAD_STATE;
    if (a.refusal == 0)
        set_period(&a.timer, period);
    return a;
}

struct model_timer_answer model_timer_check_expired(struct phel_timer timer, uint64_t now)
{
    struct model_timer_answer a = {timer_kept(&timer) ? time_refusal(now) : PHEL_BAD_STATE, 0, timer};
    if (a.refusal == 0)
        a.periods = check(&a.timer, now);
    return a;
}

/* ---- All timers: "RTT periods and the next wake-up are as calculate_periods and next_timer" */

static uint64_t nak_period(struct phel_rtt r)
{
    const uint64_t mean = r.mean * (uint64_t)1000, spread = 4 * (r.variance * (uint64_t)1000);
    const uint64_t period = bent(NakHalvedFirst) ? mean / 2 + spread : (mean + spread) / 2;
    return bent(NakAtMost) ? least(period, 20 * MS) : most(period, 20 * MS);
}

/* "EXP is held at 10^15": before the count multiplies it. */
static uint64_t exp_period(uint64_t count, struct phel_rtt r)
{
    const uint64_t once = 4 * (r.mean * (uint64_t)1000) + r.variance * (uint64_t)1000 + 10 * MS;
    const uint64_t one = bent(ExpFloorOnce) ? once : most(once, 300 * MS);
    const uint64_t times = bent(ExpOnce) ? 1 : count;
    const uint64_t period = PERIOD_MOST / one < times ? PERIOD_MOST : times * one;
    return bent(ExpFloorOnce) ? most(period, 300 * MS) : period;
}

static void set_rtt(struct phel_timers *t, struct phel_rtt r)
{
    set_period(&t->full_ack, 10 * MS);
    set_period(&t->nak, nak_period(r));
    set_period(&t->exp, exp_period(t->exp_count, r));
}

/* "The idle timer moves on even where EXP count 16 or less keeps it silent"; the count is held at 2^32 - 1. */
static uint32_t check_idle(struct phel_timers *t, uint64_t now)
{
    const struct phel_timer before = t->peer_idle;
    const bool silent = t->exp_count < (bent(CountSixteen) ? 16 : 17);
    uint32_t idle;
    if (check(&t->exp, now) == 0)
        return 0;
    idle = check(&t->peer_idle, now);
    if (silent && bent(IdleStays))
        t->peer_idle = before;
    idle = silent ? 0 : idle;
    if ((idle == 0 || bent(CountAlways)) && !bent(CountNever))
        t->exp_count += t->exp_count < UINT32_MAX;
    return idle;
}

struct phel_timers_answer model_timers_new(uint64_t now, uint64_t statistics, uint64_t idle)
{
    const struct phel_rtt start = {100000, 50000};
    struct phel_timers_answer a;
    memset(&a, 0, sizeof a);
    a.refusal = period_refusal(most(statistics, idle));
    if (a.refusal == 0)
        a.refusal = time_refusal(now);
    if (a.refusal != 0)
        return a;
    a.timers.exp_count = 1;
    a.timers.snd = timer_of(now, MS);
    a.timers.full_ack = a.timers.nak = a.timers.exp = a.timers.snd;
    a.timers.peer_idle = timer_of(now, idle);
    a.timers.statistics = timer_of(now, statistics);
    set_rtt(&a.timers, start);
    return a;
}

struct phel_nanoseconds_answer model_timers_next_timer(struct phel_timers timers, uint64_t now, bool packets, bool known,
                                                       uint64_t message, uint32_t unacked)
{
    struct phel_nanoseconds_answer a = {timers_kept(&timers) ? time_refusal(known ? most(now, message) : now)
                                                             : PHEL_BAD_STATE, 0};
    if (a.refusal != 0)
        return a;
    a.nanoseconds = least(next_instant(&timers.nak), next_instant(&timers.exp));
    if (known)
        a.nanoseconds = least(a.nanoseconds, message);
    if (unacked > 0 || bent(WakeAlwaysAck))
        a.nanoseconds = least(a.nanoseconds, next_instant(&timers.full_ack));
    if (packets && !bent(WakeSendingIgnored))
        a.nanoseconds = least(a.nanoseconds, next_instant(&timers.snd));
    if (bent(WakeIdle))
        a.nanoseconds = least(a.nanoseconds, next_instant(&timers.peer_idle));
    if (!bent(WakePast))
        a.nanoseconds = most(a.nanoseconds, now);
    return a;
}

/* The timers with 3 or |number| told, or neither. */
static struct phel_timers_answer judged(const struct phel_timers *timers, uint32_t number)
{
    const struct phel_timers_answer a = {timers_kept(timers) ? number : PHEL_BAD_STATE, 0, *timers};
    return a;
}

#define CHECKED(name, checks) \
    struct phel_timers_answer model_timers_check_##name(struct phel_timers timers, uint64_t now) \
    { \
        struct phel_timers_answer a = judged(&timers, time_refusal(now)); \
        a.periods = a.refusal == 0 ? checks : 0; \
        return a; \
    }
CHECKED(snd, check(&a.timers.snd, now))
CHECKED(full_ack, check(&a.timers.full_ack, now))
CHECKED(nak, check(&a.timers.nak, now))
CHECKED(statistics, check(&a.timers.statistics, now))
CHECKED(peer_idle_timeout, check_idle(&a.timers, now))

struct phel_timers_answer model_timers_update_snd_period(struct phel_timers timers, uint64_t period)
{
    struct phel_timers_answer a = judged(&timers, 0);
    if (period > PERIOD_MOST)
        a.refusal = PHEL_BAD_SETTING;
    if (a.refusal == 0)
        set_period(&a.timers.snd, period);
    return a;
}

struct phel_timers_answer model_timers_update_rtt(struct phel_timers timers, struct phel_rtt rtt)
{
    struct phel_timers_answer a = judged(&timers, rtt_kept(&rtt) ? 0 : PHEL_BAD_RTT);
    if (a.refusal == 0)
        set_rtt(&a.timers, rtt);
    return a;
}

struct phel_timers_answer model_timers_reset_exp(struct phel_timers timers, uint64_t now)
{
    struct phel_timers_answer a = judged(&timers, time_refusal(now));
    if (a.refusal != 0)
        return a;
    a.timers.exp_count = 1;
    if (!bent(ResetIdleStays))
        a.timers.peer_idle.last = now;
    if (bent(ResetExpOrigin))
        a.timers.exp.last = now;
    return a;
}
