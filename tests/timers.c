/* timers.c: the timers' calls, each made by the library and by the model, and their cases. */
#include "outside.h"

static const uint64_t TIME_LIMIT = BIT(58), PERIOD_MOST = 1000000000000000;

/* The calls that take a time: by phelgomrit.h, by the entry, by the model. */
static const struct {
    int (*call)(struct phel_timers *t, uint64_t now, uint32_t *periods);
    struct phel_timers_answer (*entry)(struct phel_timers t, uint64_t now);
    struct phel_timers_answer (*model)(struct phel_timers t, uint64_t now);
} checks[] = {
    {phel_timers_check_snd, phel_entry_timers_check_snd, model_timers_check_snd},
    {phel_timers_check_full_ack, phel_entry_timers_check_full_ack, model_timers_check_full_ack},
    {phel_timers_check_nak, phel_entry_timers_check_nak, model_timers_check_nak},
    {phel_timers_check_statistics, phel_entry_timers_check_statistics, model_timers_check_statistics},
    {phel_timers_check_peer_idle_timeout, phel_entry_timers_check_peer_idle_timeout,
     model_timers_check_peer_idle_timeout},
};
enum { CHECKS = sizeof checks / sizeof checks[0], IDLE = CHECKS - 1 };

/* What a call of the timers may bring; each call takes what it has use for. */
struct brought {
    uint64_t now;
    uint64_t period;
    struct phel_rtt rtt;
    const uint64_t *message;
};

/* Holds a call's number against the model's; the answer is the number, bent where that bend is in force. */
static int settle_number(enum entry e, int number, uint32_t by)
{
    if (bent == 2 && number == PHEL_BAD_STATE)
        number = 0;
    count_call(e, number);
    check((uint32_t)number == by, "another number than document 01 gives");
    return number;
}

/* After a call: the number and the timers are the model's; a refused call left every byte of |before|. */
static int settle_timers(enum entry e, int number, const struct phel_timers *t, const struct phel_timers *before,
                         const struct phel_timers_answer *by)
{
    number = settle_number(e, number, by->refusal);
    if (number != 0) {
        check(memcmp(before, t, sizeof *t) == 0, "a refused call changed the timers");
        return number;
    }
    check(same_timers(&by->timers, t), "the timers are others afterwards");
    check(model_timers_next_timer(*t, 0, false, false, 0, 0).refusal == 0,
          "an accepted call left timers that break a rule");
    return number;
}

/* A check: its number, what it finds, and the timers afterwards; now and then it isn't asked what it finds. */
static int do_check(int which, struct phel_timers *t, uint64_t now)
{
    const struct phel_timers_answer by = checks[which].model(*t, now);
    const bool asked = now % 3 != 2;
    struct phel_timers before;
    uint32_t periods = 0xeeeeeeee;
    int number;
    memcpy(&before, t, sizeof before);
    number = checks[which].call(t, now, asked ? &periods : NULL);
    number = settle_timers(E_CHECK_SND + (enum entry)which, number, t, &before, &by);
    check(periods == (number == 0 && asked ? by.periods : 0xeeeeeeee), "another number of periods");
    return number;
}

/* The calls that set. */
static void do_sets(const struct phel_timers *t, const struct brought *b)
{
    const struct phel_timers_answer by[3] = {model_timers_update_snd_period(*t, b->period),
                                             model_timers_update_rtt(*t, b->rtt), model_timers_reset_exp(*t, b->now)};
    for (int i = 0; i < 3; i++) {
        struct phel_timers copy;
        int number;
        memcpy(&copy, t, sizeof copy);
        number = i == 0   ? phel_timers_update_snd_period(&copy, b->period)
                 : i == 1 ? phel_timers_update_rtt(&copy, &b->rtt)
                          : phel_timers_reset_exp(&copy, b->now);
        settle_timers(E_SND_PERIOD + (enum entry)i, number, &copy, t, &by[i]);
    }
}

static int do_next_timer(const struct phel_timers *t, const struct brought *b, bool packets, uint32_t unacked)
{
    const bool known = b->message != NULL;
    const struct phel_nanoseconds_answer by =
        model_timers_next_timer(*t, b->now, packets, known, known ? *b->message : 0, unacked);
    uint64_t wake = 0xeeeeeeee;
    int number = phel_timers_next_timer(t, b->now, packets, b->message, unacked, &wake);
    number = settle_number(E_NEXT_TIMER, number, by.refusal);
    check(wake == (number != 0 ? 0xeeeeeeee : by.nanoseconds), "another wake-up");
    return number;
}

static int do_timers_new(struct phel_timers *t, uint64_t now, uint64_t statistics, uint64_t idle)
{
    const struct phel_timers_answer by = model_timers_new(now, statistics, idle);
    struct phel_timers before;
    memcpy(&before, t, sizeof before);
    return settle_timers(E_TIMERS_NEW, phel_timers_new(t, now, statistics, idle), t, &before, &by);
}

/* Every call of the timers on copies of |t|, at a few times. */
static void all_calls(const struct phel_timers *t)
{
    static const uint64_t late = BIT(58), soon = 700;
    const struct brought brought[] = {
        {0, 0, {0, 0}, NULL},
        {1000000, 1000, {100000, 50000}, &soon},
        {123456789012, PERIOD_MOST, {100000000, 100000000}, &soon},
        {TIME_LIMIT - 1, 999, {1, 1}, NULL},
        {TIME_LIMIT, PERIOD_MOST + 1, {100000001, 0}, NULL},
        {UINT64_MAX, UINT64_MAX, {0, 100000001}, NULL},
        {1, 1, {UINT32_MAX, UINT32_MAX}, &late},
    };
    for (size_t i = 0; i < sizeof brought / sizeof brought[0]; i++) {
        for (int which = 0; which < CHECKS; which++) {
            struct phel_timers copy;
            memcpy(&copy, t, sizeof copy);
            do_check(which, &copy, brought[i].now);
        }
        do_sets(t, &brought[i]);
        do_next_timer(t, &brought[i], i % 2 == 0, i % 3 == 0);
    }
}

/* Each word of the timers damaged in turn. */
static void damage_timers(const struct phel_timers *t)
{
    for (size_t at = 0; at < sizeof *t; at += 8)
        for (size_t which = 0; which < damages(); which++) {
            struct phel_timers copy;
            memcpy(&copy, t, sizeof copy);
            snprintf(scene, sizeof scene, "timers, byte %zu damaged, way %zu", at, which);
            damage_word((uint8_t *)&copy + at, at == offsetof(struct phel_timers, exp_count) ? 4 : 8, which);
            all_calls(&copy);
        }
}

/* A peer that falls silent: EXP's count goes up to 17, and then the idle timer is heard. */
static void silence(struct phel_timers *t)
{
    uint64_t now = 0;
    uint32_t periods = 0;
    snprintf(scene, sizeof scene, "timers, a silent peer");
    for (int i = 0; i < 40 && periods == 0; i++) {
        now += 3000000000;
        now -= now % 3; /* so that do_check asks for the periods */
        periods = model_timers_check_peer_idle_timeout(*t, now).periods;
        do_check(IDLE, t, now);
        check((periods > 0) == (i == 16), "the idle timer is heard at another time");
    }
    check(t->exp_count == 17, "EXP's count is another");
    count_call(E_RESET_EXP, phel_timers_reset_exp(t, now));
    check(t->exp_count == 1, "EXP's count does not begin again");
}

/* The entries themselves: a refused call gives back what it was given, a refused new one zeros. */
static void timers_given_back(const struct phel_timers *t)
{
    struct phel_timers bad = *t, zeros;
    const struct phel_rtt rtt = {0, 0};
    struct phel_timers_answer r[CHECKS + 4];
    memset(&zeros, 0, sizeof zeros);
    bad.exp_count = 0;
    for (int i = 0; i < CHECKS; i++)
        r[i] = checks[i].entry(bad, 1);
    r[CHECKS] = phel_entry_timers_update_snd_period(bad, 1);
    r[CHECKS + 1] = phel_entry_timers_update_rtt(bad, rtt);
    r[CHECKS + 2] = phel_entry_timers_reset_exp(bad, 1);
    r[CHECKS + 3] = phel_entry_timers_new(TIME_LIMIT, 0, 0);
    for (int i = 0; i < CHECKS + 4; i++) {
        const bool made = i == CHECKS + 3;
        check(r[i].refusal == (made ? PHEL_BAD_TIME : PHEL_BAD_STATE) && r[i].periods == 0 &&
                  same_timers(&r[i].timers, made ? &zeros : &bad),
              "an entry does not give the timers back");
    }
}

void timers_cases(void)
{
    struct phel_timers t;
    memset(&t, 0xee, sizeof t);
    snprintf(scene, sizeof scene, "timers, new");
    do_timers_new(&t, TIME_LIMIT, 0, 0);
    do_timers_new(&t, TIME_LIMIT, PERIOD_MOST + 1, 0);
    do_timers_new(&t, 0, 0, PERIOD_MOST + 1);
    do_timers_new(&t, UINT64_MAX, UINT64_MAX, UINT64_MAX);
    do_timers_new(&t, TIME_LIMIT - 1, PERIOD_MOST, PERIOD_MOST);
    all_calls(&t);
    do_timers_new(&t, 5, 7, 1001);
    timers_given_back(&t);
    all_calls(&t);
    damage_timers(&t);
    silence(&t);
    t.exp_count = UINT32_MAX;
    t.snd.period = 0;
    damage_timers(&t);
}
