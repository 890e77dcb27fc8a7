/* pacing.c: document 01's "Pacing": rates estimated every 100 ms, and the period from them. */
#include "inside.h"

static const uint64_t STEP = 100000;
static bool estimated; /* for a bend: an estimate was made since pacing was new */

struct phel_pacing new_pacing(uint32_t mode, uint64_t rate, uint64_t overhead)
{
    struct phel_pacing p;
    memset(&p, 0, sizeof p);
    p.mode = mode;
    p.rate = rate;
    p.overhead = overhead;
    estimated = false;
    return p;
}

/* "Rate = floor(count x 1,000,000 / elapsed); with mean and variance 0 mean = rate, else (mean + rate) / 2 if rate is
 * above mean, else (7 x mean + rate) / 8, then variance = (3 x variance + |new mean - rate|) / 4" */
static void estimate(struct phel_estimate *e, uint64_t elapsed)
{
    const uint64_t rate = e->count * 1000000 / elapsed, old = e->mean;
    const bool fresh = bent(FirstOnly) ? !estimated : e->mean == 0 && e->variance == 0;
    uint64_t from;
    e->count = 0;
    if (fresh)
        e->mean = rate;
    else
        e->mean = rate > old || bent(SlowFast) ? (old + rate) / 2 : (7 * old + rate) / 8;
    from = bent(VarianceOldMean) && !fresh ? old : e->mean;
    e->variance = (3 * e->variance + (from < rate ? rate - from : from - rate)) / 4;
}

static uint64_t with_overhead(uint64_t rate, uint64_t overhead)
{
    return bent(OverheadDividedFirst) ? rate / 100 * (100 + overhead) : rate * (100 + overhead) / 100;
}

/* "the set rate or max(expected, measured), times (100 + overhead) / 100 rounded down; or the maximum; or
 * 125,000,000" */
static uint64_t allowed(const struct phel_pacing *p)
{
    switch (p->mode) {
    case PHEL_MODE_MAX: return p->rate;
    case PHEL_MODE_UNLIMITED: return 125000000;
    case PHEL_MODE_ESTIMATED: return with_overhead(most(p->rate, bent(ExpectedOnly) ? 0 : p->bytes.mean), p->overhead);
    default: return with_overhead(p->rate, p->overhead);
    }
}

/* "Period = floor(1,000,000 x floor(byte rate / packet rate) / allowed), held at 10^12 us; 1 us where that is 0 or a
 * divisor is 0." */
static uint64_t period_of(const struct phel_pacing *p)
{
    uint64_t period;
    if (p->packets.mean == 0 || allowed(p) == 0)
        return 1;
    period = least(1000000 * (p->bytes.mean / p->packets.mean) / allowed(p), 1000000000000);
    return bent(ZeroPeriodKept) ? period : most(period, 1);
}

/* "elapsed = 100,000 x (1 + floor((now - next) / 100,000)), next moves by it" */
static uint64_t make_estimate(struct phel_pacing *p, uint64_t now)
{
    const uint64_t elapsed = bent(OnePeriod) ? STEP : STEP * (1 + (now - p->next) / STEP);
    p->next = bent(NextFromNow) ? now + STEP : p->next + elapsed;
    estimate(&p->packets, elapsed);
    estimate(&p->bytes, elapsed);
    estimated = true;
    return period_of(p);
}

static void add(struct phel_pacing *p, uint64_t packets, uint64_t bytes)
{
    p->packets.count += packets;
    p->bytes.count += bytes + (bent(WireBytes) ? packets : 0);
}

/* An input: "the estimate is made before this input is added"; the answer is a new period, or 0. */
uint64_t pace(struct phel_pacing *p, uint64_t now, uint64_t packets, uint64_t bytes)
{
    const bool begun = p->begun == 1, due = begun && p->next <= now;
    uint64_t period = 0;
    if (bent(InputFirst))
        add(p, packets, bytes);
    if (!begun) { /* "First input sets next = now + 100,000 and gives nothing." */
        p->begun = 1;
        p->next = now + STEP;
    } else if (due) {
        period = make_estimate(p, now);
    }
    if (!bent(InputFirst) && (begun || !bent(FirstInputLost)))
        add(p, packets, bytes);
    return period;
}

/* "packets or payload bytes since the last estimate (one due now taken as made), with this message, pass 2^38" */
bool pacing_full(const struct phel_pacing *p, uint64_t now, uint64_t packets, uint64_t bytes)
{
    const bool due = p->begun == 1 && p->next <= now;
    return packets > BIT(38) - (due ? 0 : p->packets.count) || bytes > BIT(38) - (due ? 0 : p->bytes.count);
}

struct model_pacing_answer model_pacing_new(uint32_t mode, uint64_t rate, uint64_t overhead)
{
    const struct model_pacing_answer a = {mode_kept(mode, rate, overhead) ? 0 : PHEL_BAD_SETTING, 0,
                                          new_pacing(mode, rate, overhead)};
    return a;
}

struct model_pacing_answer model_pacing_on_input(struct phel_pacing pacing, uint64_t now, uint64_t packets,
                                                 uint64_t bytes)
{
    struct model_pacing_answer a = {0, 0, pacing};
    if (!pacing_kept(&pacing))
        a.refusal = PHEL_BAD_STATE;
    else if (now >= BIT(48))
        a.refusal = PHEL_BAD_TIME;
    else if (pacing_full(&pacing, now, packets, bytes))
        a.refusal = PHEL_COUNT_FULL;
    else
        a.period = pace(&a.pacing, now, packets, bytes);
    return a;
}
