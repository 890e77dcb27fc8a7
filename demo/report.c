/* report.c: a line of the table for each quarter of an hour, and a line of figures for each half minute. */
#include "story.h"

#include <inttypes.h>

#define HALF_MINUTE (30 * SECOND)
#define QUARTER (15 * 60 * SECOND)

static struct {
    FILE *csv;
    struct tally *tally;
    struct tally line, row, rollover; /* the counts at the last line, at the last row, and at the rollover */
    uint64_t most; /* the most that was buffered since the last row */
    uint64_t due;
} report;

/* The clock on the wall, rounded to seconds. */
static const char *wall(uint64_t now)
{
    static char text[32];
    const unsigned s = (unsigned)((now + SECOND / 2) / SECOND) + 5 * 3600;
    snprintf(text, sizeof text, "%u:%02u:%02u", s / 3600, s / 60 % 60, s % 60);
    return text;
}

/* What was counted since |before|; |*before| becomes what is counted now. */
static struct tally since(struct tally *before)
{
    struct tally d = *report.tally;
    for (int i = 0; i < COUNTS; i++)
        d.count[i] -= before->count[i];
    *before = *report.tally;
    return d;
}

static void write_line(uint64_t now)
{
    const struct tally d = since(&report.line);
    if (d.most > report.most)
        report.most = d.most;
    report.tally->most = 0;
    fprintf(report.csv, "%" PRIu64 ",%s,%.3f,%" PRIu64, now / SECOND, wall(now),
            (double)d.count[HELD] / (double)HALF_MINUTE, d.most);
    for (int i = FIRST; i <= REMOVED; i++)
        fprintf(report.csv, ",%" PRIu64, d.count[i]);
    fprintf(report.csv, ",%" PRIu64 ",%" PRIu64 "\n", d.count[MADE], d.count[ARRIVED]);
}

static void write_row(uint64_t now)
{
    const struct tally d = since(&report.row);
    printf(" %s", wall(now));
    printf(" %9" PRIu64 " %9" PRIu64, d.count[MADE], d.count[ARRIVED]);
    printf(" %11" PRIu64 " %8" PRIu64 " %8" PRIu64, d.count[FIRST], d.count[BY_LOSS], d.count[BY_TIME]);
    printf(" %8" PRIu64 " %12" PRIu64 " %9" PRIu64 "\n", d.count[DROPPED], d.count[REMOVED], report.most);
    report.most = 0;
}

void report_step(uint64_t now)
{
    if (now < report.due)
        return;
    if (now == ROLLOVER) {
        report.rollover = *report.tally;
        printf(" %s --------------- the 32-bit stamp rolls over to 0; pictures under way: %" PRIu64, wall(now),
               report.tally->count[MADE] - report.tally->count[ARRIVED]);
        puts(" ---------------");
    } else {
        write_line(now);
        if (now % QUARTER == 0)
            write_row(now);
    }
    const uint64_t next = (now / HALF_MINUTE + 1) * HALF_MINUTE;
    report.due = now < ROLLOVER && next > ROLLOVER ? ROLLOVER : next;
}

void report_start(FILE *csv, struct tally *tally)
{
    report.csv = csv;
    report.tally = tally;
    report.due = HALF_MINUTE;
    fprintf(csv, "second,clock,buffered,most_buffered,sent,by_loss,by_time,dropped,removed,made,arrived\n");
    puts("          pictures  pictures   packets     resent   resent  dropped   removed by      most");
    puts("   until      made   arrived  sent first  by loss  by time     late  full buffer  buffered");
}

uint64_t report_due(void)
{
    return report.due;
}

const struct tally *report_rollover(void)
{
    return &report.rollover;
}
