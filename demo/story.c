/* story.c: the hub's morning, from 5:00:00 to 6:30:00.
 *
 *   story CSV              every picture must arrive
 *   story --on-stamp CSV   the same, with lateness judged on the stamp: none may arrive from the rollover on
 *
 * It prints a table and writes the figures to CSV. Status 0 where it ends as said above, 1 where not, 2 where something
 * else went wrong. */
#include "story.h"

#include <inttypes.h>
#include <string.h>

static struct link to_desk, to_hub;
static struct tally tally;

/* Moves the clock on to what happens next. */
static uint64_t next_event(uint64_t now)
{
    const uint64_t due[] = {hub_due(), receiver_due(), report_due(), link_due(&to_desk), link_due(&to_hub)};
    uint64_t next = due[0];
    for (size_t i = 1; i < sizeof due / sizeof due[0]; i++)
        if (due[i] < next)
            next = due[i];
    tally.count[HELD] += (next - now) * hub_buffered();
    return next;
}

/* All that happens at |now|. */
static void happen(uint64_t now)
{
    report_step(now);
    while (link_due(&to_desk) <= now)
        receiver_hear(now, link_take(&to_desk));
    receiver_step(now);
    while (link_due(&to_hub) <= now)
        hub_hear(now, link_take(&to_hub));
    hub_step(now);
    if (hub_buffered() > tally.most)
        tally.most = hub_buffered();
}

/* The whole run: every picture that was made has arrived. */
static bool all_arrived(void)
{
    const uint64_t made = tally.count[MADE], arrived = tally.count[ARRIVED];
    if (arrived != made || made == 0) {
        printf("pictures are missing: %" PRIu64 " of %" PRIu64 " arrived\n", arrived, made);
        return false;
    }
    printf("every picture arrived: %" PRIu64 " of %" PRIu64, arrived, made);
    printf(" (the slowest took %" PRIu64 " ms)\n", receiver_slowest() / MILLISECOND);
    return true;
}

/* The run on the stamp: all that was made before the rollover arrived, and each packet made after it was dropped. */
static bool all_lost(void)
{
    const struct tally *before = report_rollover();
    const uint64_t fresh = tally.count[PACKETS] - before->count[PACKETS];
    const uint64_t pictures = tally.count[MADE] - before->count[MADE];
    const bool lost = tally.count[DROPPED] == fresh && tally.count[FIRST] == before->count[PACKETS];
    if (pictures == 0 || !lost || tally.count[ARRIVED] != before->count[MADE]) {
        puts("this run does not show what judging lateness on the stamp leads to");
        return false;
    }
    printf("from the rollover on every fresh packet was dropped as late: %" PRIu64, fresh);
    printf("; no picture arrived: 0 of %" PRIu64 "\n", pictures);
    return true;
}

int main(int argc, char **argv)
{
    const bool on_stamp = argc == 3 && strcmp(argv[1], "--on-stamp") == 0;
    FILE *csv = argc == 2 || on_stamp ? fopen(argv[argc - 1], "w") : NULL;
    if (csv == NULL) {
        fprintf(stderr, "usage: story [--on-stamp] CSV\n");
        return 2;
    }
    puts(on_stamp ? "Lateness judged on the 32-bit stamp:" : "Lateness judged on the whole time:");
    link_start(&to_desk, 5);
    link_start(&to_hub, 6);
    hub_start(on_stamp, &to_desk, &tally);
    receiver_start(&to_hub, &tally);
    report_start(csv, &tally);
    for (uint64_t now = 0; now < END;) {
        now = next_event(now);
        happen(now);
    }
    if (fclose(csv) != 0)
        return 2;
    return (on_stamp ? all_lost() : all_arrived()) ? 0 : 1;
}
