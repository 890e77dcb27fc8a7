/* tally.c: how often each call gave each number, and what failed. */
#include "outside.h"

char scene[200] = "start";
static long failures;

static const struct {
    const char *name;
    const char *may; /* a 1 for each number that document 01 lets the call answer, from 0 to 14 */
} entries[ENTRIES] = {
    /* 0 to 14:                                              012345678901234 */
    [E_NEW] =                {"new",                        "110000000000000"},
    [E_MESSAGE] =            {"message",                    "101111100000000"},
    [E_ACK] =                {"ack",                        "101100011111000"},
    [E_NAK] =                {"nak",                        "101100000000110"},
    [E_RUN] =                {"run",                        "101110000000010"},
    [E_PAYLOAD] =            {"payload",                    "101100010000001"},
    [E_REPORTS] =            {"reports",                    "101100000000000"},
    [E_HEADER] =             {"header",                     "100000000000000"},
    [E_TIMERS_NEW] =         {"timers_new",                 "110010000000000"},
    [E_NEXT_TIMER] =         {"timers_next_timer",          "100110000000000"},
    [E_CHECK_SND] =          {"timers_check_snd",           "100110000000000"},
    [E_CHECK_FULL_ACK] =     {"timers_check_full_ack",      "100110000000000"},
    [E_CHECK_NAK] =          {"timers_check_nak",           "100110000000000"},
    [E_CHECK_STATISTICS] =   {"timers_check_statistics",    "100110000000000"},
    [E_CHECK_IDLE] =         {"timers_check_peer_idle_timeout", "100110000000000"},
    [E_SND_PERIOD] =         {"timers_update_snd_period",   "110100000000000"},
    [E_UPDATE_RTT] =         {"timers_update_rtt",          "100100001000000"},
    [E_RESET_EXP] =          {"timers_reset_exp",           "100110000000000"},
};

static long counts[ENTRIES][15];

void fail(const char *what)
{
    if (++failures <= 10)
        printf("outside: FAILED: %s: %s\n", scene, what);
    if (bent != 0 && failures == 10) /* noticed */
        exit(1);
}

void check(bool well, const char *what)
{
    if (!well)
        fail(what);
}

void count_call(enum entry e, int number)
{
    if (number < 0 || number > 14 || entries[e].may[number] != '1')
        fail("an answer that document 01 does not know");
    else
        counts[e][number]++;
}

/* Prints how often each call gave each number that it may give; each must have been given. */
bool tally(void)
{
    long calls = 0;
    for (int e = 0; e < ENTRIES; e++) {
        printf("  %-30s", entries[e].name);
        for (int n = 0; n < 15; n++) {
            if (entries[e].may[n] != '1')
                continue;
            if (n == 0)
                printf(" accepted %ld", counts[e][n]);
            else
                printf("  %d: %ld", n, counts[e][n]);
            calls += counts[e][n];
            if (counts[e][n] == 0)
                fail("a count at zero");
        }
        printf("\n");
    }
    printf("  %-30s", "refusals");
    for (int n = 1; n < 15; n++) {
        long all = 0;
        for (int e = 0; e < ENTRIES; e++)
            all += counts[e][n];
        printf(" %d: %ld ", n, all);
    }
    printf("\noutside: %ld calls, %ld failures\n", calls, failures);
    return failures == 0;
}
