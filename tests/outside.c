/* outside.c: the library seen from C. It prints how often each call gave each number, and ends with
 * `outside: N calls, 0 failures`.
 *   outside             the test
 *   outside --bent N    the test with the calls bent in the N-th of three ways (before.c): it must fail */
#include "outside.h"
#include "nulls.h"

int main(int argc, char **argv)
{
    if (argc == 3 && strcmp(argv[1], "--bent") == 0)
        bent = atoi(argv[2]);
    areas_watch();
    desk_open();
    ask_all = true;
    for (int turn = 0; turn < 2; turn++) {
        side = turn == 0 ? AT_END : AT_BEGIN;
        sessions_cases();
        refused_cases();
    }
    ask_all = false;
    random_cases();
    timers_cases();
    damage_cases();
    strcpy(scene, "NULL");
    check(nulls_cases() == 0, "see above");
    strcpy(scene, "the tally");
    return tally() ? 0 : 1;
}
