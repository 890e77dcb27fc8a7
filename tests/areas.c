/* areas.c: the lent areas, each between pages that fault, and what is said where one of them is touched. */
#define _DEFAULT_SOURCE
#include <signal.h>
#include <unistd.h>
#include "outside.h"
#include "pages.h"

#define AREAS_MOST 16
static struct area opened[AREAS_MOST];
static size_t opened_len, page;

/* Opens room for at least |room| bytes. */
void area_open(struct area *a, const char *name, size_t room)
{
    page = page_bytes();
    a->name = name;
    a->begin = pages_open(room, &a->room);
    if (a->begin == NULL || opened_len == AREAS_MOST) {
        fprintf(stderr, "outside: no memory for %s\n", name);
        exit(1);
    }
    opened[opened_len++] = *a;
}

/* An area of |bytes| that ends right before the upper page, or begins right after the lower one. */
void *area_at(const struct area *a, size_t bytes)
{
    if (bytes > a->room) {
        fprintf(stderr, "outside: %s has no room for %zu bytes\n", a->name, bytes);
        exit(1);
    }
    return side == AT_END ? a->begin + a->room - bytes : a->begin;
}

/* Says which area was left, and ends the test. */
static void faulted(int signal, siginfo_t *info, void *context)
{
    const uint8_t *at = info->si_addr;
    (void)signal;
    (void)context;
    for (size_t i = 0; i < opened_len; i++) {
        const uint8_t *end = opened[i].begin + opened[i].room;
        if (at >= end && at < end + page)
            printf("outside: touched %zu bytes past the end of %s", (size_t)(at - end), opened[i].name);
        else if (at < opened[i].begin && at >= opened[i].begin - page)
            printf("outside: touched %zu bytes before %s", (size_t)(opened[i].begin - at), opened[i].name);
    }
    printf("\noutside: a fault in: %s\n", scene);
    fflush(stdout);
    _exit(1);
}

void areas_watch(void)
{
    struct sigaction act;
    memset(&act, 0, sizeof act);
    act.sa_sigaction = faulted;
    act.sa_flags = SA_SIGINFO;
    sigaction(SIGSEGV, &act, NULL);
    sigaction(SIGBUS, &act, NULL);
}
