/* Shows the fuzzer which blocks of the archive an input is the first to reach: a breakpoint stands on each, and is
 * taken away when it is met, so that the code runs at full speed from then on.
 *
 * fuzz/run links the program, lists where the archive's blocks begin and names the list in FUZZ_BLOCKS. */
#define _GNU_SOURCE
#include "areas.h"
#include "notes.h"

#include <signal.h>
#include <stdio.h>
#include <stdlib.h>
#include <string.h>
#include <sys/mman.h>
#include <ucontext.h>

enum { BLOCKS_MOST = 4096, PAGE = 4096, BREAKPOINT = 0xcc };

static uint8_t reached[BLOCKS_MOST] SHOWN;

/* Where the blocks begin, ascending, and the byte that stood there. */
static uintptr_t starts[BLOCKS_MOST];
static uint8_t bytes[BLOCKS_MOST];
static size_t blocks;
static size_t met;

static int compare(const void *a, const void *b)
{
    const uintptr_t x = *(const uintptr_t *)a, y = *(const uintptr_t *)b;
    return (x > y) - (x < y);
}

/* A breakpoint was met: the block's byte is put back, and the code goes on there. */
static void on_trap(int signal, siginfo_t *info, void *context)
{
    (void)info;
    greg_t *registers = ((ucontext_t *)context)->uc_mcontext.gregs;
    const uintptr_t start = (uintptr_t)registers[REG_RIP] - 1;
    const uintptr_t *found = bsearch(&start, starts, blocks, sizeof start, compare);
    if (found == NULL) {
        raise(signal == SIGTRAP ? SIGABRT : signal);
        return;
    }
    const size_t block = (size_t)(found - starts);
    *(uint8_t *)start = bytes[block];
    registers[REG_RIP] = (greg_t)start;
    reached[block] = 1;
    met++;
}

static void read_blocks(const char *name)
{
    FILE *file = fopen(name, "r");
    unsigned long start;
    while (file != NULL && blocks < BLOCKS_MOST && fscanf(file, "%lx", &start) == 1)
        starts[blocks++] = start;
    must(file != NULL && blocks > 0 && feof(file), "the list of blocks can't be read");
    fclose(file);
    qsort(starts, blocks, sizeof starts[0], compare);
}

static void set_breakpoints(void)
{
    for (size_t i = 0; i < blocks; i++) {
        uint8_t *at = (uint8_t *)starts[i];
        void *page = (void *)(starts[i] / PAGE * PAGE);
        must(mprotect(page, PAGE, PROT_READ | PROT_WRITE | PROT_EXEC) == 0, "the code can't be written");
        bytes[i] = *at;
        *at = BREAKPOINT;
    }
}

static void tell(void)
{
    fprintf(stderr, "blocks of the library reached: %zu of %zu\n", met, blocks);
}

int LLVMFuzzerInitialize(int *count, char ***words)
{
    (void)count;
    (void)words;
    const char *name = getenv("FUZZ_BLOCKS");
    if (name == NULL)
        return 0;
    struct sigaction action;
    memset(&action, 0, sizeof action);
    action.sa_sigaction = on_trap;
    action.sa_flags = SA_SIGINFO;
    sigaction(SIGTRAP, &action, NULL);
    read_blocks(name);
    set_breakpoints();
    atexit(tell);
    return 0;
}
