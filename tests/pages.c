/* pages.c: memory between two pages that fault. */
#define _DEFAULT_SOURCE
#include <sys/mman.h>
#include <unistd.h>
#include "pages.h"

size_t page_bytes(void)
{
    return (size_t)sysconf(_SC_PAGESIZE);
}

uint8_t *pages_open(size_t bytes, size_t *room)
{
    const size_t page = page_bytes();
    uint8_t *at;
    *room = (bytes + page - 1) / page * page;
    at = mmap(NULL, *room + 2 * page, PROT_NONE, MAP_PRIVATE | MAP_ANONYMOUS, -1, 0);
    if (at == MAP_FAILED || mprotect(at + page, *room, PROT_READ | PROT_WRITE) != 0)
        return NULL;
    return at + page;
}
