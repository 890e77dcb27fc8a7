#include "notes.h"

static uint8_t noted[NOTE_KINDS * 256] SHOWN;

void note(unsigned kind, unsigned value)
{
    noted[kind * 256 + value % 256] = 1;
}

unsigned size_of(uint64_t count)
{
    unsigned size = (unsigned)(count < 4 ? count : 2);
    for (; count >= 4; count /= 2)
        size++;
    return size;
}
