/* What the fuzzer is shown. The archive was compiled without coverage, so the harness notes what the library answers in
 * bytes that libFuzzer takes for coverage: an input that brings a new answer is kept and changed further. */
#ifndef NOTES_H
#define NOTES_H

#include <stddef.h>
#include <stdint.h>

/* The kinds of things noted, each with 256 values. */
enum note { NOTE_ENTRY, NOTE_STEP = 32, NOTE_COUNT = 64, NOTE_RECORD = 80, NOTE_SHAPE = 96, NOTE_KINDS = 112 };

/* libFuzzer reads and clears the variables of this section around each input. */
#define SHOWN __attribute__((section("__libfuzzer_extra_counters"), used))

void note(unsigned kind, unsigned value);

/* A count by its size: 0, 1, 2, 3, then by powers of two. */
unsigned size_of(uint64_t count);

#endif
