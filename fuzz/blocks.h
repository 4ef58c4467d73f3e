/* What a fuzzer is told of a run: which blocks of the library's code it was the first to reach, and what kind of answer came out. */
#ifndef JOGASMUN_BLOCKS_H
#define JOGASMUN_BLOCKS_H

#include <stdint.h>

/* Tells the kind of an answer: its number, and the place and counts by their size. */
void blocks_seen(int call, uint32_t number, uint64_t place, const uint64_t *entries, int count);

#endif
