#define _GNU_SOURCE
#include "blocks.h"
#include <signal.h>
#include <stdio.h>
#include <stdlib.h>
#include <sys/mman.h>
#include <ucontext.h>

enum { MOST_BLOCKS = 8192, KINDS = 16384, SPAN = 1 << 20 };

/* libFuzzer reads these after each run. */
__attribute__((section("__libfuzzer_extra_counters"))) static uint8_t reached[MOST_BLOCKS];
__attribute__((section("__libfuzzer_extra_counters"))) static uint8_t kinds[KINDS];

/* The library's code begins at `base`; a block that is not reached yet has a stop in the place of its first byte. */
static unsigned char *base;
static uint16_t index_of[SPAN];
static unsigned char byte_of[SPAN];
static unsigned blocks, hit;

static void stopped(int signal, siginfo_t *info, void *context) {
    (void)signal;
    (void)info;
    greg_t *at = &((ucontext_t *)context)->uc_mcontext.gregs[REG_RIP];
    size_t offset = (size_t)(*at - 1 - (greg_t)base);
    if (offset >= SPAN || index_of[offset] == 0)
        abort();
    base[offset] = byte_of[offset];
    reached[index_of[offset]] = 1;
    hit++;
    --*at;
}

static void told(void) { fprintf(stderr, "blocks of the library reached: %u of %u\n", hit, blocks); }

extern unsigned char BLOCKS_ANCHOR[];

/* Puts the stops: the file BLOCKS lists the blocks as distances from the anchor, as fuzz/blocks.py writes them; without it there are none. */
__attribute__((constructor)) static void begin(void) {
    const char *name = getenv("BLOCKS");
    FILE *list = name == NULL ? NULL : fopen(name, "r");
    if (list == NULL)
        return;
    long low = 0, offset;
    if (fscanf(list, "%ld", &low) != 1)
        abort();
    base = BLOCKS_ANCHOR + low;
    uintptr_t page = (uintptr_t)base & ~(uintptr_t)4095;
    if (mprotect((void *)page, SPAN, PROT_READ | PROT_WRITE | PROT_EXEC) != 0 && mprotect((void *)page, SPAN / 4, PROT_READ | PROT_WRITE | PROT_EXEC) != 0)
        abort();
    struct sigaction action = {.sa_sigaction = stopped, .sa_flags = SA_SIGINFO | SA_NODEFER};
    sigaction(SIGTRAP, &action, NULL);
    while (fscanf(list, "%ld", &offset) == 1 && blocks + 1 < MOST_BLOCKS) {
        size_t at = (size_t)(offset - low);
        index_of[at] = (uint16_t)++blocks;
        byte_of[at] = base[at];
        base[at] = 0xcc;
    }
    fclose(list);
    atexit(told);
}

static unsigned magnitude(uint64_t n) {
    unsigned bits = 0;
    for (; n > 0; n >>= 1)
        bits++;
    return bits;
}

void blocks_seen(int call, uint32_t number, uint64_t place, const uint64_t *entries, int count) {
    unsigned kind = ((unsigned)call * 16 + number) * 16;
    kinds[(kind + (place < 8 ? (unsigned)place : 8)) % (KINDS / 4)] = 1;
    for (int k = 0; k < count; k++)
        kinds[KINDS / 4 + (((unsigned)call * 6 + (unsigned)k) * 24 + magnitude(entries[k])) % (3 * KINDS / 4)] = 1;
}
