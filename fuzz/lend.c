#define _DEFAULT_SOURCE
#include "lend.h"
#include <stdlib.h>
#include <string.h>
#include <sys/mman.h>

enum { PAGE = 4096, PAGES = 6144, MARGIN = 64 };

typedef struct {
    unsigned char *pages, *room, *side, *kept;
    size_t n, size;
} Lent;

static Lent all[LENT];

void *lend(int which, size_t n, size_t size, int front) {
    Lent *l = all + which;
    if (l->pages == NULL) {
        l->pages = mmap(NULL, (size_t)(PAGES + 2) * PAGE, PROT_NONE, MAP_PRIVATE | MAP_ANONYMOUS | MAP_NORESERVE, -1, 0);
        l->kept = malloc((size_t)PAGES * PAGE);
        if (l->pages == MAP_FAILED || l->kept == NULL || mprotect(l->pages + PAGE, (size_t)PAGES * PAGE, PROT_READ | PROT_WRITE) != 0)
            abort();
        l->pages += PAGE;
    }
    if (n * size + MARGIN > (size_t)PAGES * PAGE)
        abort();
    l->n = n;
    l->size = size;
    l->room = front ? l->pages : l->pages + (size_t)PAGES * PAGE - n * size;
    l->side = front ? l->room + n * size : l->room - MARGIN;
    memset(l->side, 0xa5, MARGIN);
    return l->room;
}

/* The entry i of a dirty room: bytes alike, small numbers, its own number, all ones, a number far off. */
static uint64_t dirty(int dirt, unsigned seed, uint64_t i) {
    switch (dirt) {
    case 2:
        return 0x5a5a5a5a5a5a5a5a;
    case 3:
        return (i + seed) % 7;
    case 4:
        return i;
    case 5:
        return ~(uint64_t)0;
    case 6:
        return 1;
    default:
        return (i + 1) * 0x9e3779b97f4a7c15 ^ seed;
    }
}

void soil(int which, int dirt, unsigned seed) {
    Lent *l = all + which;
    memset(l->room, 0, l->n * l->size);
    for (size_t i = 0; dirt > 1 && i < l->n; i++) {
        uint64_t entry = dirty(dirt, seed, i);
        memcpy(l->room + i * l->size, &entry, l->size);
    }
    if (dirt == 1 && l->n > 0)
        l->room[(seed * (size_t)2654435761u >> 4) % (l->n * l->size)] = 1;
}

void keep(int which) { memcpy(all[which].kept, all[which].room, all[which].n * all[which].size); }

int holds(int which, const void *answer, size_t count, size_t stated) {
    const Lent *l = all + which;
    for (int i = 0; i < MARGIN; i++)
        if (l->side[i] != 0xa5)
            return 0;
    if (count > stated || stated > l->n)
        return 0;
    if (count > 0 && memcmp(l->room, answer, count * l->size) != 0)
        return 0;
    for (size_t i = count * l->size; i < stated * l->size; i++)
        if (l->room[i] != 0)
            return 0;
    return memcmp(l->room + stated * l->size, l->kept + stated * l->size, (l->n - stated) * l->size) == 0;
}
