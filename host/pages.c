/* Whether closing up a face list stores before the first face that leaves: `pages`, for machines without valgrind (tests/stores.test.sh).
 *
 * A repair copies the input into its room first, so that every entry is stored once; what closes the list up must be called alone. It is `rows::retain`, which
 * crates/bench exports as bench_retain. The list is put so that the first face that leaves begins a page, and the pages before it are made read-only; where
 * none leaves, all are. A store there is caught and told. What comes out must be the kept faces in order. Exit status 1 if something is wrong, 77 if pages
 * cannot be made read-only here. */
#define _GNU_SOURCE
#include <setjmp.h>
#include <signal.h>
#include <stddef.h>
#include <stdint.h>
#include <stdio.h>
#include <stdlib.h>
#include <string.h>
#include <sys/mman.h>
#include <unistd.h>

/* Keeps those of the n faces whose flag in `work`, from `flags` on, is 0: in order, at the front. Returns how many. */
size_t bench_retain(uint32_t *faces, size_t faces_len, const uint32_t *work, size_t work_len, size_t flags, size_t n);

enum { FACES = 3000, FLAGS = 5, NONE = FACES };

/* A list: the first face that leaves, NONE if none does, and every how many faces after it another one leaves, 0 for no other. */
typedef struct {
    const char *what;
    size_t first, every;
} List;

static const List lists[] = {
    {"a list that loses a face in the middle", 1500, 0},
    {"a list that loses many faces from the middle on", 1501, 7},
    {"a list that loses its second face and more", 1, 100},
    {"a list that loses only its last face", FACES - 1, 0},
    {"a list that loses nothing", NONE, 0},
};

static sigjmp_buf before_call;
static volatile uintptr_t hit;

/* Notes where a store was refused, and goes back to before the call. */
static void refused(int signal, siginfo_t *told, void *context) {
    (void)signal;
    (void)context;
    hit = (uintptr_t)told->si_addr;
    siglongjmp(before_call, 1);
}

/* Corner j of face i: no two entries are alike. */
static uint32_t corner(size_t i, size_t j) {
    return (uint32_t)(3 * i + j + 1000000);
}

/* Whether face i leaves. */
static int leaves(const List *l, size_t i) {
    return i == l->first || (l->every != 0 && i > l->first && (i - l->first) % l->every == 0);
}

/* Whether the front of `faces` holds the kept faces, and as many as were told. */
static int kept(const List *l, const uint32_t *faces, size_t told) {
    size_t m = 0;
    for (size_t i = 0; i < FACES; i++)
        if (!leaves(l, i)) {
            for (size_t j = 0; j < 3; j++)
                if (faces[3 * m + j] != corner(i, j))
                    return 0;
            m++;
        }
    return m == told;
}

/* Closes up a list by its flags. How many faces are told to be kept, or 0 if a store was refused. */
static size_t closed_up(uint32_t *faces, const uint32_t *work, size_t work_len) {
    hit = 0;
    if (sigsetjmp(before_call, 1) != 0)
        return 0;
    return bench_retain(faces, 3 * FACES, work, work_len, FLAGS, FACES);
}

/* Closes a list up whose first face that leaves begins at `edge`, where a page begins. The room begins some pages before. Whether all is as it must be. */
static int tried(const List *l, uint8_t *room, uint8_t *edge) {
    static uint32_t work[FLAGS + FACES + FLAGS];
    uint32_t *faces = (uint32_t *)(void *)(edge - 12 * l->first);
    memset(work, 0x5a, sizeof work);
    for (size_t i = 0; i < FACES; i++) {
        work[FLAGS + i] = (uint32_t)leaves(l, i);
        for (size_t j = 0; j < 3; j++)
            faces[3 * i + j] = corner(i, j);
    }
    if (mprotect(room, (size_t)(edge - room), PROT_READ) != 0)
        exit(77);
    size_t told = closed_up(faces, work, sizeof work / sizeof *work);
    mprotect(room, (size_t)(edge - room), PROT_READ | PROT_WRITE);
    if (hit >= (uintptr_t)faces && hit < (uintptr_t)edge) {
        size_t entry = (hit - (uintptr_t)faces) / sizeof *faces;
        printf("pages: %s: entry %zu is stored again, of face %zu\n", l->what, entry, entry / 3);
    } else if (hit != 0)
        printf("pages: %s: a store to %p, which is not in the list\n", l->what, (void *)hit);
    else if (!kept(l, faces, told))
        printf("pages: %s: not the kept faces come out\n", l->what);
    else
        return 1;
    return 0;
}

int main(void) {
    size_t page = (size_t)sysconf(_SC_PAGESIZE), count = sizeof lists / sizeof *lists, wrong = 0, before = (12 * FACES + page - 1) / page;
    uint8_t *room = mmap(NULL, 2 * before * page, PROT_READ | PROT_WRITE, MAP_PRIVATE | MAP_ANONYMOUS, -1, 0);
    struct sigaction action = {.sa_sigaction = refused, .sa_flags = SA_SIGINFO};
    if (room == MAP_FAILED || sigaction(SIGSEGV, &action, NULL) != 0 || sigaction(SIGBUS, &action, NULL) != 0)
        return 77;
    for (size_t i = 0; i < count; i++)
        wrong += !tried(lists + i, room, room + before * page);
    printf("pages: %zu lists, %zu closed up not as they must be\n", count, wrong);
    return wrong != 0;
}
