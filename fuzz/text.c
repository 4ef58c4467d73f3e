/* A fuzz target: the bytes are meshfix's standard input, handed over whole and in pieces. What it writes must be document 01's answer: the text read here
 * by another reader, mended by the library's repair, and printed here. */
#include "blocks.h"
#include "shell.h"
#include <stdio.h>
#include <stdlib.h>
#include <string.h>

enum { MOST = 64, LONGEST = 8192, ROOM = 1 << 15 };

int meshfix_main(int count, char **words);
intptr_t text_read(int from, void *to, size_t n);
intptr_t text_write(int to, const void *from, size_t n);

static struct {
    const uint8_t *at;
    size_t left, piece, written;
    char out[ROOM];
} stream;

/* The program's read and write: at most a piece at a time. */
intptr_t text_read(int from, void *to, size_t n) {
    size_t give = n < stream.left ? n : stream.left;
    if (from != 0)
        abort();
    give = give < stream.piece ? give : stream.piece;
    memcpy(to, stream.at, give);
    stream.at += give;
    stream.left -= give;
    return (intptr_t)give;
}

intptr_t text_write(int to, const void *from, size_t n) {
    size_t give = n < stream.piece ? n : stream.piece;
    if (to != 1 || stream.written + give > ROOM)
        abort();
    memcpy(stream.out + stream.written, from, give);
    stream.written += give;
    return (intptr_t)give;
}

typedef struct {
    const char *at, *end;
} Text;

/* The next byte, if it is this one. */
static int next_is(Text *t, char c) {
    if (t->at == t->end || *t->at != c)
        return 0;
    t->at++;
    return 1;
}

/* A tab and a decimal number of 32 bits without leading zeros. */
static int number(Text *t, uint32_t *out) {
    uint64_t n = 0;
    if (!next_is(t, '\t'))
        return 0;
    const char *first = t->at;
    for (; t->at < t->end && *t->at >= '0' && *t->at <= '9' && t->at - first < 11; t->at++)
        n = 10 * n + (uint64_t)(*t->at - '0');
    *out = (uint32_t)n;
    return t->at > first && n <= 0xffffffff && (*first != '0' || t->at - first == 1);
}

/* A tab and 16 lower-case hex digits. */
static int real(Text *t, double *out) {
    uint64_t bits = 0;
    if (!next_is(t, '\t') || t->end - t->at < 16)
        return 0;
    for (int k = 0; k < 16; k++) {
        const char *digits = "0123456789abcdef", *digit = memchr(digits, *t->at++, 16);
        if (digit == NULL)
            return 0;
        bits = bits << 4 | (uint64_t)(digit - digits);
    }
    memcpy(out, &bits, 8);
    return 1;
}

typedef struct {
    double s, points[3 * MOST];
    uint32_t options, faces[3 * MOST], P, F;
} Job;

/* One line behind the first. */
static int line(Text *t, Job *job) {
    if (next_is(t, 'p')) {
        double *p = job->points + 3 * job->P;
        return job->P++ < MOST && real(t, p) && real(t, p + 1) && real(t, p + 2) && next_is(t, '\n');
    }
    uint32_t *f = job->faces + 3 * job->F;
    return next_is(t, 'f') && job->F++ < MOST && number(t, f) && number(t, f + 1) && number(t, f + 2) && next_is(t, '\n');
}

/* The job that a text asks for, if it is of the form. */
static int read_job(Text t, Job *job) {
    if (t.end - t.at > LONGEST || !next_is(&t, 'o') || !number(&t, &job->options) || !real(&t, &job->s) || !next_is(&t, '\n'))
        return 0;
    while (t.at < t.end)
        if (!line(&t, job))
            return 0;
    return 1;
}

/* Mends the job's mesh and prints the answer; returns its length. */
static size_t print_answer(const Job *job, char *out) {
    static double points[SHELL_POINTS_ROOM(MOST, MOST)];
    static uint32_t faces[SHELL_FACES_ROOM(MOST)], report[SHELL_REPORT_ROOM], origins[SHELL_ORIGINS_ROOM(MOST)], work[SHELL_WORK_ROOM(MOST, MOST)];
    ShellRepaired r = shell_repair(job->points, 3 * job->P, job->faces, 3 * job->F, job->s, job->options, points, SHELL_POINTS_ROOM(MOST, MOST), faces,
                                   SHELL_FACES_ROOM(MOST), report, SHELL_REPORT_ROOM, origins, SHELL_ORIGINS_ROOM(MOST), work, SHELL_WORK_ROOM(MOST, MOST));
    const uint64_t entries[3] = {r.points, r.faces, r.counts};
    int at = 0;
    blocks_seen(0, r.number, r.place, entries, 3);
    if (r.number != SHELL_ACCEPTED)
        return (size_t)sprintf(out, "x\t%u\n", r.number);
    for (size_t i = 0; i < r.points; i++) {
        uint64_t bits;
        memcpy(&bits, points + i, 8);
        at += sprintf(out + at, "%s\t%016lx%s", i % 3 == 0 ? "p" : "", (unsigned long)bits, i % 3 == 2 ? "\n" : "");
    }
    for (size_t i = 0; i < r.faces; i++)
        at += sprintf(out + at, "%s\t%u%s", i % 3 == 0 ? "f" : "", faces[i], i % 3 == 2 ? "\n" : "");
    at += sprintf(out + at, "r");
    for (size_t i = 0; i < r.counts; i++)
        at += sprintf(out + at, "\t%u", report[i]);
    return (size_t)(at + sprintf(out + at, "\n"));
}

int LLVMFuzzerTestOneInput(const uint8_t *data, size_t size) {
    static char wanted[ROOM];
    static Job job;
    static char *words[] = {(char *)"meshfix", NULL};
    const char *text = size == 0 ? "" : (const char *)data;
    memset(&job, 0, sizeof job);
    size_t length = read_job((Text){text, text + size}, &job) ? print_answer(&job, wanted) : (size_t)sprintf(wanted, "x\t11\n");
    const size_t pieces[] = {ROOM, 1 + size % 13};
    for (int k = 0; k < 2; k++) {
        stream.at = data;
        stream.left = size;
        stream.piece = pieces[k];
        stream.written = 0;
        if (meshfix_main(1, words) != 0 || stream.written != length || memcmp(stream.out, wanted, length) != 0) {
            fprintf(stderr, "text: another answer, or another status\n");
            abort();
        }
    }
    return 0;
}
