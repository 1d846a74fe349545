/* How much stack a call of the library takes: main STORED LISTING... Status 1 where it is more than the header says.
 *
 * Each call runs in a thread of its own, whose stack was painted with one byte before. Afterwards the lowest byte that changed tells how deep
 * the call went below the frame of its caller. STORED is the stored list (crates/cases_replay/stdin; oracle/src/stored.rs has its format). */
#include "buslatim.h"

#include <pthread.h>
#include <stdio.h>
#include <stdlib.h>
#include <string.h>

enum { STACK = 512 * 1024, PAINT = 0xA5, LONGEST = 65536 };

static unsigned char *stack;
static uint32_t area[BUSLATIM_AREA_WORDS];

struct call {
    const uint8_t *listing;
    size_t len;
    int keep;
    uintptr_t top;
    uint32_t answer[BUSLATIM_ANSWER_WORDS];
};

static void fail(const char *what) {
    fprintf(stderr, "bench/stack: %s\n", what);
    exit(1);
}

static void *in_thread(void *given) {
    struct call *c = given;
    c->top = (uintptr_t)__builtin_frame_address(0);
    if (c->keep)
        reference_safety_analyze(c->listing, c->len, area, BUSLATIM_AREA_WORDS, c->answer, BUSLATIM_ANSWER_WORDS);
    else
        reference_safety_verify(c->listing, c->len, area, BUSLATIM_AREA_WORDS, c->answer, BUSLATIM_ANSWER_WORDS);
    return NULL;
}

static size_t used(struct call *c) {
    pthread_attr_t how;
    pthread_t thread;
    memset(stack, PAINT, STACK);
    if (pthread_attr_init(&how) || pthread_attr_setstack(&how, stack, STACK) || pthread_create(&thread, &how, in_thread, c) ||
        pthread_join(thread, NULL))
        fail("no thread");
    size_t low = 0;
    while (low < STACK && stack[low] == PAINT) low++;
    if (low == 0) fail("the painted stack is too small");
    return c->top - (uintptr_t)(stack + low);
}

static size_t most, count;

static void measure(const uint8_t *listing, size_t len) {
    struct call c = {.listing = listing, .len = len};
    for (c.keep = 0; c.keep < 2; c.keep++) {
        size_t n = used(&c);
        if (n > most) most = n;
    }
    count++;
}

static size_t all_most, all_count;

static void tell(const char *what) {
    printf("%8zu bytes of stack at most: %zu listings, %s\n", most, count, what);
    if (most > all_most) all_most = most;
    all_count += count;
    most = count = 0;
}

static uint8_t *read_all(const char *name, size_t *len) {
    FILE *f = fopen(name, "rb");
    if (!f) fail(name);
    uint8_t *bytes = malloc(1 << 24);
    *len = bytes ? fread(bytes, 1, 1 << 24, f) : 0;
    if (!bytes || ferror(f)) fail(name);
    fclose(f);
    return bytes;
}

static uint32_t word(const uint8_t *at) { return at[0] | at[1] << 8 | at[2] << 16 | (uint32_t)at[3] << 24; }

/* An entry's words besides its listing: the length before it; whose answer it is and the answer after it. */
enum { ENTRY = 4 * (1 + 1 + BUSLATIM_ANSWER_WORDS) };

static void stored(const char *name) {
    size_t len, at = 4;
    uint8_t *bytes = read_all(name, &len);
    if (len < 4) fail("the stored list is too short");
    for (uint32_t left = word(bytes); left > 0; left--) {
        if (at + 4 > len || at + ENTRY + word(bytes + at) > len) fail("the stored list is cut");
        uint32_t n = word(bytes + at);
        measure(bytes + at + 4, n);
        at += ENTRY + n;
    }
    free(bytes);
    tell("those of the stored list");
}

static uint8_t large[LONGEST];
static size_t end;

static void record(int kind, int n, const int *body) {
    const int head[] = {n, 0, kind, 0};
    for (int i = 0; i < 4; i++) large[end++] = (uint8_t)head[i];
    for (int i = 0; i < n; i++) large[end++] = (uint8_t)body[i];
}

/* The largest loops: 16 blocks of 32 instructions, each leading back to the first and on to the next. A block copies the first `pairs` of the 16
 * references, each to the local that is `step` further on, and reads the others. */
static void loops(int pairs, int step) {
    int head[19] = {16, 16};
    for (int i = 0; i < 16; i++) head[2 + i] = 2;
    end = 0;
    record(1, 19, head);
    for (int b = 0; b < 16; b++) {
        int from = 32 * b, to = from + 31, on = b < 15 ? to + 1 : to - 31, both = b < 15 ? 2 : 1;
        record(2, 5 + 2 * both, (int[]){from % 256, from / 256, to % 256, to / 256, both, 0, 0, on % 256, on / 256});
    }
    for (int b = 0; b < 16; b++)
        for (int i = 0; i < 16; i++) {
            record(11, 1, (int[]){(b + i) % 16});
            if (i < pairs)
                record(13, 1, (int[]){(b + i + step) % 16});
            else
                record(10, 0, NULL);
        }
    measure(large, end);
}

int main(int n, char **names) {
    if (n < 2) fail("usage: main STORED LISTING...");
    if (posix_memalign((void **)&stack, 4096, STACK)) fail("no memory");
    stored(names[1]);
    for (int i = 2; i < n; i++) {
        size_t len;
        uint8_t *bytes = read_all(names[i], &len);
        measure(bytes, len);
        free(bytes);
    }
    tell("those named");
    for (int pairs = 1; pairs <= 4; pairs++)
        for (int step = 1; step <= 3; step++) loops(pairs, step);
    tell("the largest loops");
    printf("%8zu bytes of stack at most: all %zu listings\n", all_most, all_count);
    if (all_most > BUSLATIM_STACK_BYTES) fail("that is more than BUSLATIM_STACK_BYTES");
    return 0;
}
