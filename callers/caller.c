/* The static library called from C: a violation, an acceptance after a set was blurred, an empty cell, an area too short, an answer too short;
 * and what the area holds after analyze. */
#include "buslatim.h"

#include <stdio.h>
#include <stdlib.h>

/* Document 01's example: VIOLATION 102 3, and BORROWED AT 2. */
static const uint8_t moved[] = {0x03, 0x00, 0x01, 0x00, 0x00, 0x01, 0x00, 0x05, 0x00, 0x02, 0x00, 0x00, 0x00, 0x03,
                                0x00, 0x00, 0x05, 0x00, 0x18, 0x00, 0x00, 0x00, 0x01, 0x00, 0x00, 0x01, 0x00, 0x0D,
                                0x00, 0x00, 0x02, 0x00, 0x12, 0x00, 0x00, 0x01, 0x01, 0x00, 0x0C, 0x00, 0x00};

/* One block that drops an operand which is not there: REFUSED 10 0. */
static const uint8_t drops[] = {0x03, 0x00, 0x01, 0x00, 0x00, 0x01, 0x00, 0x05, 0x00, 0x02,
                                0x00, 0x00, 0x00, 0x00, 0x00, 0x00, 0x00, 0x00, 0x0A, 0x00};

/* examples/accept_blurred: ACCEPT, and BLURRED 1. */
static const uint8_t lends[] = {0x0E, 0x00, 0x01, 0x00, 0x0B, 0x0B, 0x00, 0x00, 0x00, 0x00, 0x00, 0x00, 0x00, 0x00,
                                0x00, 0x00, 0x00, 0x00, 0x05, 0x00, 0x02, 0x00, 0x00, 0x00, 0x0E, 0x00, 0x00, 0x02,
                                0x00, 0x12, 0x00, 0x00, 0x00, 0x02, 0x00, 0x12, 0x00, 0x01, 0x00, 0x02, 0x00, 0x12,
                                0x00, 0x02, 0x00, 0x02, 0x00, 0x12, 0x00, 0x03, 0x00, 0x02, 0x00, 0x12, 0x00, 0x04,
                                0x00, 0x02, 0x00, 0x12, 0x00, 0x05, 0x00, 0x02, 0x00, 0x12, 0x00, 0x06, 0x00, 0x02,
                                0x00, 0x12, 0x00, 0x07, 0x00, 0x02, 0x00, 0x12, 0x00, 0x08, 0x00, 0x02, 0x00, 0x12,
                                0x00, 0x09, 0x00, 0x02, 0x00, 0x12, 0x00, 0x0A, 0x00, 0x04, 0x00, 0x16, 0x00, 0x0B,
                                0x00, 0x01, 0x01, 0x00, 0x00, 0x10, 0x00, 0x00, 0x00, 0x0A, 0x00, 0x00, 0x00, 0x17,
                                0x00};

/* KEPT and BLOCK_WORDS: docs/ARCHITECTURE.md, the area; the unit of what stands beside a local in its word, and the words of a block. */
enum { BEYOND = 1, USED = 7, KEPT = 262144, BLOCK_WORDS = 1024 };

static uint32_t area[BUSLATIM_AREA_WORDS + BEYOND];
static uint32_t answer[BUSLATIM_ANSWER_WORDS + BEYOND];

static void fill(uint32_t *words, size_t n) {
    for (size_t i = 0; i < n; i++) {
        words[i] = USED;
    }
}

static void expect(bool holds, const char *what) {
    if (!holds) {
        fprintf(stderr, "caller.c: %s\n", what);
        exit(1);
    }
}

/* Whether the words from `from` up to `to` all hold `value`. */
static bool all(const uint32_t *words, size_t from, size_t to, uint32_t value) {
    for (size_t i = from; i < to; i++) {
        if (words[i] != value) {
            return false;
        }
    }
    return true;
}

static bool answers(uint32_t kind, uint32_t number, uint32_t place, uint32_t visits, uint64_t blurred, uint32_t borrowed_at) {
    return answer[0] == kind && answer[1] == number && answer[2] == place && answer[3] == visits &&
           ((uint64_t)answer[5] << 32 | answer[4]) == blurred && answer[6] == borrowed_at && answer[BUSLATIM_ANSWER_WORDS] == USED;
}

static bool verify(const uint8_t *listing, size_t len, size_t area_len, size_t answer_len) {
    fill(area, BUSLATIM_AREA_WORDS + BEYOND);
    fill(answer, BUSLATIM_ANSWER_WORDS + BEYOND);
    return reference_safety_verify(listing, len, area, area_len, answer, answer_len);
}

static bool call(size_t area_len, size_t answer_len) { return verify(moved, sizeof moved, area_len, answer_len); }

static bool analyze(const uint8_t *listing, size_t len) {
    fill(area, BUSLATIM_AREA_WORDS + BEYOND);
    fill(answer, BUSLATIM_ANSWER_WORDS + BEYOND);
    return reference_safety_analyze(listing, len, area, BUSLATIM_AREA_WORDS, answer, BUSLATIM_ANSWER_WORDS);
}

int main(void) {
    expect(call(BUSLATIM_AREA_WORDS + BEYOND, BUSLATIM_ANSWER_WORDS + BEYOND), "no answer");
    expect(answers(BUSLATIM_VIOLATION, BUSLATIM_MOVELOC_EXISTS_BORROW, 3, 1, 0, 2), "not VIOLATION 102 3, BORROWED AT 2 after one visit");
    expect(all(area, 0, BUSLATIM_AREA_WORDS, 0), "the area is not zero");
    expect(all(area, BUSLATIM_AREA_WORDS, BUSLATIM_AREA_WORDS + BEYOND, USED), "a word beyond the area is written");

    expect(verify(lends, sizeof lends, BUSLATIM_AREA_WORDS, BUSLATIM_ANSWER_WORDS), "no answer for a routine that is accepted");
    expect(answers(BUSLATIM_ACCEPT, 0, 0, 1, 1, 0), "not ACCEPT after one visit that blurred one set");

    expect(verify(moved, 0, BUSLATIM_AREA_WORDS + BEYOND, BUSLATIM_ANSWER_WORDS), "no answer for an empty cell");
    expect(answers(BUSLATIM_EMPTY, 0, 0, 0, 0, 0), "no byte is not EMPTY");
    expect(all(area, 0, BUSLATIM_AREA_WORDS, 0), "the area is not zero after an empty cell");
    expect(all(area, BUSLATIM_AREA_WORDS, BUSLATIM_AREA_WORDS + BEYOND, USED), "a word beyond the area is written for an empty cell");

    expect(verify(moved, 0, BUSLATIM_AREA_WORDS - 1, BUSLATIM_ANSWER_WORDS), "no answer for an empty cell with a short area");
    expect(answers(BUSLATIM_REFUSED, BUSLATIM_REFUSED_AREA, 0, 0, 0, 0), "a short area is not REFUSED 7 0 for an empty cell");
    expect(all(area, 0, BUSLATIM_AREA_WORDS, USED), "a short area is written for an empty cell");

    expect(call(BUSLATIM_AREA_WORDS - 1, BUSLATIM_ANSWER_WORDS), "no answer with a short area");
    expect(answers(BUSLATIM_REFUSED, BUSLATIM_REFUSED_AREA, 0, 0, 0, 0), "a short area is not REFUSED 7 0");
    expect(all(area, 0, BUSLATIM_AREA_WORDS, USED), "a short area is written");

    expect(!call(BUSLATIM_AREA_WORDS, BUSLATIM_ANSWER_WORDS - 1), "six words are taken for an answer");
    expect(all(answer, 0, BUSLATIM_ANSWER_WORDS + BEYOND, USED), "a short answer is written");
    expect(all(area, 0, BUSLATIM_AREA_WORDS, USED), "the area is written though the answer is short");

    expect(analyze(moved, sizeof moved - 1), "analyze: no answer for a cut listing");
    expect(answers(BUSLATIM_REFUSED, BUSLATIM_REFUSED_ENDS_EARLY, 36, 0, 0, 0), "a cut listing is not REFUSED 1 36");
    expect(all(area, 0, BUSLATIM_AREA_WORDS, USED), "the area is written though the listing is cut");

    expect(analyze(moved, 0), "analyze: no answer for an empty cell");
    expect(answers(BUSLATIM_EMPTY, 0, 0, 0, 0, 0), "analyze: no byte is not EMPTY");
    for (size_t b = 0; b < BUSLATIM_AREA_WORDS; b += BLOCK_WORDS) {
        expect(area[b] == 0, "a block has a kept state after an empty cell");
        expect(all(area, b + 1, b + BLOCK_WORDS, USED), "more than one word of a block is written for an empty cell");
    }

    expect(analyze(drops, sizeof drops), "analyze: no answer");
    expect(answers(BUSLATIM_REFUSED, BUSLATIM_REFUSED_EMPTY_STACK, 0, 1, 0, 0), "not REFUSED 10 0 after one visit");
    expect(area[0] / KEPT == 1, "the first block has no kept state after refusal 10");
    puts("called from C");
    return 0;
}
