/*
 * The reference-safety check for controllers: link libreference_safety_lib.a (`tools/built staticlib reference_safety_lib` builds it and
 * prints where it is). It is for x86-64 alone, with the C calling convention of Linux, and takes memcpy, memmove and memset from the C library.
 */
#ifndef BUSLATIM_H
#define BUSLATIM_H

#include <stdbool.h>
#include <stddef.h>
#include <stdint.h>

#ifdef __cplusplus
extern "C" {
#endif

#define BUSLATIM_VERSION "6.0.0"
#define BUSLATIM_VERSION_MAJOR 6
#define BUSLATIM_VERSION_MINOR 0
#define BUSLATIM_VERSION_PATCH 0

/* The least number of words of the work area, and of an answer. */
#define BUSLATIM_AREA_WORDS 16384
#define BUSLATIM_ANSWER_WORDS 7

/* The most visits of blocks that a call makes. A routine of B blocks and L locals takes at most B * (1 + B * (11 * L * L + L)); this is for 16
 * and 16. */
#define BUSLATIM_MOST_VISITS 725008

/*
 * What a call needs besides the area: this many bytes of stack below the caller's frame. The deepest path of calls in the machine code takes
 * 43,560 bytes, and what memcpy takes comes on top; the code neither recurses nor calls by pointer, so no listing takes more. On a painted
 * stack 4,428 listings took up to 43,384 bytes. bench/stack/run measures both again; another kit may compile to other frames.
 */
#define BUSLATIM_STACK_BYTES 49152

/* answer[0] */
enum {
    BUSLATIM_ACCEPT = 0,
    BUSLATIM_VIOLATION = 1,
    BUSLATIM_REFUSED = 2,
    BUSLATIM_EMPTY = 3 /* an empty cell: the listing has no byte, so there is no routine to load */
};

/* answer[1] of a violation: document 01's codes, by the Rust's names */
enum {
    BUSLATIM_COPYLOC_EXISTS_BORROW = 101,
    BUSLATIM_MOVELOC_EXISTS_BORROW = 102,
    BUSLATIM_STLOC_UNSAFE_TO_DESTROY = 103,
    BUSLATIM_FREEZEREF_EXISTS_MUTABLE_BORROW = 104,
    BUSLATIM_READREF_EXISTS_MUTABLE_BORROW = 105,
    BUSLATIM_WRITEREF_EXISTS_BORROW = 106,
    BUSLATIM_BORROWLOC_EXISTS_BORROW = 107,
    BUSLATIM_BORROWFIELD_EXISTS_MUTABLE_BORROW = 108,
    BUSLATIM_GLOBAL_REFERENCE = 109,
    BUSLATIM_VEC_UPDATE = 110,
    BUSLATIM_VEC_BORROW_ELEMENT = 111,
    BUSLATIM_CALL_BORROWED_MUTABLE_REFERENCE = 112,
    BUSLATIM_UNSAFE_RET = 113,
    BUSLATIM_RET_BORROWED_MUTABLE_REFERENCE = 114
};

/* answer[1] of a refusal */
enum {
    /* the listing; answer[2] is the byte at which the record starts */
    BUSLATIM_REFUSED_ENDS_EARLY = 1,   /* the listing ends within a record */
    BUSLATIM_REFUSED_UNKNOWN_KIND = 2, /* a record of an unknown kind */
    BUSLATIM_REFUSED_BAD_RECORD = 3,   /* a record's length, token, flag, range or local */
    BUSLATIM_REFUSED_FUNCTION = 4,     /* the first record is not the function's, or a later one is */
    BUSLATIM_REFUSED_BLOCKS = 5,       /* the blocks, or where a Ret stands; with no block answer[2] is the listing's length */
    BUSLATIM_REFUSED_TOO_LARGE = 6,    /* too long or too many; answer[2] is 65,536 for the length */
    BUSLATIM_REFUSED_LATE_BLOCK = 33,  /* a block's record stands after an instruction */
    /* the caller; answer[2] is 0 */
    BUSLATIM_REFUSED_AREA = 7, /* the area has fewer than BUSLATIM_AREA_WORDS words */
    /* the routine; answer[2] is the instruction's offset, for 14 and 15 the exit of the block just run */
    BUSLATIM_REFUSED_EMPTY_STACK = 10,        /* an operand is taken from an empty stack */
    BUSLATIM_REFUSED_VALUE_OR_REFERENCE = 11, /* a value where a reference is needed, or the reverse */
    BUSLATIM_REFUSED_ABSENT_LOCAL = 12,       /* an absent local is copied or moved */
    BUSLATIM_REFUSED_IMMUTABLE = 13,          /* a write, freeze or mutable vector step on an immutable reference */
    BUSLATIM_REFUSED_OPERANDS_LEFT = 14,      /* operands are left at a block's end */
    BUSLATIM_REFUSED_JOINED_LOCAL = 15,       /* a local is a value in one joined state and a reference in the other */
    /* the controller's sizes; answer[2] is the instruction's offset, in a join the exit of the block just run */
    BUSLATIM_REFUSED_STACK_FULL = 20, /* a push onto 16 operands */
    BUSLATIM_REFUSED_EDGES = 21,      /* more than 96 edges in a borrow graph */
    BUSLATIM_REFUSED_PATH = 22        /* an edge of more than 8 labels */
};

/*
 * Checks the routine whose listing stands in `listing`, `listing_len` bytes. Each length counts elements.
 *
 * answer[0]: BUSLATIM_ACCEPT, BUSLATIM_VIOLATION, BUSLATIM_REFUSED or BUSLATIM_EMPTY
 * answer[1]: the violation's code or the refusal's number; else 0
 * answer[2]: the instruction's offset or the refusal's place; else 0
 * answer[3]: how often a block was run; 0 for refusals 1 to 7 and 33 and for an empty cell
 * answer[4], answer[5]: how many sets of edges were blurred in the run, as 2^32 * answer[5] + answer[4]; 0 where no block was run
 * answer[6]: for a violation the offset of the instruction that borrowed what it fails on; else 0
 *
 * The borrow edges from one name to another are a set. An edge put into a set of ten blurs it into one edge that stands for any part, so a
 * number above 0 says that the routine was judged less closely. Every visit of a block counts, also one that ends in a violation, and every
 * join; a visit or join that ends in a refusal does not.
 *
 * Each edge has the offset of the instruction that made it. Where several edges would each be a reason for the violation, answer[6] is the
 * lowest of their offsets (docs/LISTING.md). In a loop the borrow may stand behind the instruction that fails.
 *
 * The first 16,384 words of the area end zero, whatever they held; an area of fewer words is refusal 7, also for an empty cell, and stays as
 * it is. Words of the area and of the answer beyond those named stay as they are. False, and nothing is written, where the answer has fewer
 * than seven words.
 *
 * No pointer may be null, not even where its length is 0. The area and the answer must not overlap each other or the listing. No pointer is
 * kept and nothing is allocated. It is re-entrant: the library has no data that is written, so threads may call at once, each with an area
 * and an answer of its own.
 */
bool reference_safety_verify(const uint8_t *listing, size_t listing_len, uint32_t *area, size_t area_len, uint32_t *answer,
                             size_t answer_len);

/*
 * The same answer, but the area is not zeroed. Refusals 1 to 7 and 33 leave it as it was. An empty cell has no kept state: the first of each
 * 1,024 words is zero then, and the others are as they were. After any other answer, refusals 10 to 22 among them, the block listed at position
 * b has its kept state, as the run left it, in the 1,024 words from 1,024 * b on (docs/ARCHITECTURE.md has their layout; the first of them tells
 * whether there is one). Words that no kept state takes are free.
 */
bool reference_safety_analyze(const uint8_t *listing, size_t listing_len, uint32_t *area, size_t area_len, uint32_t *answer,
                              size_t answer_len);

#ifdef __cplusplus
}
#endif

#endif
