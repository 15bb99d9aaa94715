/* Gillgrater: APL's array functions on whole numbers, proved. This header declares libgillgrater.a, which `rt lib` makes in
   crates/gillgrater, as out/libgillgrater.a, for x86-64-v2: the processor needs SSE4.2, and the library does not look whether it has it.

   What is proved is the Rattle side: every call ends, stays within the buffers that it is handed, and answers what the definitions in
   crates/meaning/specs say. Nothing proves the C side. The caller owes:
   - pointers and lengths that belong together: each pointer is to as many elements of 32 bits as the length beside it says, all of them
     readable, and writable for `out`; with length 0 too it is not null and is aligned to 4 bytes;
   - no overlap of `out` with an operand's buffer; the two operands may share theirs;
   - nobody else writes any of the buffers before the call returns;
   - some 200 KB of stack: index of and member hold a hash table of 160 KB there, the other calls need less than 8 KB.
   No other value harms: a bad shape, number, origin or axis is refused. */
#ifndef GILLGRATER_H
#define GILLGRATER_H

#include <stdbool.h>
#include <stddef.h>
#include <stdint.h>

#ifdef __cplusplus
extern "C" {
#endif

/* The largest rank, and the largest length and count. */
#define GILLGRATER_MAX_RANK 8
#define GILLGRATER_MAX_COUNT 16384

/* A rank and a length for each axis. Only the first `rank` lengths count; in a result the others are 0. Rank 0 is a scalar. */
typedef struct {
    size_t rank;
    size_t lens[GILLGRATER_MAX_RANK];
} gillgrater_shape;

/* A number: 0 for a success, else the refusal. The result's shape; for a refusal the scalar's, with eight lengths of 0. */
typedef struct {
    size_t number;
    gillgrater_shape shape;
} gillgrater_answer;

/* A position for each axis, and whether the last place was passed. */
typedef struct {
    size_t positions[GILLGRATER_MAX_RANK];
    bool end;
} gillgrater_place;

/* A part of a buffer: the position of its first element, and how many it has. */
typedef struct {
    size_t start;
    size_t length;
} gillgrater_part;

/* The refusals. Where a call meets several the smallest number answers, but 28 asks DOMAIN before LENGTH. */
enum {
    /* Caused by the program that calls. */
    GILLGRATER_NUMBER = 1,  /* no such primitive */
    GILLGRATER_FORM = 2,    /* rank above 8, a counted length or the count above 16,384, or a buffer shorter than the count */
    GILLGRATER_ORIGIN = 3,  /* g is neither 0 nor 1 */
    GILLGRATER_SPACE = 10,  /* the result's count exceeds the output buffer */
    /* Caused by what is asked. */
    GILLGRATER_RANK = 4,    /* a rank that the primitive does not allow */
    GILLGRATER_AXIS = 5,    /* k - g is below 0 or not below the rank */
    GILLGRATER_LENGTH = 6,  /* lengths or counts that do not fit */
    GILLGRATER_DOMAIN = 7,  /* an element outside the allowed values */
    GILLGRATER_INDEX = 8,   /* a selecting position outside its axis */
    GILLGRATER_LIMIT = 9    /* the result's shape would break the limits */
};

/* The primitives. Those up to 15 take R alone, and L is not looked at. */
enum {
    GILLGRATER_SHAPE = 11,
    GILLGRATER_RAVEL = 12,
    GILLGRATER_INTERVAL = 13,
    GILLGRATER_REVERSE = 14,      /* along axis k */
    GILLGRATER_TRANSPOSE = 15,
    GILLGRATER_RESHAPE = 21,
    GILLGRATER_CATENATE = 22,     /* along axis k */
    GILLGRATER_TAKE = 23,
    GILLGRATER_DROP = 24,
    GILLGRATER_ROTATE = 25,       /* along axis k */
    GILLGRATER_TRANSPOSE_BY = 26,
    GILLGRATER_COMPRESS = 27,     /* along axis k */
    GILLGRATER_EXPAND = 28,       /* along axis k */
    GILLGRATER_INDEX_OF = 29,
    GILLGRATER_MEMBER = 30,
    GILLGRATER_SELECT = 31        /* along axis k */
};

/* A call: primitive number, origin g (0 or 1), axis number k counted from g, the operands L and R, and the output buffer. An operand is a
   shape and a buffer whose first count elements are the array, row by row; later ones are not read. A result fills the front of `out`;
   elements after its count keep their values, and a refusal leaves all of them. */
gillgrater_answer gillgrater_call(
    int32_t primitive, int32_t g, int32_t k,
    gillgrater_shape ls, const int32_t *l, size_t l_length,
    gillgrater_shape rs, const int32_t *r, size_t r_length,
    int32_t *out, size_t out_length);

/* Item i of R's first axis, counted from g, as a part of R's own buffer: its elements are r[start] to r[start + length - 1]. A refusal
   gives 0 and 0, and an item may have no elements too: gillgrater_item_shape tells them apart. */
gillgrater_part gillgrater_item(int32_t g, int32_t i, gillgrater_shape rs, const int32_t *r, size_t r_length);

/* The number (0, or FORM, ORIGIN, RANK for a scalar, INDEX) and the item's shape. */
gillgrater_answer gillgrater_item_shape(int32_t g, int32_t i, gillgrater_shape rs, const int32_t *r, size_t r_length);

/* The next place of the shape row by row, the last axis fastest. After the last place, in an empty array or a bad shape, or from a place
   outside the shape or already marked, all zeros marked as the end. Positions past the rank are not read and come back as 0. */
gillgrater_place gillgrater_successor(gillgrater_place p, gillgrater_shape s);

/* How many elements a shape counts; one more than the largest count for a bad shape. */
size_t gillgrater_count(gillgrater_shape s);

/* The limits of the archive, to be held against those of this header. */
size_t gillgrater_max_rank(void);
size_t gillgrater_max_count(void);

#ifdef __cplusplus
}
#endif

#endif
