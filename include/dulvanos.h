/*
 * Dulvanos: checks and seals an image of a shader module, and walks its tables.
 *
 * Each call puts the records of an image, one after the other, on a new draft. At the first record that put
 * refuses it stops and answers that refusal; else it checks the module that the records make, or seals it: the
 * tests of the check and then those that it leaves out. The calls that walk seal it, and then write a value for
 * each item of one of its tables. docs/LIBRARY.md has how to build and link, docs/FORMAT.md what an image is,
 * docs/REFUSALS.md, docs/CHECK.md and docs/SEAL.md the numbers.
 *
 * Memory: a call keeps the records in arrays on its own stack. It allocates nothing, reads the image and
 * nothing else of the caller's and keeps nothing for later. The calls that walk write the values that they are
 * lent, and read of them what they have written; nothing else of the caller's is written.
 *
 * Threads: there is no state, so any number of calls may run at once, also on one image, as long as nothing
 * writes that image meanwhile, and nothing else uses the values that a call is lent.
 *
 * Arguments: image points to length bytes that can be read. It is not NULL; for length 0 it may be any other
 * pointer. Every image is answered: no content is an error of the caller's. values points to as many values as
 * there are places, which can be read and written and lie apart from the image. It is not NULL; for 0 places it
 * may be any other pointer that is aligned for a value. The values may hold anything.
 */
#ifndef DULVANOS_H
#define DULVANOS_H

#include <stddef.h>
#include <stdint.h>

#ifdef __cplusplus
extern "C" {
#endif

/* What a call keeps of an image, and what the calls whose names end in _large do: so many bytes, and so many
   records. A record past either is refused with 6. */
#define DULVANOS_BYTES 1048576
#define DULVANOS_SLOTS 65536
#define DULVANOS_LARGE_BYTES 4194304
#define DULVANOS_LARGE_SLOTS 262144

/* How much stack a thread needs: for dulvanos_check, dulvanos_seal and the five calls beside each, dulvanos_depth
   and dulvanos_steady, which use a little more than 2 MiB, and for the four calls whose names end in _large. */
#define DULVANOS_STACK 4194304
#define DULVANOS_LARGE_STACK 67108864

/* The number of a refusal; numbers never change their meaning. */
enum dulvanos_refusal {
    DULVANOS_PASSES = 0,
    /* of put, with four zeros */
    DULVANOS_NO_SUCH_KIND = 1, /* no kind has the number of the record's first byte */
    DULVANOS_WRONG_LENGTH = 2, /* the record is cut short */
    DULVANOS_BAD_FIELD = 3,    /* a field holds what it may not */
    DULVANOS_MISPLACED = 4,    /* the record may not stand here */
    DULVANOS_TOO_DEEP = 5,     /* it would open a 65th bracket */
    DULVANOS_FULL = 6,         /* too few bytes, no slot or no number is left for it */
    /* of the check and of sealing, with four zeros */
    DULVANOS_UNFINISHED = 7,   /* a function is open or records wait */
    /* of the check and of sealing, with a kind, two numbers and a position */
    DULVANOS_INSIDE = 8,       /* a handle names no item of its table: first is its number, second is 0 */
    DULVANOS_EARLIER = 9,      /* item first depends on item second, which is not earlier */
    DULVANOS_RANGE = 10,       /* the range from first to second is neither empty nor inside */
    /* of sealing alone, with a kind, two numbers and a position */
    DULVANOS_PLACED = 11,         /* global expression first is of a kind that stands in bodies only; second is 0 */
    DULVANOS_SEALED_INSIDE = 12,  /* a handle names no item of its table, or the number of an argument none: first is
                                     that number, second is 0 */
    DULVANOS_SEALED_EARLIER = 13, /* item first depends on item second, which is not earlier, where the check does
                                     not look */
    /* of a walk, with four zeros */
    DULVANOS_NO_SUCH_BODY = 14,   /* no function or entry point has that number, or no table has */
    DULVANOS_TOO_FEW_PLACES = 15  /* there are fewer places than items */
};

/* What first and second count, with refusals 8 to 13. */
enum dulvanos_kind {
    DULVANOS_TYPE = 1,
    DULVANOS_CONSTANT = 2,
    DULVANOS_OVERRIDE = 3,
    DULVANOS_GLOBAL_VARIABLE = 4,
    DULVANOS_LOCAL_VARIABLE = 5,
    DULVANOS_EXPRESSION = 6,
    DULVANOS_FUNCTION = 7,
    DULVANOS_ARGUMENT = 8,
    DULVANOS_DIAGNOSTIC_FILTER_NODE = 9
};

/* All 0 where the image passes. */
struct dulvanos_verdict {
    uint32_t number;  /* of the refusal */
    uint32_t kind;    /* what first and second count, or 0 */
    size_t first;     /* the first number of the fault, or 0 */
    size_t second;    /* the second number of the fault, or 0 */
    size_t position;  /* the place, from 0, of the record under test among the kept records, or 0 */
};

/* The whole answer of the check, in DULVANOS_BYTES bytes and DULVANOS_SLOTS slots. */
struct dulvanos_verdict dulvanos_check(const uint8_t *image, size_t length);

/* One number of that answer each. Each call checks the image anew. */
uint32_t dulvanos_check_number(const uint8_t *image, size_t length);
uint32_t dulvanos_check_kind(const uint8_t *image, size_t length);
size_t dulvanos_check_first(const uint8_t *image, size_t length);
size_t dulvanos_check_second(const uint8_t *image, size_t length);
size_t dulvanos_check_position(const uint8_t *image, size_t length);

/* The whole answer of the check, in DULVANOS_LARGE_BYTES bytes and DULVANOS_LARGE_SLOTS slots. To be called on
   a thread with a stack of DULVANOS_LARGE_STACK bytes. The records are put and checked so many times in the same
   memory, each time on a new draft, and the last answer is given: 1 for use, more to measure; 0 is as 1. */
struct dulvanos_verdict dulvanos_check_large(const uint8_t *image, size_t length, uint32_t times);

/* The whole answer of sealing, in as much memory as dulvanos_check. */
struct dulvanos_verdict dulvanos_seal(const uint8_t *image, size_t length);

/* One number of that answer each. Each call seals the image anew. */
uint32_t dulvanos_seal_number(const uint8_t *image, size_t length);
uint32_t dulvanos_seal_kind(const uint8_t *image, size_t length);
size_t dulvanos_seal_first(const uint8_t *image, size_t length);
size_t dulvanos_seal_second(const uint8_t *image, size_t length);
size_t dulvanos_seal_position(const uint8_t *image, size_t length);

/* The whole answer of sealing, as dulvanos_check_large has that of the check. */
struct dulvanos_verdict dulvanos_seal_large(const uint8_t *image, size_t length, uint32_t times);

/* The tables that can be walked. An item is named by its number in its table, from 0, and its operands are earlier
   items of the same table. */
enum dulvanos_table {
    DULVANOS_TYPES = 0,
    DULVANOS_FILTERS = 1,             /* the diagnostic filter nodes */
    DULVANOS_FUNCTIONS = 2,           /* the operands of a function are those that it
                                         has results of, and then those that it calls */
    DULVANOS_GLOBAL_EXPRESSIONS = 3,
    DULVANOS_FUNCTION_BODY = 4,       /* the expressions of the function with the number body */
    DULVANOS_ENTRY_POINT_BODY = 5     /* the expressions of the entry point with the number body */
};

/* What a walk answers. Where the image is refused, the first five are those of dulvanos_seal; with 14 and 15 the
   next four are 0. */
struct dulvanos_walked {
    uint32_t number;  /* of the refusal, or 0 */
    uint32_t kind;    /* what first and second count, or 0 */
    size_t first;     /* the first number of the fault, or 0 */
    size_t second;    /* the second number of the fault, or 0 */
    size_t position;  /* the place, from 0, of the record under test among the kept records, or 0 */
    size_t items;     /* how many items the table has, which are as many values written; 0 with a refusal */
    size_t takes;     /* how many operands all its items have together; 0 with a refusal */
};

/* Seals the image, in as much memory as dulvanos_seal, and walks a table: for each item in turn its value is made
   from its record and from the values of its operands, and written in the place of its number. Values in places
   past the items stay as they were, and with any refusal all do. body counts for the last two tables alone. The
   refusal is the first of these: that of put, that of sealing, 14, 15. */

/* The depth of each item: 1 without operands, and else one more than the deepest operand's, up to 4294967295. */
struct dulvanos_walked dulvanos_depth(const uint8_t *image, size_t length, uint32_t table, uint32_t body,
                                      uint32_t *values, size_t places);

/* Whether each item is steady, by 1 and 0: it is where it is an expression of one of these kinds and all its
   operands are: Literal, Constant, ZeroValue, Compose, Access, AccessIndex, Splat, Swizzle, Unary, Binary, Select,
   Relational, Math, As. */
struct dulvanos_walked dulvanos_steady(const uint8_t *image, size_t length, uint32_t table, uint32_t body,
                                       uint8_t *values, size_t places);

/* The same in DULVANOS_LARGE_BYTES bytes and DULVANOS_LARGE_SLOTS slots, to be called on a thread with a stack of
   DULVANOS_LARGE_STACK bytes. */
struct dulvanos_walked dulvanos_depth_large(const uint8_t *image, size_t length, uint32_t table, uint32_t body,
                                            uint32_t *values, size_t places);
struct dulvanos_walked dulvanos_steady_large(const uint8_t *image, size_t length, uint32_t table, uint32_t body,
                                             uint8_t *values, size_t places);

#ifdef __cplusplus
}
#endif

#endif
