/*
 * The entries of Heralinda for build tools. Link libhost.a for heralinda_search and librecords.a for
 * heralinda_search_records, which `tools/libraries` writes to target/staticlib/; a program may link both.
 */
#ifndef HERALINDA_H
#define HERALINDA_H

#include <stddef.h>
#include <stdint.h>

#ifdef __cplusplus
extern "C" {
#endif

/*
 * Reads the timing book, searches its table, and writes the same table with the verdict found to `out`.
 * The stored verdict plays no part once its form is read.
 *
 * Answers 0 with verdict 1 (an order) or 4 with verdict 2 (the blocked group). Any other number is a refusal, and
 * then `out` is as it was: 9, 10, 11, 12, 2, 1, 13 or 3 where the book cannot be read, 8 where `out` is shorter than
 * the book. Bytes of `out` behind the book stay as they were. docs/NUMBERS.md has the numbers.
 *
 * The two buffers must not overlap. Nothing else is asked: any bytes of any length get one documented answer.
 */
uint32_t heralinda_search(const uint8_t *book, size_t book_length, uint8_t *out, size_t out_length);

/* A task, in ticks of one microsecond: a row in range has 1 <= c <= d <= t <= 10,000,000. */
typedef struct {
    uint32_t c;
    uint32_t d;
    uint32_t t;
} heralinda_task;

/* A set of rows: row 0 is the lowest bit of `low`, row 64 the lowest of `high`. */
typedef struct {
    uint64_t low;
    uint64_t high;
} heralinda_set;

/* What a search answers; parts that do not belong to its number are zero. */
typedef struct {
    uint32_t number;
    size_t row;          /* with 3: the lowest row out of range */
    heralinda_set group; /* with 4: the blocked group */
    uint64_t tests;      /* with 0 and 4: the tests made */
} heralinda_found;

/*
 * Searches a table that is kept as a list of tasks, row 0 first, on `m` cores.
 *
 * Answers 0 with the order, a byte for each row from the highest level down, at the start of `out`, or 4 with the
 * blocked group. Any other number is a refusal: 1 where there are more than 96 tasks, 2 where `m` is not 1 to 32,
 * 3 where a row is out of range, 8 where `out` has fewer bytes than there are tasks. With every number but 0 `out` is
 * as it was, and with 0 its later bytes are. docs/NUMBERS.md has the numbers.
 *
 * The tasks and `out` must not overlap. Nothing else is asked: any tasks, as many as there are, get one documented
 * answer.
 */
heralinda_found heralinda_search_records(const heralinda_task *tasks, size_t task_count, uint32_t m, uint8_t *out,
                                         size_t out_length);

#ifdef __cplusplus
}
#endif

#endif
