/*
 * Tables, lent space and pairs of tapes as structs, and a wrapper over every function of tomchoen.h that takes them;
 * for C11 and C++11.
 *
 * A wrapper hands its structs to the function of the same call, and returns the answer of 64 bits as it came. All that
 * tomchoen.h says of arrays, answers and refusals holds. Besides,
 *   - the counts of a result table are set where the call gave a table; otherwise the result table stays as it was;
 *   - empty space may be null: where a pointer is null and its length (or the number of pairs) is 0, the function gets
 *     a pointer to a byte of the wrapper instead. A null pointer with any other length is the caller's fault.
 *
 * A pointer to a table must not be null. The arrays of one call must not overlap, except that two which are only read
 * may: a result table needs arrays of its own, and so does work space.
 */
#ifndef TOMCHOEN_TABLE_H
#define TOMCHOEN_TABLE_H

#include "tomchoen.h"

#include <assert.h>

#ifdef __cplusplus
extern "C" {
#endif

/* Lent space: a place that may be written, and its length in bytes. */
struct tomchoen_space {
    uint8_t *bytes;
    size_t length;
};

/* Lent bytes that are only read: a text, a tuple, a list of chosen tapes. */
struct tomchoen_bytes {
    const uint8_t *bytes;
    size_t length;
};

/* A table: its counts, and the space lent for its records. */
struct tomchoen_table {
    size_t tapes, states, arcs;
    struct tomchoen_space state_space, arc_space;
};

/* A pair of tapes, counted from 1, and its limit; lent as an array and the number of pairs. */
struct tomchoen_pair {
    uint8_t first, second, limit;
};

static_assert(sizeof(struct tomchoen_pair) == TOMCHOEN_PAIR_BYTES(1), "a pair is three bytes without a gap");

/* Space of so many bytes. */
static inline struct tomchoen_space tomchoen_make_space(uint8_t *bytes, size_t length) {
    struct tomchoen_space space = {bytes, length};
    return space;
}

/* So many bytes to be read. */
static inline struct tomchoen_bytes tomchoen_make_bytes(const uint8_t *bytes, size_t length) {
    struct tomchoen_bytes lent = {bytes, length};
    return lent;
}

/* A table in lent space. Its counts are 0 until a call gives it a table: of no tapes it is refused (TOMCHOEN_SIZE). */
static inline struct tomchoen_table tomchoen_make_table(struct tomchoen_space state_space,
                                                        struct tomchoen_space arc_space) {
    struct tomchoen_table table = {0, 0, 0, state_space, arc_space};
    return table;
}

/* Sets a table's counts to those that an answer tells, unless it is a refusal or none; returns the answer. */
static inline uint64_t tomchoen_take_counts(struct tomchoen_table *table, uint64_t answer) {
    if (TOMCHOEN_REFUSAL(answer) == 0) {
        table->tapes = TOMCHOEN_TAPES(answer);
        table->states = TOMCHOEN_STATES(answer);
        table->arcs = TOMCHOEN_ARCS(answer);
    }
    return answer;
}

/* The pointer of space and of bytes as a function takes it: to the spare byte where they are empty and null. Several
 * may point there, since they have no bytes to overlap. */
static inline uint8_t *tomchoen_space_pointer(struct tomchoen_space space, uint8_t *spare) {
    return space.bytes == NULL && space.length == 0 ? spare : space.bytes;
}
static inline const uint8_t *tomchoen_bytes_pointer(struct tomchoen_bytes lent, const uint8_t *spare) {
    return lent.bytes == NULL && lent.length == 0 ? spare : lent.bytes;
}

/* The bytes of so many pairs. */
static inline struct tomchoen_bytes tomchoen_pair_bytes(const struct tomchoen_pair *pairs, size_t pair_count) {
    return tomchoen_make_bytes((const uint8_t *)pairs, TOMCHOEN_PAIR_BYTES(pair_count));
}

/* Structs as arguments of the functions, for the wrappers alone, each of which has a spare byte: space, bytes, the
 * space of a result table, and a table that is read. */
#define TOMCHOEN_LENT_SPACE(space) tomchoen_space_pointer(space, &spare), (space).length
#define TOMCHOEN_LENT_BYTES(lent) tomchoen_bytes_pointer(lent, &spare), (lent).length
#define TOMCHOEN_LENT_RESULT(table) TOMCHOEN_LENT_SPACE((table)->state_space), TOMCHOEN_LENT_SPACE((table)->arc_space)
#define TOMCHOEN_LENT_TABLE(table) (table)->tapes, (table)->states, (table)->arcs, TOMCHOEN_LENT_RESULT(table)

/* tomchoen_read: the table of a text. */
static inline uint64_t tomchoen_table_read(struct tomchoen_bytes text, struct tomchoen_table *table) {
    uint8_t spare = 0;
    return tomchoen_take_counts(table, tomchoen_read(TOMCHOEN_LENT_BYTES(text), TOMCHOEN_LENT_RESULT(table)));
}

/* tomchoen_write: the text of a table. */
static inline uint64_t tomchoen_table_write(const struct tomchoen_table *table, struct tomchoen_space output) {
    uint8_t spare = 0;
    return tomchoen_write(TOMCHOEN_LENT_TABLE(table), TOMCHOEN_LENT_SPACE(output));
}

/* tomchoen_build: keeps the accounts that agree on pairs of tapes. */
static inline uint64_t tomchoen_table_build(const struct tomchoen_table *table, const struct tomchoen_pair *pairs,
                                            size_t pair_count, struct tomchoen_table *built,
                                            struct tomchoen_space work) {
    uint8_t spare = 0;
    struct tomchoen_bytes list = tomchoen_pair_bytes(pairs, pair_count);
    return tomchoen_take_counts(built, tomchoen_build(TOMCHOEN_LENT_TABLE(table), TOMCHOEN_LENT_BYTES(list),
                                                      TOMCHOEN_LENT_RESULT(built), TOMCHOEN_LENT_SPACE(work)));
}

/* tomchoen_forecast: what a build on each pair of tapes can need; the result gets TOMCHOEN_FORECAST_BYTES. */
static inline uint64_t tomchoen_table_forecast(const struct tomchoen_table *table, const struct tomchoen_pair *pairs,
                                               size_t pair_count, struct tomchoen_space result,
                                               struct tomchoen_space work) {
    uint8_t spare = 0;
    struct tomchoen_bytes list = tomchoen_pair_bytes(pairs, pair_count);
    return tomchoen_forecast(TOMCHOEN_LENT_TABLE(table), TOMCHOEN_LENT_BYTES(list), TOMCHOEN_LENT_SPACE(result),
                             TOMCHOEN_LENT_SPACE(work));
}

/* tomchoen_product: the aligned product of two tables. */
static inline uint64_t tomchoen_table_product(const struct tomchoen_table *first, const struct tomchoen_table *second,
                                              struct tomchoen_table *product, struct tomchoen_space work) {
    uint8_t spare = 0;
    return tomchoen_take_counts(product, tomchoen_product(TOMCHOEN_LENT_TABLE(first), TOMCHOEN_LENT_TABLE(second),
                                                          TOMCHOEN_LENT_RESULT(product), TOMCHOEN_LENT_SPACE(work)));
}

/* tomchoen_join: joins two tables on pairs of tapes; the space for their product is zero afterwards. */
static inline uint64_t tomchoen_table_join(const struct tomchoen_table *first, const struct tomchoen_table *second,
                                           const struct tomchoen_pair *pairs, size_t pair_count,
                                           struct tomchoen_space product_states, struct tomchoen_space product_arcs,
                                           struct tomchoen_table *joined, struct tomchoen_space work) {
    uint8_t spare = 0;
    struct tomchoen_bytes list = tomchoen_pair_bytes(pairs, pair_count);
    return tomchoen_take_counts(joined, tomchoen_join(TOMCHOEN_LENT_TABLE(first), TOMCHOEN_LENT_TABLE(second),
                                                      TOMCHOEN_LENT_BYTES(list), TOMCHOEN_LENT_SPACE(product_states),
                                                      TOMCHOEN_LENT_SPACE(product_arcs), TOMCHOEN_LENT_RESULT(joined),
                                                      TOMCHOEN_LENT_SPACE(work)));
}

/* tomchoen_union: the second table appended to the first. */
static inline uint64_t tomchoen_table_union(const struct tomchoen_table *first, const struct tomchoen_table *second,
                                            struct tomchoen_table *united) {
    uint8_t spare = 0;
    return tomchoen_take_counts(united, tomchoen_union(TOMCHOEN_LENT_TABLE(first), TOMCHOEN_LENT_TABLE(second),
                                                       TOMCHOEN_LENT_RESULT(united)));
}

/* tomchoen_project: the chosen tapes, one byte each. */
static inline uint64_t tomchoen_table_project(const struct tomchoen_table *table, struct tomchoen_bytes chosen,
                                              struct tomchoen_table *projected) {
    uint8_t spare = 0;
    return tomchoen_take_counts(projected, tomchoen_project(TOMCHOEN_LENT_TABLE(table), TOMCHOEN_LENT_BYTES(chosen),
                                                            TOMCHOEN_LENT_RESULT(projected)));
}

/* tomchoen_drop: the tapes that are not marked in the mask. */
static inline uint64_t tomchoen_table_drop(const struct tomchoen_table *table, uint8_t mask,
                                           struct tomchoen_table *left) {
    uint8_t spare = 0;
    return tomchoen_take_counts(left, tomchoen_drop(TOMCHOEN_LENT_TABLE(table), mask, TOMCHOEN_LENT_RESULT(left)));
}

/* tomchoen_lookup: the weight of a tuple, or none. */
static inline uint64_t tomchoen_table_lookup(const struct tomchoen_table *table, struct tomchoen_bytes tuple,
                                             struct tomchoen_space work) {
    uint8_t spare = 0;
    return tomchoen_lookup(TOMCHOEN_LENT_TABLE(table), TOMCHOEN_LENT_BYTES(tuple), TOMCHOEN_LENT_SPACE(work));
}

/* tomchoen_path: the weight of a tuple with a path of that weight, or none; the result gets TOMCHOEN_PATH_BYTES, the
 * list the arcs. */
static inline uint64_t tomchoen_table_path(const struct tomchoen_table *table, struct tomchoen_bytes tuple,
                                           struct tomchoen_space result, struct tomchoen_space list,
                                           struct tomchoen_space work) {
    uint8_t spare = 0;
    return tomchoen_path(TOMCHOEN_LENT_TABLE(table), TOMCHOEN_LENT_BYTES(tuple), TOMCHOEN_LENT_SPACE(result),
                         TOMCHOEN_LENT_SPACE(list), TOMCHOEN_LENT_SPACE(work));
}

#undef TOMCHOEN_LENT_SPACE
#undef TOMCHOEN_LENT_BYTES
#undef TOMCHOEN_LENT_RESULT
#undef TOMCHOEN_LENT_TABLE

#ifdef __cplusplus
}
#endif

#endif
