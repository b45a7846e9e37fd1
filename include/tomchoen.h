/*
 * Tomchoen for C: weighted multi-tape automata ("tables") in lent memory.
 *
 * A table is three numbers and two byte arrays: tapes (1 to 8), states (0 to 1,024), arcs (0 to 8,192), its state records of
 * 10 bytes and its arc records of 80 bytes.
 *
 *   state record: initial weight present (0 or 1), initial weight (4 bytes, low byte first), final weight present, final weight
 *   arc record:   source (2 bytes, low byte first), target (2), weight (4), then for each of eight tapes a length (1) and a
 *                 label (8 bytes, A to Z and 0 to 9)
 *
 * Whatever is unused is zero. An array may be longer than its records; what follows them is not part of the table.
 *
 * Every function answers with one number. Its low byte is 0, or the number of a refusal (enum tomchoen_refusal), or,
 * of a lookup or a path, TOMCHOEN_NONE. Above the low byte stands what the function tells; the macros below take it
 * out. Of a path that is told the number is 0: what it tells stands in its result and list.
 *
 * For all functions:
 *   - Every array is a pointer and a length in bytes, and any contents and lengths are allowed: what is wrong is refused. A pointer
 *     must not be null, also where the length is 0, and must have as many bytes as the length says.
 *   - The arrays of one call must not overlap, except that two which are only read (const) may.
 *   - A function reads and writes no memory but the arrays lent to it, allocates nothing and keeps nothing between calls.
 *   - A refusal leaves the result arrays (out_states, out_arcs, output, result, list) as they were, and so does
 *     TOMCHOEN_NONE. Otherwise the records stand at their front and the rest keeps its bytes.
 *   - Work space, and the product space of a join, are zero afterwards, refused or not.
 *   - Space for a result is counted in whole records; more than 1,024 states and 8,192 arcs are never used.
 *   - The numbers of result states and the order of result arcs are fixed: the same call gives the same bytes, also
 *     with more space or higher limits. docs/C-API.md says which order.
 *
 * tomchoen_table.h, which is included below, has the same calls on tables, spaces and pairs as structs.
 */
#ifndef TOMCHOEN_H
#define TOMCHOEN_H

#include <stddef.h>
#include <stdint.h>

#ifdef __cplusplus
extern "C" {
#endif

/* The version, as numbers and as a string; docs/C-API.md says what a step of each means. */
#define TOMCHOEN_VERSION_MAJOR 0
#define TOMCHOEN_VERSION_MINOR 7
#define TOMCHOEN_VERSION_PATCH 0
#define TOMCHOEN_VERSION \
    TOMCHOEN_STRING(TOMCHOEN_VERSION_MAJOR) "." TOMCHOEN_STRING(TOMCHOEN_VERSION_MINOR) "." \
    TOMCHOEN_STRING(TOMCHOEN_VERSION_PATCH)

/* What a macro stands for, as a string. */
#define TOMCHOEN_STRING(macro) TOMCHOEN_QUOTED(macro)
#define TOMCHOEN_QUOTED(words) #words

/* Why a call was refused; docs/REFUSALS.md says what to do about each. */
enum tomchoen_refusal {
    TOMCHOEN_SHORT = 1,        /* a text, or the records of a table, end too early */
    TOMCHOEN_FORM = 2,         /* bytes that are not in the form asked for */
    TOMCHOEN_SIZE = 3,         /* a count, a weight, a label or a string out of range */
    TOMCHOEN_STATE = 4,        /* an arc names a state that the table lacks */
    TOMCHOEN_TAPE = 5,         /* a tape that is not there, no tape chosen or left, unequal tape or string counts */
    TOMCHOEN_PAIRS = 6,        /* more than four pairs, or a tape named twice */
    TOMCHOEN_LIMIT = 7,        /* a pair's limit above 64 */
    TOMCHOEN_STATES_FULL = 8,  /* more states than the space lent or 1,024 */
    TOMCHOEN_ARCS_FULL = 9,    /* more arcs than the space lent or 8,192 */
    TOMCHOEN_DELAY = 10,       /* a step that is needed leaves more than its pair's limit */
    TOMCHOEN_WEIGHT = 11,      /* a summed weight above 999,999,999 in a product */
    TOMCHOEN_WIDTH = 12,       /* more than eight tapes */
    TOMCHOEN_SPACE = 13,       /* work, output or, of a forecast or a path, result space shorter than needed */
    TOMCHOEN_PATH = 14         /* a lent list shorter than the path behind a weight */
};

/* Of a lookup and of a path: no successful path spells the tuple. */
#define TOMCHOEN_NONE 255

/* The word of docs/REFUSALS.md for a refusal; "none" for TOMCHOEN_NONE, "not refused" for 0, "unknown refusal" for any
 * other number. */
static inline const char *tomchoen_refusal_word(unsigned refusal) {
    switch (refusal) {
    case 0: return "not refused";
    case TOMCHOEN_SHORT: return "short";
    case TOMCHOEN_FORM: return "form";
    case TOMCHOEN_SIZE: return "size";
    case TOMCHOEN_STATE: return "state";
    case TOMCHOEN_TAPE: return "tape";
    case TOMCHOEN_PAIRS: return "pairs";
    case TOMCHOEN_LIMIT: return "limit";
    case TOMCHOEN_STATES_FULL: return "states full";
    case TOMCHOEN_ARCS_FULL: return "arcs full";
    case TOMCHOEN_DELAY: return "delay";
    case TOMCHOEN_WEIGHT: return "weight";
    case TOMCHOEN_WIDTH: return "width";
    case TOMCHOEN_SPACE: return "space";
    case TOMCHOEN_PATH: return "path";
    case TOMCHOEN_NONE: return "none";
    default: return "unknown refusal";
    }
}

/* The parts of an answer: the low byte; of a table its counts; of a text or of forecasts the length; of a lookup the
 * weight. */
#define TOMCHOEN_REFUSAL(answer) ((unsigned)((answer) & 255))
#define TOMCHOEN_TAPES(answer) ((size_t)((answer) >> 8 & 255))
#define TOMCHOEN_STATES(answer) ((size_t)((answer) >> 16 & 65535))
#define TOMCHOEN_ARCS(answer) ((size_t)((answer) >> 32))
#define TOMCHOEN_LENGTH(answer) ((size_t)((answer) >> 8))
#define TOMCHOEN_WEIGHT_OF(answer) ((uint64_t)((answer) >> 8))

/* Whether an answer is "none", and whether it is a refusal: its low byte neither 0 nor TOMCHOEN_NONE. Each takes its
 * argument once, so that it may be a call. */
#define TOMCHOEN_IS_NONE(answer) (TOMCHOEN_REFUSAL(answer) == TOMCHOEN_NONE)
#define TOMCHOEN_IS_REFUSED(answer) (TOMCHOEN_REFUSAL(answer) - 1u < TOMCHOEN_NONE - 1u)

/* The most that a table can have, and the greatest limit of a pair. */
#define TOMCHOEN_MOST_TAPES 8
#define TOMCHOEN_MOST_STATES 1024
#define TOMCHOEN_MOST_ARCS 8192
#define TOMCHOEN_MOST_LIMIT 64

/* Bytes of so many records. */
#define TOMCHOEN_STATE_BYTES(states) ((size_t)10 * (states))
#define TOMCHOEN_ARC_BYTES(arcs) ((size_t)80 * (arcs))

/* Bytes of so many pairs: first tape, second tape, both counted from 1, and the pair's delay limit, 0 to 64. */
#define TOMCHOEN_PAIR_BYTES(pairs) ((size_t)3 * (pairs))

/* Bytes of the forecasts of so many pairs. */
#define TOMCHOEN_FORECAST_BYTES(pairs) ((size_t)6 * (pairs))

/* The number in two, four or eight bytes at a place, low byte first. */
#define TOMCHOEN_TWO_BYTES(bytes, at) ((unsigned)((bytes)[at] | (unsigned)(bytes)[(at) + 1] << 8))
#define TOMCHOEN_FOUR_BYTES(bytes, at) \
    ((uint32_t)TOMCHOEN_TWO_BYTES(bytes, at) | (uint32_t)TOMCHOEN_TWO_BYTES(bytes, (at) + 2) << 16)
#define TOMCHOEN_EIGHT_BYTES(bytes, at) \
    ((uint64_t)TOMCHOEN_FOUR_BYTES(bytes, at) | (uint64_t)TOMCHOEN_FOUR_BYTES(bytes, (at) + 4) << 32)

/* The record of pair k, counted from 0, in the result of tomchoen_forecast: what it tells, the delay, the number. */
#define TOMCHOEN_FORECAST(result, k) TOMCHOEN_TWO_BYTES(result, TOMCHOEN_FORECAST_BYTES(k))
#define TOMCHOEN_DELAY_OF(result, k) TOMCHOEN_TWO_BYTES(result, TOMCHOEN_FORECAST_BYTES(k) + 2)
#define TOMCHOEN_NUMBER_OF(result, k) TOMCHOEN_TWO_BYTES(result, TOMCHOEN_FORECAST_BYTES(k) + 4)

/* What a record tells; 0 is none of these. */
#define TOMCHOEN_FORECAST_NUMBER 1 /* the delay, and the number of states */
#define TOMCHOEN_FORECAST_OVER 2   /* the delay; the number is above 65,535, and its place holds 0 */
#define TOMCHOEN_FORECAST_MIXED 3  /* neither: some successful path touches cycles of positive and of negative delay */

/* Bytes of the result of tomchoen_path, and of a list with places for so many arcs. */
#define TOMCHOEN_PATH_BYTES ((size_t)24)
#define TOMCHOEN_PATH_LIST_BYTES(arcs) ((size_t)2 * (arcs))

/* The most arcs that a path told can have; symbols is the number of symbols of the tuple, all strings together. */
#define TOMCHOEN_PATH_MOST_ARCS(states, symbols) ((size_t)(states) * ((size_t)1 + (symbols)))

/* What the result of tomchoen_path tells: the weight, the starting state, the number of arcs; and the number of arc k
 * of the path, counted from 0, in its list. States and arcs have their numbers in the table, counted from 0. */
#define TOMCHOEN_PATH_WEIGHT(result) TOMCHOEN_EIGHT_BYTES(result, 0)
#define TOMCHOEN_PATH_START(result) ((size_t)TOMCHOEN_FOUR_BYTES(result, 16))
#define TOMCHOEN_PATH_ARCS(result) ((size_t)TOMCHOEN_FOUR_BYTES(result, 20))
#define TOMCHOEN_PATH_ARC(list, k) TOMCHOEN_TWO_BYTES(list, TOMCHOEN_PATH_LIST_BYTES(k))

/* Bytes of the text of a table. */
#define TOMCHOEN_TEXT_BYTES(tapes, states, arcs) \
    ((size_t)16 + (size_t)21 * (states) + ((size_t)23 + (size_t)9 * (tapes)) * (arcs))

/* Bytes of work space; out_* and product_* are whole records lent, read_states is the number of states of the table read. */
#define TOMCHOEN_BUILD_WORK(out_states, out_arcs, read_states) \
    ((size_t)320 * (out_states) + (size_t)16 * (out_arcs) + (size_t)64 * (read_states))
#define TOMCHOEN_FORECAST_WORK(read_states) ((size_t)64 * (read_states))
#define TOMCHOEN_PRODUCT_WORK(out_states, out_arcs) ((size_t)16 * (out_states) + (size_t)16 * (out_arcs))
#define TOMCHOEN_JOIN_WORK(product_states, product_arcs, out_states, out_arcs) \
    (TOMCHOEN_PRODUCT_WORK(product_states, product_arcs) + TOMCHOEN_BUILD_WORK(out_states, out_arcs, product_states))
/* combinations is the product, over the strings of the tuple, of (length + 1). */
#define TOMCHOEN_LOOKUP_WORK(states, combinations) ((size_t)8 * (states) * (combinations))
#define TOMCHOEN_PATH_WORK(states, combinations) ((size_t)24 * (states) * (combinations))

/* Reads the text of a table. Refusals: 1, 2, 3, 4, 8, 9. Tells the counts. */
uint64_t tomchoen_read(const uint8_t *text, size_t text_length,
                       uint8_t *out_states, size_t out_states_length, uint8_t *out_arcs, size_t out_arcs_length);

/* Writes the text of a table. Refusals: 1 to 4 of the table, 13. Tells the number of bytes written. */
uint64_t tomchoen_write(size_t tapes, size_t states, size_t arcs,
                        const uint8_t *state_bytes, size_t state_bytes_length, const uint8_t *arc_bytes, size_t arc_bytes_length,
                        uint8_t *output, size_t output_length);

/* Keeps the accounts that agree on pairs of tapes, three bytes a pair: first tape, second tape, limit. Strings agree
 * where they are equal after reading I as 1 and O as 0; labels are copied as they are written. The limit is the most
 * symbols that one tape of the pair may be ahead of the other, each pair held to its own. One or two last bytes alone
 * are no pair and do not count. Refusals: 1 to 4 of the table, then of the whole list 5, 6, 7 (without pairs
 * there is no 7), then 13, 8, 9, 10. Tells the counts. */
uint64_t tomchoen_build(size_t tapes, size_t states, size_t arcs,
                        const uint8_t *state_bytes, size_t state_bytes_length, const uint8_t *arc_bytes, size_t arc_bytes_length,
                        const uint8_t *pairs, size_t pairs_length,
                        uint8_t *out_states, size_t out_states_length, uint8_t *out_arcs, size_t out_arcs_length,
                        uint8_t *work, size_t work_length);

/* Tells what a build on each pair of tapes can need, without a build. Pairs are lent as to tomchoen_build, three bytes
 * a pair, and their limits are not read. The result gets a record of 6 bytes for each pair, in list order: three
 * numbers of two bytes, low byte first (what it tells, the delay, the number of states). The delay is (states on
 * successful paths less one, or 0) x the greatest delay of an arc on them, also above 64; the number is all states x
 * (1 + 2(s + s^2 + .. + s^delay)), s the symbols on the pair's two tapes on any arc, I counted as 1 and O as 0.
 * Refusals: 1 to 4 of the table, 5, 6, 13 (also where the result is shorter than the records of all pairs). Tells the
 * number of bytes written. */
uint64_t tomchoen_forecast(size_t tapes, size_t states, size_t arcs,
                           const uint8_t *state_bytes, size_t state_bytes_length, const uint8_t *arc_bytes, size_t arc_bytes_length,
                           const uint8_t *pairs, size_t pairs_length,
                           uint8_t *result, size_t result_length, uint8_t *work, size_t work_length);

/* The aligned product of two tables. Refusals: 1 to 4 of the first table, then of the second, 12, 13, 8, 9, 11. Tells the counts. */
uint64_t tomchoen_product(size_t first_tapes, size_t first_states, size_t first_arcs,
                          const uint8_t *first_state_bytes, size_t first_state_bytes_length,
                          const uint8_t *first_arc_bytes, size_t first_arc_bytes_length,
                          size_t second_tapes, size_t second_states, size_t second_arcs,
                          const uint8_t *second_state_bytes, size_t second_state_bytes_length,
                          const uint8_t *second_arc_bytes, size_t second_arc_bytes_length,
                          uint8_t *out_states, size_t out_states_length, uint8_t *out_arcs, size_t out_arcs_length,
                          uint8_t *work, size_t work_length);

/* Joins two tables on pairs (a tape of the first, a tape of the second): their product, what agrees of it, without
 * the second tapes. Pairs are lent as to tomchoen_build, three bytes a pair, each with its own limit, and strings agree
 * as there; a tape kept for two is written as in the first table. The product stands in product space of its own.
 * Refusals: 1 to 4 of the first table, then of the second, 12, 5, 6, 7, 13, then 8, 9, 11 of the product in its space,
 * then 8, 9, 10 of the result in its space. Tells the counts. */
uint64_t tomchoen_join(size_t first_tapes, size_t first_states, size_t first_arcs,
                       const uint8_t *first_state_bytes, size_t first_state_bytes_length,
                       const uint8_t *first_arc_bytes, size_t first_arc_bytes_length,
                       size_t second_tapes, size_t second_states, size_t second_arcs,
                       const uint8_t *second_state_bytes, size_t second_state_bytes_length,
                       const uint8_t *second_arc_bytes, size_t second_arc_bytes_length,
                       const uint8_t *pairs, size_t pairs_length,
                       uint8_t *product_states, size_t product_states_length, uint8_t *product_arcs, size_t product_arcs_length,
                       uint8_t *out_states, size_t out_states_length, uint8_t *out_arcs, size_t out_arcs_length,
                       uint8_t *work, size_t work_length);

/* Appends the second table to the first. Refusals: 1 to 4 of the first table, then of the second, 5, 8, 9. Tells the counts. */
uint64_t tomchoen_union(size_t first_tapes, size_t first_states, size_t first_arcs,
                        const uint8_t *first_state_bytes, size_t first_state_bytes_length,
                        const uint8_t *first_arc_bytes, size_t first_arc_bytes_length,
                        size_t second_tapes, size_t second_states, size_t second_arcs,
                        const uint8_t *second_state_bytes, size_t second_state_bytes_length,
                        const uint8_t *second_arc_bytes, size_t second_arc_bytes_length,
                        uint8_t *out_states, size_t out_states_length, uint8_t *out_arcs, size_t out_arcs_length);

/* Chooses tapes: a list of 1 to 8, one byte each, counted from 1, repeats allowed. Refusals: 1 to 4 of the table, 12, 5, 8, 9. Tells the
 * counts. */
uint64_t tomchoen_project(size_t tapes, size_t states, size_t arcs,
                          const uint8_t *state_bytes, size_t state_bytes_length, const uint8_t *arc_bytes, size_t arc_bytes_length,
                          const uint8_t *chosen, size_t chosen_length,
                          uint8_t *out_states, size_t out_states_length, uint8_t *out_arcs, size_t out_arcs_length);

/* Drops the tapes marked in a mask, whose bit k is tape k + 1. Refusals: 1 to 4 of the table, 5, 8, 9. Tells the counts. */
uint64_t tomchoen_drop(size_t tapes, size_t states, size_t arcs,
                       const uint8_t *state_bytes, size_t state_bytes_length, const uint8_t *arc_bytes, size_t arc_bytes_length,
                       uint8_t mask,
                       uint8_t *out_states, size_t out_states_length, uint8_t *out_arcs, size_t out_arcs_length);

/* The weight of a tuple: one string a tape, each of at most 64 symbols and ended by byte 10. Tells the least weight of
 * the successful paths that spell it as it is written (I is not read as 1 here, nor O as 0), or TOMCHOEN_NONE.
 * Refusals: 1 to 4 of the table, 1 of the tuple, 5, 3, 2, 13. */
uint64_t tomchoen_lookup(size_t tapes, size_t states, size_t arcs,
                         const uint8_t *state_bytes, size_t state_bytes_length, const uint8_t *arc_bytes, size_t arc_bytes_length,
                         const uint8_t *tuple, size_t tuple_length,
                         uint8_t *work, size_t work_length);

/* The weight of a tuple, lent as to tomchoen_lookup, with a path of that weight: of the successful paths that spell
 * the tuple at its weight the one with the fewest arcs, then the lower starting state, then at the first difference the
 * lower arc number. The result gets 24 bytes, low byte first: the weight (bytes 0 to 7), 0 (8 to 15: room for a second
 * part of the weight), the starting state (16 to 19) and the number of arcs (20 to 23). The list gets the arc numbers
 * in the order of the path, two bytes each; a last byte alone is no place. Without a path the answer is TOMCHOEN_NONE,
 * and no list is needed. Refusals: 1 to 4 of the table, 1 of the tuple, 5, 3, 2, 13 (also where the result is shorter
 * than 24 bytes), 14. */
uint64_t tomchoen_path(size_t tapes, size_t states, size_t arcs,
                       const uint8_t *state_bytes, size_t state_bytes_length,
                       const uint8_t *arc_bytes, size_t arc_bytes_length,
                       const uint8_t *tuple, size_t tuple_length,
                       uint8_t *result, size_t result_length, uint8_t *list, size_t list_length,
                       uint8_t *work, size_t work_length);

#ifdef __cplusplus
}
#endif

#include "tomchoen_table.h"

#endif
