/*
 * Compares every wrapper of tomchoen_table.h with the function that it calls: the answer, every lent byte, and the
 * result table, whose counts must be those of the answer where the call gave a table and must stay as they were
 * otherwise.
 *
 *   wrappers REFUSALS
 *
 * REFUSALS is docs/REFUSALS.md, whose words tomchoen_refusal_word must give. Each call is made in each situation below
 * with all its arrays, with all of them empty and null, and with each of them of the least length that leaves the
 * answer as it is, of one byte or pair less, empty, and empty and null; null pointers are for the wrapper alone. Arrays
 * have exactly their length, so that valgrind sees any byte read or written behind them; compiled with
 * -fsanitize=nonnull-attribute, the run ends where a function gets a null pointer.
 * The last line is how many calls were compared. Exit status: 0 no difference and every kind of answer met, 1
 * otherwise, 2 wrong usage, a file that cannot be read, or no memory.
 */
#include <stddef.h>
#include <stdint.h>

/* The functions once more, by what they are lent: bytes to be read, space, a table, the space of a result. No array may
 * be null. */
#define BYTES const uint8_t *, size_t
#define SPACE uint8_t *, size_t
#define TABLE size_t, size_t, size_t, BYTES, BYTES
#define RECORDS SPACE, SPACE
#define NOT_NULL __attribute__((nonnull))

#ifdef __cplusplus
extern "C" {
#endif
uint64_t tomchoen_read(BYTES, RECORDS) NOT_NULL;
uint64_t tomchoen_write(TABLE, SPACE) NOT_NULL;
uint64_t tomchoen_build(TABLE, BYTES, RECORDS, SPACE) NOT_NULL;
uint64_t tomchoen_forecast(TABLE, BYTES, SPACE, SPACE) NOT_NULL;
uint64_t tomchoen_product(TABLE, TABLE, RECORDS, SPACE) NOT_NULL;
uint64_t tomchoen_join(TABLE, TABLE, BYTES, RECORDS, RECORDS, SPACE) NOT_NULL;
uint64_t tomchoen_union(TABLE, TABLE, RECORDS) NOT_NULL;
uint64_t tomchoen_project(TABLE, BYTES, RECORDS) NOT_NULL;
uint64_t tomchoen_drop(TABLE, uint8_t, RECORDS) NOT_NULL;
uint64_t tomchoen_lookup(TABLE, BYTES, SPACE) NOT_NULL;
uint64_t tomchoen_path(TABLE, BYTES, SPACE, SPACE, SPACE) NOT_NULL;
#ifdef __cplusplus
}
#endif

#include "tomchoen.h"

#include <stdio.h>
#include <stdlib.h>
#include <string.h>

/* The arrays that calls are lent. */
enum array {
    TEXT, FIRST_STATES, FIRST_ARCS, SECOND_STATES, SECOND_ARCS, PAIRS, CHOSEN, TUPLE,
    PRODUCT_STATES, PRODUCT_ARCS, OUT_STATES, OUT_ARCS, RESULT, LIST, WORK, ARRAYS
};

/* Space in records, for tables that are read, the product of a join and tables that are made, and in bytes. */
enum {
    READ_STATES = 6, READ_ARCS = 7, PRODUCT_MOST_STATES = 21, PRODUCT_MOST_ARCS = 23, OUT_MOST_STATES = 22,
    OUT_MOST_ARCS = 26, RESULT_BYTES = 401, LIST_BYTES = 37
};

/* Texts of tables: document 01's P and Q, two to be joined, a heavy weight, six tapes, no states; one to be refused. */
static const char P[] = "  3     3     3\n         0         -\n         -         -\n         -         0\n"
                        "     0     1         1        A        X         \n"
                        "     1     1         2        B        Y        A\n"
                        "     1     2         3                 Z        B\n";
static const char Q[] = "  2     2     2\n         0         -\n         -         0\n"
                        "     0     0         1        A         \n     0     1         0                 A\n";
static const char CHAIN[] = "  2     3     4\n         0         -\n         -         -\n         -         4\n"
                            "     0     1         1       W1        A\n     1     1         2                 B\n"
                            "     1     2         3        7        C\n     0     2         9        X      ABC\n";
static const char NAMES[] = "  2     2     2\n         0         -\n         -         0\n"
                            "     0     1         5      ABC    SMITH\n     0     1         7     ABBC    JONES\n";
static const char HEAVY[] = "  1     2     1\n         0         -\n         - 999999999\n"
                            "     0     1         1        A\n";
static const char WIDE[] = "  6     1     1\n         0         0\n"
                           "     0     0         1        A        A        A        A        A        A\n";
static const char EMPTY[] = "  3     0     0\n";
static const char BROKEN[] = "  3     1     1\n         0         0\n"
                             "     0     7         1        A        X        B\n";

/* A situation: two tables by their texts, pairs of tapes, chosen tapes, marked tapes and a tuple. */
struct situation {
    const char *name, *first, *second;
    struct tomchoen_pair pairs[5];
    size_t pair_count;
    const char *chosen;
    uint8_t mask;
    const char *tuple;
};

static const struct situation situations[] = {
    {"P", P, EMPTY, {{1, 3, 1}}, 1, "\3\1\1", 2, "AB\nXYZ\nAB\n"},
    {"P and P, without pairs", P, P, {{0, 0, 0}}, 0, "\2", 0, "A\nX\n\n"},
    {"P and Q, limit 0", P, Q, {{1, 2, 0}}, 1, "", 7, "AB\nXYZ\nAC\n"},
    {"a pair of two tables", CHAIN, NAMES, {{2, 1, 3}}, 1, "\1\2\1\2\1\2\1\2", 1, "X\nABC\n"},
    {"two pairs", CHAIN, CHAIN, {{1, 1, 0}, {2, 2, 64}}, 2, "\1\2\1\2\1\2\1\2\1", 2, "W17\nABBC\n"},
    {"limit 65", CHAIN, NAMES, {{2, 1, 65}}, 1, "\3", 4, "w17\nABC\n"},
    {"a tape twice", CHAIN, NAMES, {{2, 1, 3}, {2, 2, 3}}, 2, "\2\2", 3, "W17\n"},
    {"tapes that are not there", NAMES, CHAIN, {{3, 1, 0}}, 1, "\1\3", 128, "ABC\nSMITH\nX\n"},
    {"five pairs", WIDE, Q, {{1, 1, 0}, {2, 2, 0}, {3, 1, 0}, {4, 2, 0}, {5, 1, 0}}, 5, "\6", 1,
     "A\nA\nA\nA\nA\nA\n"},
    {"weights too high", HEAVY, HEAVY, {{1, 1, 0}}, 1, "\1", 0, "A\n"},
    {"too many tapes", WIDE, P, {{1, 1, 0}}, 1, "\6\5\4", 62, "AA\nA\nA\nA\nA\nA\n"},
    {"tables without states", EMPTY, EMPTY, {{1, 3, 64}}, 1, "\3\2\1", 4, "A\nB\nC\n"},
    {"bytes that are no table", BROKEN, P, {{1, 2, 1}}, 1, "\1", 1, "A\nX\nB\n"},
    {"a second table that is none", P, BROKEN, {{1, 2, 1}}, 1, "\1", 1, "ABA\nXYZ\nABA\n"},
};

enum { SITUATIONS = sizeof situations / sizeof situations[0] };

/* The counts of a table. */
struct counts {
    size_t tapes, states, arcs;
};

/* What a call gets: arrays, the counts of the tables that are read, the marked tapes. */
struct lent {
    uint8_t *bytes[ARRAYS];
    size_t length[ARRAYS];
    struct counts first, second;
    uint8_t mask;
};

/* Ends the run where memory or a file is not to be had. */
static void stop(const char *reason, const char *what) {
    fprintf(stderr, "wrappers: %s%s\n", reason, what);
    exit(2);
}

/* Lends an array of so many bytes, not null also where these are none. */
static uint8_t *lend(struct lent *lent, int array, size_t length) {
    uint8_t *bytes = (uint8_t *)malloc(length == 0 ? 1 : length);
    if (bytes == NULL) stop("no memory", "");
    lent->bytes[array] = bytes;
    lent->length[array] = length;
    return bytes;
}

/* Lends a copy of bytes. */
static void lend_copy(struct lent *lent, int array, const void *bytes, size_t length) {
    memcpy(lend(lent, array, length), bytes, length);
}

/* Lends bytes that are neither zero nor alike. */
static void lend_dirty(struct lent *lent, int array, size_t length) {
    uint8_t *bytes = lend(lent, array, length);
    for (size_t i = 0; i < length; i++) bytes[i] = (uint8_t)(1 + (i + (size_t)array) % 251);
}

/* Lends the records of a text in longer space, and gives their counts; counts of no table where the text is refused. */
static struct counts lend_table(struct lent *lent, int states, int arcs, const char *text) {
    lend_dirty(lent, states, TOMCHOEN_STATE_BYTES(READ_STATES));
    lend_dirty(lent, arcs, TOMCHOEN_ARC_BYTES(READ_ARCS));
    uint64_t answer = tomchoen_read((const uint8_t *)text, strlen(text), lent->bytes[states], lent->length[states],
                                    lent->bytes[arcs], lent->length[arcs]);
    struct counts read = {TOMCHOEN_TAPES(answer), TOMCHOEN_STATES(answer), TOMCHOEN_ARCS(answer)}, none = {3, 1, 1};
    return TOMCHOEN_REFUSAL(answer) == 0 ? read : none;
}

/* Lends all arrays as a situation says. Work space is what the join needs. */
static struct lent lend_all(const struct situation *situation) {
    struct lent lent;
    lend_copy(&lent, TEXT, situation->first, strlen(situation->first));
    lent.first = lend_table(&lent, FIRST_STATES, FIRST_ARCS, situation->first);
    lent.second = lend_table(&lent, SECOND_STATES, SECOND_ARCS, situation->second);
    lend_copy(&lent, PAIRS, situation->pairs, TOMCHOEN_PAIR_BYTES(situation->pair_count));
    lend_copy(&lent, CHOSEN, situation->chosen, strlen(situation->chosen));
    lend_copy(&lent, TUPLE, situation->tuple, strlen(situation->tuple));
    lend_dirty(&lent, PRODUCT_STATES, TOMCHOEN_STATE_BYTES(PRODUCT_MOST_STATES));
    lend_dirty(&lent, PRODUCT_ARCS, TOMCHOEN_ARC_BYTES(PRODUCT_MOST_ARCS));
    lend_dirty(&lent, OUT_STATES, TOMCHOEN_STATE_BYTES(OUT_MOST_STATES));
    lend_dirty(&lent, OUT_ARCS, TOMCHOEN_ARC_BYTES(OUT_MOST_ARCS));
    lend_dirty(&lent, RESULT, RESULT_BYTES);
    lend_dirty(&lent, LIST, LIST_BYTES);
    lend_dirty(&lent, WORK, TOMCHOEN_JOIN_WORK(PRODUCT_MOST_STATES, PRODUCT_MOST_ARCS, OUT_MOST_STATES, OUT_MOST_ARCS));
    lent.mask = situation->mask;
    return lent;
}

/* The same with arrays of its own. */
static struct lent copy_of(const struct lent *from) {
    struct lent lent = *from;
    for (int a = 0; a < ARRAYS; a++) lend_copy(&lent, a, from->bytes[a], from->length[a]);
    return lent;
}

/* Gives all arrays back. */
static void free_all(const struct lent *lent) {
    for (int a = 0; a < ARRAYS; a++) free(lent->bytes[a]);
}

/* Arguments of the plain functions: an array, the two tables that are read, the space of a result. */
#define ARRAY(array) lent->bytes[array], lent->length[array]
#define FIRST lent->first.tapes, lent->first.states, lent->first.arcs, ARRAY(FIRST_STATES), ARRAY(FIRST_ARCS)
#define SECOND lent->second.tapes, lent->second.states, lent->second.arcs, ARRAY(SECOND_STATES), ARRAY(SECOND_ARCS)
#define OUT ARRAY(OUT_STATES), ARRAY(OUT_ARCS)

/* The calls by the plain functions. */
static uint64_t plain_read(const struct lent *lent) { return tomchoen_read(ARRAY(TEXT), OUT); }
static uint64_t plain_write(const struct lent *lent) { return tomchoen_write(FIRST, ARRAY(RESULT)); }
static uint64_t plain_build(const struct lent *lent) { return tomchoen_build(FIRST, ARRAY(PAIRS), OUT, ARRAY(WORK)); }
static uint64_t plain_forecast(const struct lent *lent) {
    return tomchoen_forecast(FIRST, ARRAY(PAIRS), ARRAY(RESULT), ARRAY(WORK));
}
static uint64_t plain_product(const struct lent *lent) { return tomchoen_product(FIRST, SECOND, OUT, ARRAY(WORK)); }
static uint64_t plain_join(const struct lent *lent) {
    return tomchoen_join(FIRST, SECOND, ARRAY(PAIRS), ARRAY(PRODUCT_STATES), ARRAY(PRODUCT_ARCS), OUT, ARRAY(WORK));
}
static uint64_t plain_union(const struct lent *lent) { return tomchoen_union(FIRST, SECOND, OUT); }
static uint64_t plain_project(const struct lent *lent) { return tomchoen_project(FIRST, ARRAY(CHOSEN), OUT); }
static uint64_t plain_drop(const struct lent *lent) { return tomchoen_drop(FIRST, lent->mask, OUT); }
static uint64_t plain_lookup(const struct lent *lent) { return tomchoen_lookup(FIRST, ARRAY(TUPLE), ARRAY(WORK)); }
static uint64_t plain_path(const struct lent *lent) {
    return tomchoen_path(FIRST, ARRAY(TUPLE), ARRAY(RESULT), ARRAY(LIST), ARRAY(WORK));
}

/* Arrays as structs: space, and bytes that are only read. */
static struct tomchoen_space space(const struct lent *lent, int array) { return tomchoen_make_space(ARRAY(array)); }
static struct tomchoen_bytes bytes(const struct lent *lent, int array) { return tomchoen_make_bytes(ARRAY(array)); }

/* A table with counts, in two of the arrays. */
static struct tomchoen_table table(const struct lent *lent, struct counts counts, int states, int arcs) {
    struct tomchoen_table made = tomchoen_make_table(space(lent, states), space(lent, arcs));
    made.tapes = counts.tapes;
    made.states = counts.states;
    made.arcs = counts.arcs;
    return made;
}

/* The two tables that are read. */
static struct tomchoen_table first(const struct lent *lent) {
    return table(lent, lent->first, FIRST_STATES, FIRST_ARCS);
}
static struct tomchoen_table second(const struct lent *lent) {
    return table(lent, lent->second, SECOND_STATES, SECOND_ARCS);
}

/* The pairs as structs, and how many they are. */
static const struct tomchoen_pair *pairs(const struct lent *lent) {
    return (const struct tomchoen_pair *)lent->bytes[PAIRS];
}
static size_t pair_count(const struct lent *lent) { return lent->length[PAIRS] / TOMCHOEN_PAIR_BYTES(1); }

/* The calls by the wrappers. */
static uint64_t wrapped_read(const struct lent *lent, struct tomchoen_table *out) {
    return tomchoen_table_read(bytes(lent, TEXT), out);
}
static uint64_t wrapped_write(const struct lent *lent, struct tomchoen_table *out) {
    const struct tomchoen_table one = first(lent);
    (void)out;
    return tomchoen_table_write(&one, space(lent, RESULT));
}
static uint64_t wrapped_build(const struct lent *lent, struct tomchoen_table *out) {
    const struct tomchoen_table one = first(lent);
    return tomchoen_table_build(&one, pairs(lent), pair_count(lent), out, space(lent, WORK));
}
static uint64_t wrapped_forecast(const struct lent *lent, struct tomchoen_table *out) {
    const struct tomchoen_table one = first(lent);
    (void)out;
    return tomchoen_table_forecast(&one, pairs(lent), pair_count(lent), space(lent, RESULT), space(lent, WORK));
}
static uint64_t wrapped_product(const struct lent *lent, struct tomchoen_table *out) {
    const struct tomchoen_table one = first(lent), other = second(lent);
    return tomchoen_table_product(&one, &other, out, space(lent, WORK));
}
static uint64_t wrapped_join(const struct lent *lent, struct tomchoen_table *out) {
    const struct tomchoen_table one = first(lent), other = second(lent);
    return tomchoen_table_join(&one, &other, pairs(lent), pair_count(lent), space(lent, PRODUCT_STATES),
                               space(lent, PRODUCT_ARCS), out, space(lent, WORK));
}
static uint64_t wrapped_union(const struct lent *lent, struct tomchoen_table *out) {
    const struct tomchoen_table one = first(lent), other = second(lent);
    return tomchoen_table_union(&one, &other, out);
}
static uint64_t wrapped_project(const struct lent *lent, struct tomchoen_table *out) {
    const struct tomchoen_table one = first(lent);
    return tomchoen_table_project(&one, bytes(lent, CHOSEN), out);
}
static uint64_t wrapped_drop(const struct lent *lent, struct tomchoen_table *out) {
    const struct tomchoen_table one = first(lent);
    return tomchoen_table_drop(&one, lent->mask, out);
}
static uint64_t wrapped_lookup(const struct lent *lent, struct tomchoen_table *out) {
    const struct tomchoen_table one = first(lent);
    (void)out;
    return tomchoen_table_lookup(&one, bytes(lent, TUPLE), space(lent, WORK));
}
static uint64_t wrapped_path(const struct lent *lent, struct tomchoen_table *out) {
    const struct tomchoen_table one = first(lent);
    (void)out;
    return tomchoen_table_path(&one, bytes(lent, TUPLE), space(lent, RESULT), space(lent, LIST), space(lent, WORK));
}

/* What a call can answer with. */
enum kind { COUNTS, OTHER, OR_NONE };

/* Arrays as a set. */
#define SET(array) (1u << (array))
#define FIRST_SET (SET(FIRST_STATES) | SET(FIRST_ARCS))
#define SECOND_SET (SET(SECOND_STATES) | SET(SECOND_ARCS))
#define PRODUCT_SET (SET(PRODUCT_STATES) | SET(PRODUCT_ARCS))
#define OUT_SET (SET(OUT_STATES) | SET(OUT_ARCS))

/* The calls, with the arrays that each is lent. */
static const struct call {
    const char *name;
    enum kind kind;
    uint64_t (*plain)(const struct lent *lent);
    uint64_t (*wrapped)(const struct lent *lent, struct tomchoen_table *out);
    unsigned arrays;
} calls[] = {
    {"read", COUNTS, plain_read, wrapped_read, SET(TEXT) | OUT_SET},
    {"write", OTHER, plain_write, wrapped_write, FIRST_SET | SET(RESULT)},
    {"build", COUNTS, plain_build, wrapped_build, FIRST_SET | SET(PAIRS) | OUT_SET | SET(WORK)},
    {"forecast", OTHER, plain_forecast, wrapped_forecast, FIRST_SET | SET(PAIRS) | SET(RESULT) | SET(WORK)},
    {"product", COUNTS, plain_product, wrapped_product, FIRST_SET | SECOND_SET | OUT_SET | SET(WORK)},
    {"join", COUNTS, plain_join, wrapped_join, FIRST_SET | SECOND_SET | SET(PAIRS) | PRODUCT_SET | OUT_SET | SET(WORK)},
    {"union", COUNTS, plain_union, wrapped_union, FIRST_SET | SECOND_SET | OUT_SET},
    {"project", COUNTS, plain_project, wrapped_project, FIRST_SET | SET(CHOSEN) | OUT_SET},
    {"drop", COUNTS, plain_drop, wrapped_drop, FIRST_SET | OUT_SET},
    {"lookup", OR_NONE, plain_lookup, wrapped_lookup, FIRST_SET | SET(TUPLE) | SET(WORK)},
    {"path", OR_NONE, plain_path, wrapped_path, FIRST_SET | SET(TUPLE) | SET(RESULT) | SET(LIST) | SET(WORK)},
};

enum { CALLS = sizeof calls / sizeof calls[0] };

/* How many calls were compared, how many differences were found, how often each call gave, was refused, told none. */
static unsigned long compared, differences;
static struct met {
    unsigned long given, refused, none;
} met[CALLS];

/* Tells of a difference: of which call, in which situation, at which number (of a call the array that is changed). */
static void differs(const char *call, const char *situation, int number, const char *what) {
    differences++;
    printf("%s, %s, %d: %s differs\n", call, situation, number, what);
}

/* Counts an answer of a call. */
static void meet(struct met *of, uint64_t answer) {
    if (TOMCHOEN_IS_NONE(answer)) of->none++;
    else if (TOMCHOEN_IS_REFUSED(answer)) of->refused++;
    else of->given++;
}

/* Whether all arrays have the same bytes. */
static int same_bytes(const struct lent *one, const struct lent *other) {
    for (int a = 0; a < ARRAYS; a++)
        if (one->length[a] > 0 && memcmp(one->bytes[a], other->bytes[a], one->length[a]) != 0) return 0;
    return 1;
}

/* Whether two spaces are the same place and length. */
static int same_space(struct tomchoen_space one, struct tomchoen_space other) {
    return one.bytes == other.bytes && one.length == other.length;
}

/* Whether a result table is as it should be after a call: in the space of before, with the counts of the answer where
 * it tells counts, and with those of before otherwise. */
static int result_as_told(const struct tomchoen_table *after, const struct tomchoen_table *before, enum kind kind,
                          uint64_t answer) {
    int told = kind == COUNTS && (answer & 255) == 0;
    size_t tapes = told ? (size_t)(answer >> 8 & 255) : before->tapes;
    size_t states = told ? (size_t)(answer >> 16 & 65535) : before->states;
    size_t arcs = told ? (size_t)(answer >> 32) : before->arcs;
    return after->tapes == tapes && after->states == states && after->arcs == arcs &&
           same_space(after->state_space, before->state_space) && same_space(after->arc_space, before->arc_space);
}

/* Makes the pointers of a set of arrays null. */
static void make_null(struct lent *lent, unsigned set) {
    for (int a = 0; a < ARRAYS; a++) {
        if (!(set & SET(a))) continue;
        free(lent->bytes[a]);
        lent->bytes[a] = NULL;
    }
}

/* The same with a set of arrays empty. */
static struct lent without(const struct lent *lent, unsigned set) {
    struct lent shorter = *lent;
    for (int a = 0; a < ARRAYS; a++)
        if (set & SET(a)) shorter.length[a] = 0;
    return shorter;
}

/* Compares one call, made plainly and by the wrapper on copies of the same arrays; a set of the wrapper's is null. */
static void compare(int call, const char *situation, const struct lent *lent, int changed, unsigned nulls) {
    const struct counts dirty = {71, 72, 73};
    struct lent plain = copy_of(lent), wrapped = copy_of(lent);
    make_null(&wrapped, nulls);
    const struct tomchoen_table before = table(&wrapped, dirty, OUT_STATES, OUT_ARCS);
    struct tomchoen_table after = before;
    uint64_t answer = calls[call].plain(&plain);
    if (calls[call].wrapped(&wrapped, &after) != answer) differs(calls[call].name, situation, changed, "the answer");
    if (!same_bytes(&plain, &wrapped)) differs(calls[call].name, situation, changed, "a lent byte");
    if (!result_as_told(&after, &before, calls[call].kind, answer))
        differs(calls[call].name, situation, changed, "the result table");
    meet(&met[call], answer);
    compared++;
    free_all(&plain);
    free_all(&wrapped);
}

/* What the plain function answers with an array of another length. */
static uint64_t answer_with(int call, const struct lent *lent, int array, size_t length) {
    struct lent other = *lent;
    other.length[array] = length;
    struct lent plain = copy_of(&other);
    uint64_t answer = calls[call].plain(&plain);
    free_all(&plain);
    return answer;
}

/* The least length of an array, in entries, at which a call answers as with all of it; found by halving. */
static size_t least_length(int call, const struct lent *lent, int array, size_t entry) {
    size_t low = 0, high = lent->length[array] / entry;
    uint64_t answer = answer_with(call, lent, array, high * entry);
    while (low < high) {
        size_t middle = low + (high - low) / 2;
        if (answer_with(call, lent, array, middle * entry) == answer) high = middle;
        else low = middle + 1;
    }
    return high;
}

/* Compares a call with one array of its least length, an entry less, empty, and empty and null. */
static void compare_shorter(int call, const char *situation, const struct lent *lent, int array) {
    struct lent shorter = *lent, empty = without(lent, SET(array));
    size_t entry = array == PAIRS ? TOMCHOEN_PAIR_BYTES(1) : 1, least = least_length(call, lent, array, entry);
    shorter.length[array] = least * entry;
    compare(call, situation, &shorter, array, 0);
    shorter.length[array] = least == 0 ? 0 : (least - 1) * entry;
    compare(call, situation, &shorter, array, 0);
    compare(call, situation, &empty, array, 0);
    compare(call, situation, &empty, array, SET(array));
}

/* Compares a call in a situation: with all arrays, none of them, and each of them changed. */
static void compare_all(int call, const struct situation *situation) {
    struct lent lent = lend_all(situation), nothing = without(&lent, calls[call].arrays);
    compare(call, situation->name, &lent, ARRAYS, 0);
    compare(call, situation->name, &nothing, ARRAYS, calls[call].arrays);
    for (int a = 0; a < ARRAYS; a++)
        if (calls[call].arrays & SET(a)) compare_shorter(call, situation->name, &lent, a);
    free_all(&lent);
}

/* Compares every call in every situation. */
static void compare_calls(void) {
    for (int k = 0; k < CALLS * SITUATIONS; k++) compare_all(k / SITUATIONS, &situations[k % SITUATIONS]);
}

/* Whether each call gave, was refused and, where it can, told none. */
static void ask_met(void) {
    for (int call = 0; call < CALLS; call++) {
        printf("%s: %lu given, %lu refused, %lu none\n", calls[call].name, met[call].given, met[call].refused,
               met[call].none);
        if (met[call].given == 0 || met[call].refused == 0 || (met[call].none > 0) != (calls[call].kind == OR_NONE)) {
            differences++;
            printf("%s: not every kind of answer was met\n", calls[call].name);
        }
    }
}

/* The last refusal. */
enum { LAST_REFUSAL = TOMCHOEN_PATH };

/* Compares the tests of an answer and the words of numbers that are no refusals, for every low byte. */
static void compare_low_bytes(void) {
    for (unsigned low = 0; low < 256; low++) {
        uint64_t answer = (uint64_t)low | (uint64_t)0xabcdef01234567u << 8;
        const char *word = low == 0 ? "not refused" : low == 255 ? "none" : "unknown refusal";
        int none = low == 255, refused = low != 0 && low != 255, has_word = low > 0 && low <= LAST_REFUSAL;
        if (TOMCHOEN_IS_NONE(answer) != none || TOMCHOEN_IS_REFUSED(answer) != refused)
            differs("low byte", word, (int)low, "a test");
        if (!has_word && strcmp(tomchoen_refusal_word(low), word) != 0) differs("low byte", word, (int)low, "the word");
    }
}

/* Compares the word of a line of docs/REFUSALS.md; 1 where the line has a number and a word. */
static int compare_word(const char *line) {
    unsigned number;
    char word[32];
    if (sscanf(line, "| %u | %31[^|]|", &number, word) != 2) return 0;
    word[strlen(word) - 1] = '\0'; /* the blank in front of the bar */
    if (strcmp(tomchoen_refusal_word(number), word) != 0) differs("refusal", word, (int)number, "the word");
    return 1;
}

/* Compares the words of all refusals. */
static void compare_words(const char *path) {
    char line[4096];
    int words = 0;
    FILE *file = fopen(path, "r");
    if (file == NULL) stop("cannot read ", path);
    while (fgets(line, sizeof line, file) != NULL) words += compare_word(line);
    fclose(file);
    if (words != LAST_REFUSAL) differs("refusals", path, words, "how many there are");
}

int main(int count, char **arguments) {
    if (count != 2) stop("usage: ", "wrappers REFUSALS");
    compare_calls();
    ask_met();
    compare_low_bytes();
    compare_words(arguments[1]);
    printf("%lu differences\n", differences);
    printf("%lu compared\n", compared);
    return differences == 0 ? 0 : 1;
}
