/*
 * The skeleton of a posting program: reads two tables, joins them on one pair of tapes, looks a tuple up, and prints
 * the joined table, what to post for the tuple and which arcs gave its penalty.
 *
 *   post FIRST SECOND TAPE-OF-FIRST TAPE-OF-SECOND DELAY-LIMIT STRING..
 *
 * FIRST and SECOND are files with the text of a table. The strings are the tuple, one for each tape of the joined
 * table. Exit status: 0 posted or "none", 1 refused, 2 as in example.h. Every call is made before anything is printed,
 * so that standard output is empty where one is refused.
 */
#include "example.h"

#include <inttypes.h>
#include <string.h>

const char *const program = "post";

/* Space for each table, in records. */
enum { STATES = 256, ARCS = 1024 };

/* A tuple: its text, how many symbols its strings have, and how many combinations of positions. */
struct tuple {
    struct tomchoen_space text;
    size_t symbols, combinations;
};

/* What a tuple is posted with: its weight or none as the lookup answered, and of a weight the path behind it. */
struct posting {
    uint64_t answer;
    uint8_t path[TOMCHOEN_PATH_BYTES];
    struct tomchoen_space arcs;
};

/* Joins two tables on one pair of tapes. */
static struct tomchoen_table join(const struct tomchoen_table *first, const struct tomchoen_table *second,
                                  struct tomchoen_pair pair) {
    struct tomchoen_table product = lend_table(STATES, ARCS), joined = lend_table(STATES, ARCS);
    struct tomchoen_space work = lend(TOMCHOEN_JOIN_WORK(STATES, ARCS, STATES, ARCS));
    stop_if_refused("join", tomchoen_table_join(first, second, &pair, 1, product.state_space, product.arc_space,
                                                &joined, work));
    free(work.bytes);
    free_table(&product);
    return joined;
}

/* How many symbols so many strings have. */
static size_t symbols_of(size_t count, char **strings) {
    size_t symbols = 0;
    for (size_t i = 0; i < count; i++) symbols += strlen(strings[i]);
    return symbols;
}

/* Takes the tuple of the command line: each string is ended by a line feed. */
static struct tuple take_tuple(size_t count, char **strings) {
    const size_t most = SIZE_MAX / TOMCHOEN_PATH_WORK(TOMCHOEN_MOST_STATES, 1);
    size_t symbols = symbols_of(count, strings);
    struct tuple tuple = {lend(symbols + count), symbols, 1};
    uint8_t *end = tuple.text.bytes;
    for (size_t i = 0; i < count; i++) {
        size_t size = strlen(strings[i]);
        memcpy(end, strings[i], size);
        end[size] = '\n';
        end += size + 1;
        if (tuple.combinations > most / (size + 1)) stop("too many combinations of positions at ", strings[i]);
        tuple.combinations *= size + 1;
    }
    return tuple;
}

/* Looks the tuple up, and asks for the path behind its weight where it has one. The list has places for the longest
 * path, so that TOMCHOEN_PATH is not told. */
static struct posting look_up(const struct tomchoen_table *table, const struct tuple *tuple) {
    struct posting posting;
    struct tomchoen_bytes strings = tomchoen_make_bytes(tuple->text.bytes, tuple->text.length);
    struct tomchoen_space work = lend(TOMCHOEN_PATH_WORK(table->states, tuple->combinations));
    posting.arcs = lend(TOMCHOEN_PATH_LIST_BYTES(TOMCHOEN_PATH_MOST_ARCS(table->states, tuple->symbols)));
    posting.answer = tomchoen_table_lookup(table, strings, work);
    stop_if_refused("lookup", posting.answer);
    if (!TOMCHOEN_IS_NONE(posting.answer)) {
        struct tomchoen_space result = tomchoen_make_space(posting.path, sizeof posting.path);
        stop_if_refused("path", tomchoen_table_path(table, strings, result, posting.arcs, work));
    }
    free(work.bytes);
    return posting;
}

/* Prints what to post, and the arcs of the joined table that gave it. */
static void print_posting(const struct posting *posting) {
    if (TOMCHOEN_IS_NONE(posting->answer)) {
        printf("none\n");
        return;
    }
    printf("post %" PRIu64 "\n", TOMCHOEN_WEIGHT_OF(posting->answer));
    printf("path: from state %zu, arcs", TOMCHOEN_PATH_START(posting->path));
    for (size_t k = 0; k < TOMCHOEN_PATH_ARCS(posting->path); k++)
        printf(" %u", TOMCHOEN_PATH_ARC(posting->arcs.bytes, k));
    printf("\n");
}

int main(int count, char **words) {
    if (count < 6) stop("usage: ", "post FIRST SECOND TAPE-OF-FIRST TAPE-OF-SECOND DELAY-LIMIT STRING..");
    struct tomchoen_pair pair = {byte(words[3]), byte(words[4]), byte(words[5])};
    struct tomchoen_table first = read_table(words[1], STATES, ARCS), second = read_table(words[2], STATES, ARCS);
    struct tomchoen_table joined = join(&first, &second, pair);
    struct tomchoen_space text = text_of(&joined);
    struct tuple tuple = take_tuple((size_t)count - 6, words + 6);
    struct posting posting = look_up(&joined, &tuple);
    printf("joined: %zu tapes, %zu states, %zu arcs\n", joined.tapes, joined.states, joined.arcs);
    fwrite(text.bytes, 1, text.length, stdout);
    print_posting(&posting);
    stop_if_unwritten();
    free(posting.arcs.bytes);
    free(tuple.text.bytes);
    free(text.bytes);
    free_table(&joined);
    free_table(&second);
    free_table(&first);
    return 0;
}
