/*
 * What the examples share: how a run ends, memory to lend, numbers of the command line, tables from and to files.
 *
 * Exit status of an example: 0 done; 1 a call was refused (what else is 1 is said at the program); 2 wrong usage, a
 * file that cannot be read, an output that cannot be written, or no memory. With 1 and 2 a line on standard error says
 * why.
 */
#ifndef EXAMPLE_H
#define EXAMPLE_H

#include "tomchoen.h"

#include <stdio.h>
#include <stdlib.h>

enum { REFUSED = 1, UNABLE = 2 };

/* The name of the program in its messages; each program defines its own. */
extern const char *const program;

/* Ends the run: wrong usage, or something that is not to be had. */
static inline void stop(const char *reason, const char *what) {
    fprintf(stderr, "%s: %s%s\n", program, reason, what);
    exit(UNABLE);
}

/* Ends the run where a call was refused. That a tuple has no weight is no refusal. */
static inline void stop_if_refused(const char *call, uint64_t answer) {
    if (!TOMCHOEN_IS_REFUSED(answer)) return;
    unsigned refusal = TOMCHOEN_REFUSAL(answer);
    fprintf(stderr, "%s: %s: refused %u, %s\n", program, call, refusal, tomchoen_refusal_word(refusal));
    exit(REFUSED);
}

/* Ends the run where not all of the output could be written. */
static inline void stop_if_unwritten(void) {
    if (fflush(stdout) != 0 || ferror(stdout) != 0) stop("cannot write to standard output", "");
}

/* A number of one byte on the command line: a tape or a limit. */
static inline uint8_t byte(const char *word) {
    char *end;
    unsigned long value = strtoul(word, &end, 10);
    if (*word < '0' || *word > '9' || *end != '\0' || value > UINT8_MAX) stop("no number up to 255: ", word);
    return (uint8_t)value;
}

/* So many bytes of memory. Of no bytes the pointer may be null, which the wrappers allow. */
static inline struct tomchoen_space lend(size_t length) {
    struct tomchoen_space space = tomchoen_make_space((uint8_t *)malloc(length), length);
    if (space.bytes == NULL && length > 0) stop("no memory", "");
    return space;
}

/* Memory for a table of at most so many states and arcs. */
static inline struct tomchoen_table lend_table(size_t states, size_t arcs) {
    return tomchoen_make_table(lend(TOMCHOEN_STATE_BYTES(states)), lend(TOMCHOEN_ARC_BYTES(arcs)));
}

/* Gives the memory of a table back. */
static inline void free_table(const struct tomchoen_table *table) {
    free(table->state_space.bytes);
    free(table->arc_space.bytes);
}

/* The bytes of a file that holds the text of a table: with more than the longest text it holds none. */
static inline struct tomchoen_space read_file(const char *path) {
    FILE *file = fopen(path, "rb");
    if (file == NULL) stop("cannot read ", path);
    struct tomchoen_space text =
        lend(TOMCHOEN_TEXT_BYTES(TOMCHOEN_MOST_TAPES, TOMCHOEN_MOST_STATES, TOMCHOEN_MOST_ARCS));
    text.length = fread(text.bytes, 1, text.length, file);
    if (ferror(file) != 0) stop("cannot read ", path);
    if (fgetc(file) != EOF) stop("longer than the text of any table: ", path);
    fclose(file);
    return text;
}

/* The table of a file, in memory for so many states and arcs. */
static inline struct tomchoen_table read_table(const char *path, size_t states, size_t arcs) {
    struct tomchoen_space text = read_file(path);
    struct tomchoen_table table = lend_table(states, arcs);
    uint64_t answer = tomchoen_table_read(tomchoen_make_bytes(text.bytes, text.length), &table);
    stop_if_refused(path, answer);
    free(text.bytes);
    return table;
}

/* The text of a table, in memory as long as it. */
static inline struct tomchoen_space text_of(const struct tomchoen_table *table) {
    struct tomchoen_space text = lend(TOMCHOEN_TEXT_BYTES(table->tapes, table->states, table->arcs));
    stop_if_refused("write", tomchoen_table_write(table, text));
    return text;
}

#endif
