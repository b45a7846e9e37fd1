/*
 * Lends by the forecast: asks for each pair of tapes what a build on it can need, lends that space, and builds with the
 * delay of each pair as its limit. It prints the forecasts, what was lent, and the table built.
 *
 *   lend TABLE FIRST SECOND [FIRST SECOND ..]
 *
 * TABLE is a file with the text of a table, and each FIRST SECOND a pair of its tapes, counted from 1.
 * Exit status: 0 built, 1 refused or no limits to lend by, 2 as in example.h. Where the build is refused, no table is
 * printed.
 */
#include "example.h"

const char *const program = "lend";

/* What is lent for a build, and whether each pair has a delay that can be lent as its limit. */
struct plan {
    size_t states, arcs;
    int limits_fit;
};

/* Memory for so many pairs; null where there is none of them. */
static struct tomchoen_pair *lend_pairs(size_t count) {
    struct tomchoen_pair *pairs = (struct tomchoen_pair *)calloc(count, sizeof *pairs);
    if (pairs == NULL && count > 0) stop("no memory", "");
    return pairs;
}

/* The pairs of tapes on the command line, each with the limit 0. */
static struct tomchoen_pair *take_pairs(size_t count, char **words) {
    struct tomchoen_pair *pairs = lend_pairs(count);
    for (size_t k = 0; k < count; k++) {
        pairs[k].first = byte(words[2 * k]);
        pairs[k].second = byte(words[2 * k + 1]);
    }
    return pairs;
}

/* The forecasts of so many pairs. */
static struct tomchoen_space forecast(const struct tomchoen_table *table, const struct tomchoen_pair *pairs,
                                      size_t count) {
    struct tomchoen_space records = lend(TOMCHOEN_FORECAST_BYTES(count));
    struct tomchoen_space work = lend(TOMCHOEN_FORECAST_WORK(table->states));
    stop_if_refused("forecast", tomchoen_table_forecast(table, pairs, count, records, work));
    free(work.bytes);
    return records;
}

/* The lesser of two numbers. */
static size_t least(size_t one, size_t other) { return one < other ? one : other; }

/* A plan with so many times as much: the configurations are at most the states times the leftovers of all pairs, and
 * each has at most the arcs of its state. */
static struct plan times(struct plan plan, size_t leftovers) {
    plan.states = least(plan.states * leftovers, TOMCHOEN_MOST_STATES);
    plan.arcs = least(plan.arcs * leftovers, TOMCHOEN_MOST_ARCS);
    return plan;
}

/* Prints the forecast of a pair, takes its delay as the pair's limit, and adds it to the plan. */
static struct plan with_pair(struct plan plan, size_t states, struct tomchoen_pair *pair, const uint8_t *records,
                             size_t k) {
    unsigned delay = TOMCHOEN_DELAY_OF(records, k), number = TOMCHOEN_NUMBER_OF(records, k);
    printf("pair %u %u: ", pair->first, pair->second);
    switch (TOMCHOEN_FORECAST(records, k)) {
    case TOMCHOEN_FORECAST_MIXED:
        printf("mixed\n");
        plan.limits_fit = 0;
        return plan;
    case TOMCHOEN_FORECAST_OVER:
        printf("delay %u, over\n", delay);
        plan.states = TOMCHOEN_MOST_STATES;
        plan.arcs = TOMCHOEN_MOST_ARCS;
        break;
    default:
        printf("delay %u, number %u\n", delay, number);
        plan = times(plan, states == 0 ? 0 : number / states);
    }
    if (delay > TOMCHOEN_MOST_LIMIT) plan.limits_fit = 0;
    else pair->limit = (uint8_t)delay;
    return plan;
}

/* What to lend for a build on so many pairs, by their forecasts. */
static struct plan plan_by(const struct tomchoen_table *table, struct tomchoen_pair *pairs, size_t count,
                           const uint8_t *records) {
    struct plan plan = {table->states, table->arcs, 1};
    for (size_t k = 0; k < count; k++) plan = with_pair(plan, table->states, &pairs[k], records, k);
    return plan;
}

/* Prints what is lent. */
static void print_lent(struct plan plan, size_t work, const struct tomchoen_pair *pairs, size_t count) {
    printf("lent: %zu states, %zu arcs, %zu bytes of work, limits", plan.states, plan.arcs, work);
    for (size_t k = 0; k < count; k++) printf(" %u", pairs[k].limit);
    printf("\n");
}

/* Builds in the space planned. */
static struct tomchoen_table build(const struct tomchoen_table *table, const struct tomchoen_pair *pairs, size_t count,
                                   struct plan plan) {
    struct tomchoen_table built = lend_table(plan.states, plan.arcs);
    struct tomchoen_space work = lend(TOMCHOEN_BUILD_WORK(plan.states, plan.arcs, table->states));
    print_lent(plan, work.length, pairs, count);
    stop_if_refused("build", tomchoen_table_build(table, pairs, count, &built, work));
    free(work.bytes);
    return built;
}

/* Prints a built table. */
static void print_built(const struct tomchoen_table *built) {
    struct tomchoen_space text = text_of(built);
    printf("built: %zu states, %zu arcs\n", built->states, built->arcs);
    fwrite(text.bytes, 1, text.length, stdout);
    free(text.bytes);
}

int main(int count, char **words) {
    if (count < 4 || count % 2 != 0) stop("usage: ", "lend TABLE FIRST SECOND [FIRST SECOND ..]");
    size_t pair_count = ((size_t)count - 2) / 2;
    struct tomchoen_pair *pairs = take_pairs(pair_count, words + 2);
    struct tomchoen_table table = read_table(words[1], TOMCHOEN_MOST_STATES, TOMCHOEN_MOST_ARCS);
    struct tomchoen_space records = forecast(&table, pairs, pair_count);
    struct plan plan = plan_by(&table, pairs, pair_count, records.bytes);
    int status = REFUSED;
    if (plan.limits_fit) {
        struct tomchoen_table built = build(&table, pairs, pair_count, plan);
        print_built(&built);
        free_table(&built);
        status = 0;
    } else {
        fprintf(stderr, "%s: no limits up to %d are sure to do\n", program, TOMCHOEN_MOST_LIMIT);
    }
    stop_if_unwritten();
    free(records.bytes);
    free_table(&table);
    free(pairs);
    return status;
}
