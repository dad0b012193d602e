/* Factorizes a matrix in the orders that memplan gives, and compares the memory that was predicted with the memory that was taken.
 *
 *     solver [--orders | --workers] INPUT ORDER [ZEROS]
 *
 * INPUT is a Matrix Market file, or a grid: square:SIDE (five-point stencil), nine:SIDE (nine-point), cube:SIDE (seven-point, in space).
 * ORDER is natural, degree (minimum degree), or a file with the vertices from 1 in the order in which they are eliminated. With ZEROS fronts
 * are merged where that adds at most so many zeros.
 *
 * On one thread each order of the fronts has to take just its peak times 8 bytes; on several threads, within a bound that the activation
 * core keeps, at most the bound. The program ends with 1 where one of this fails, or a residual is greater than 1e-9. --orders and
 * --workers print the rows of the tables in README.md. */
#include "solver.h"
#include <inttypes.h>
#include <pthread.h>
#include <stdio.h>
#include <stdlib.h>
#include <string.h>

void check(uint32_t status, const memplan_fault *fault)
{
    if (status == MEMPLAN_DONE)
        return;
    fprintf(stderr, "solver: memplan answered %u: kind %u at %" PRIu64 " (%" PRIu64 ")\n", status, fault->kind, fault->at, fault->value);
    exit(2);
}

/* ---- what is told ---- */

static enum { TALK, ORDER_ROWS, WORKER_ROWS } telling;
static int failures;
static double worst;

static void tell(const char *what, const struct factorization *work, uint64_t predicted, int holds)
{
    double off = residual(work);
    if (!(off <= worst))
        worst = off;
    if (!holds || !(off < 1e-9))
        failures++;
    if (telling == TALK)
        printf("  %-32s %14" PRIu64 " %14" PRIu64 "  %-6s  %.1e\n", what, 8 * predicted, most_bytes(), holds ? "holds" : "FAILS", off);
    else if (telling == ORDER_ROWS)
        printf(" %" PRIu64 " | %" PRIu64 " |", 8 * predicted, most_bytes());
    else
        printf(" %" PRIu64 " |", most_bytes());
}

/* ---- on one thread ---- */

static void run_order(struct factorization *work, const char *what, const uint32_t *order, uint64_t peak)
{
    begin_factorization(work);
    int *local = table((uint64_t)work->analysis->order, sizeof *local);
    for (int k = 0; k < work->analysis->fronts; k++)
        run_front(work, (int)order[k] - 1, local);
    free(local);
    tell(what, work, peak, most_bytes() == 8 * peak);
    end_factorization(work);
}

/* ---- on several threads ----
 *
 * One thread holds the core, and hands fronts that it started to workers; each tells when it is done. */

struct team {
    struct factorization *work;
    pthread_mutex_t lock;
    pthread_cond_t given, told;
    uint32_t *todo, *done;
    size_t todo_head, todo_tail, done_head, done_tail;
};

static uint32_t next_front(struct team *team)
{
    pthread_mutex_lock(&team->lock);
    while (team->todo_head == team->todo_tail)
        pthread_cond_wait(&team->given, &team->lock);
    uint32_t task = team->todo[team->todo_head++];
    pthread_mutex_unlock(&team->lock);
    return task;
}

static void give_front(struct team *team, uint32_t task)
{
    pthread_mutex_lock(&team->lock);
    team->todo[team->todo_tail++] = task;
    pthread_cond_signal(&team->given);
    pthread_mutex_unlock(&team->lock);
}

static void tell_done(struct team *team, uint32_t task)
{
    pthread_mutex_lock(&team->lock);
    team->done[team->done_tail++] = task;
    pthread_cond_signal(&team->told);
    pthread_mutex_unlock(&team->lock);
}

static uint32_t next_done(struct team *team)
{
    pthread_mutex_lock(&team->lock);
    while (team->done_head == team->done_tail)
        pthread_cond_wait(&team->told, &team->lock);
    uint32_t task = team->done[team->done_head++];
    pthread_mutex_unlock(&team->lock);
    return task;
}

/* Front 0 ends a worker. */
static void *work_on(void *given)
{
    struct team *team = given;
    int *local = table((uint64_t)team->work->analysis->order, sizeof *local);
    for (uint32_t task; (task = next_front(team)) != 0;) {
        run_front(team->work, (int)task - 1, local);
        tell_done(team, task);
    }
    free(local);
    return NULL;
}

static void drive(struct team *team, memplan_core *core, size_t count)
{
    for (size_t ended = 0; ended < count; ended++) {
        while (memplan_core_activate(core))
            ;
        for (uint32_t task; (task = memplan_core_next(core)) != 0 && memplan_core_start(core, task);)
            give_front(team, task);
        if (!memplan_core_finish(core, next_done(team)))
            fail("a front that does not run was done");
    }
}

static void run_team(struct factorization *work, const uint32_t *order, uint64_t bound, uint32_t workers)
{
    size_t count = (size_t)work->analysis->fronts;
    struct team team = {work, PTHREAD_MUTEX_INITIALIZER, PTHREAD_COND_INITIALIZER, PTHREAD_COND_INITIALIZER, NULL, NULL, 0, 0, 0, 0};
    team.todo = table(count + workers, sizeof *team.todo);
    team.done = table(count, sizeof *team.done);
    memplan_core *core = table(1, memplan_core_size());
    memplan_fault fault;
    memplan_core_new(core);
    check(memplan_core_begin(core, work->analysis->nodes, count, order, count, bound, workers, &fault), &fault);
    begin_factorization(work);
    pthread_t threads[64];
    for (uint32_t w = 0; w < workers; w++)
        if (pthread_create(&threads[w], NULL, work_on, &team))
            fail("no thread");
    drive(&team, core, count);
    for (uint32_t w = 0; w < workers; w++)
        give_front(&team, 0);
    for (uint32_t w = 0; w < workers; w++)
        pthread_join(threads[w], NULL);
    memplan_core_end(core);
    free(core);
    char what[40];
    snprintf(what, sizeof what, "%u workers within", workers);
    tell(what, work, bound, most_bytes() <= 8 * bound);
    end_factorization(work);
    free(team.todo);
    free(team.done);
}

/* ---- all of it ---- */

static const char *name_of_shape(uint32_t shape)
{
    return shape == MEMPLAN_SQUARE ? "square" : "triangle";
}

/* The front orders: that of their numbers, which is a postorder, the best postorder, and one of least peak, which stays in the array. */
static uint64_t run_orders(struct factorization *work, uint32_t *order)
{
    const memplan_node *nodes = work->analysis->nodes;
    size_t count = (size_t)work->analysis->fronts;
    uint64_t peak;
    memplan_fault fault;
    for (size_t k = 0; k < count; k++)
        order[k] = (uint32_t)k + 1;
    check(memplan_replay_tree(nodes, count, order, count, &peak, &fault), &fault);
    if (telling != WORKER_ROWS)
        run_order(work, "natural postorder", order, peak);
    check(memplan_best_postorder(nodes, count, order, count, &peak, &fault), &fault);
    if (telling != WORKER_ROWS)
        run_order(work, "best postorder", order, peak);
    check(memplan_plan_tree(nodes, count, order, count, &peak, &fault), &fault);
    if (telling != WORKER_ROWS)
        run_order(work, "least peak", order, peak);
    return peak;
}

static void run_options(const struct matrix *matrix, const uint32_t *order, size_t places, memplan_front_options options, const char *what)
{
    struct analysis analysis;
    analyse(&analysis, matrix, order, places, &options);
    struct factorization work = {.matrix = matrix, .analysis = &analysis, .in_place = options.in_place != 0};
    uint32_t *front_order = table((uint64_t)analysis.fronts, sizeof *front_order);
    const char *place = options.in_place ? "in place" : "out of place";
    worst = 0;
    if (telling == TALK)
        printf("%s, %s: %d fronts\n  %-32s %14s %14s\n", name_of_shape(options.shape), place, analysis.fronts, "bytes", "predicted",
               "measured");
    else
        printf("| %s | %s | %s | %d |", what, name_of_shape(options.shape), place, analysis.fronts);
    uint64_t peak = run_orders(&work, front_order);
    if (telling == WORKER_ROWS)
        printf(" %" PRIu64 " |", 8 * peak);
    if (telling != ORDER_ROWS)
        for (uint64_t half = 2; half <= 4; half++)
            for (uint32_t workers = 1; workers <= 4; workers *= 2)
                run_team(&work, front_order, peak * half / 2, workers);
    if (telling != TALK)
        printf(" %.0e |\n", worst);
    free(front_order);
    free_analysis(&analysis);
}

/* How many vertices the order has: all, or none where it is to be that of minimum degree. */
static size_t make_order(uint32_t *order, size_t count, const char *name)
{
    if (strcmp(name, "degree") == 0)
        return 0;
    FILE *file = strcmp(name, "natural") == 0 ? NULL : fopen(name, "r");
    for (size_t k = 0; k < count; k++) {
        order[k] = (uint32_t)k;
        if (strcmp(name, "natural") == 0)
            continue;
        if (!file || fscanf(file, "%" SCNu32, &order[k]) != 1)
            fail("an order without all vertices");
        order[k]--;
    }
    if (file)
        fclose(file);
    return count;
}

/* The name of an input without its folder and its ending. */
static void name_input(char *name, size_t room, const char *input, const char *order)
{
    const char *slash = strrchr(input, '/'), *from = slash ? slash + 1 : input, *dot = strstr(from, ".mtx");
    snprintf(name, room, "%.*s | %s", (int)(dot ? dot - from : (long)strlen(from)), from, order);
}

int main(int argc, char **argv)
{
    if (argc > 1 && strcmp(argv[1], "--orders") == 0)
        telling = ORDER_ROWS;
    if (argc > 1 && strcmp(argv[1], "--workers") == 0)
        telling = WORKER_ROWS;
    char **words = argv + (telling == TALK ? 1 : 2);
    int count = argc - (int)(words - argv);
    if (count != 2 && count != 3)
        fail("usage: solver [--orders | --workers] MATRIX.mtx|square:SIDE|nine:SIDE|cube:SIDE natural|degree|FILE [ZEROS]");
    struct matrix matrix;
    make_matrix(&matrix, words[0]);
    uint32_t *order = table((uint64_t)matrix.order, sizeof *order);
    size_t places = make_order(order, (size_t)matrix.order, words[1]);
    memplan_front_options options = {.merge = count == 3, .zeros = count == 3 ? strtoull(words[2], NULL, 10) : 0};
    char what[256];
    name_input(what, sizeof what, words[0], words[1]);
    if (telling == TALK)
        printf("order %d, %" PRId64 " entries off the diagonal\n", matrix.order, matrix.start[matrix.order] / 2);
    for (options.shape = MEMPLAN_TRIANGLE; options.shape <= MEMPLAN_SQUARE; options.shape++)
        for (options.in_place = 0; options.in_place < 2; options.in_place++)
            run_options(&matrix, order, places, options, what);
    free(order);
    free_matrix(&matrix);
    if (telling == TALK)
        printf("%s\n", failures ? "FAILED" : "all as predicted");
    else if (failures)
        fail("something is not as predicted");
    return failures ? 1 : 0;
}
