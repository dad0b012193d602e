/* The factorization of ../solver with StarPU as its engine: each front is a task of StarPU. Alone StarPU is told which fronts a front waits for,
 * and runs what it likes; under the activation core it is given only fronts that the core started, so that the bytes stay within a bound.
 *
 *     starpu [--row] INPUT [ZEROS]
 *
 * INPUT and ZEROS are those of ../solver; the order of elimination is that of minimum degree. Bytes are those of fronts and blocks, as the
 * solver counts them. The program ends with 1 where a bound was passed, or a residual is greater than 1e-9. --row prints a row of the table in
 * ../../c/README.md. */
#include "solver.h"
#include <inttypes.h>
#include <pthread.h>
#include <starpu.h>
#include <stdio.h>
#include <stdlib.h>
#include <string.h>

enum { WORKERS = 4 };

void check(uint32_t status, const memplan_fault *fault)
{
    if (status == MEMPLAN_DONE)
        return;
    fprintf(stderr, "starpu: memplan answered %u: kind %u at %" PRIu64 " (%" PRIu64 ")\n", status, fault->kind, fault->at, fault->value);
    exit(2);
}

/* ---- a front as a task of StarPU ---- */

static struct factorization *work;
static int *local_of[STARPU_NMAXWORKERS]; /* by worker, what run_front writes into */

static uint32_t number_in(const void *argument)
{
    return (uint32_t)(uintptr_t)argument;
}

static void run_on_worker(void *buffers[], void *argument)
{
    (void)buffers;
    run_front(work, (int)number_in(argument) - 1, local_of[starpu_worker_get_id_check()]);
}

/* Fronts and blocks are the solver's, so StarPU knows of no data. */
static struct starpu_codelet codelet = {.cpu_funcs = {run_on_worker}, .nbuffers = 0, .name = "front"};

static struct starpu_task *task_of(uint32_t front)
{
    struct starpu_task *task = starpu_task_create();
    task->cl = &codelet;
    task->cl_arg = (void *)(uintptr_t)front;
    return task;
}

static void submit(struct starpu_task *task)
{
    if (starpu_task_submit(task) != 0)
        fail("StarPU takes no task");
}

/* ---- StarPU alone ---- */

/* A front waits for its children. */
static void wait_for_children(struct starpu_task **tasks, struct starpu_task **children, int front)
{
    const struct analysis *analysis = work->analysis;
    unsigned count = 0;
    for (int g = analysis->child[front]; g >= 0; g = analysis->sibling[g])
        children[count++] = tasks[g];
    if (count > 0)
        starpu_task_declare_deps_array(tasks[front], count, children);
}

static void run_alone(const uint32_t *order, size_t count)
{
    struct starpu_task **tasks = table(count, sizeof(struct starpu_task *)), **children = table(count, sizeof(struct starpu_task *));
    for (size_t f = 0; f < count; f++)
        tasks[f] = task_of((uint32_t)f + 1);
    for (size_t f = 0; f < count; f++)
        wait_for_children(tasks, children, (int)f);
    for (size_t k = 0; k < count; k++)
        submit(tasks[order[k] - 1]);
    starpu_task_wait_for_all();
    free(tasks);
    free(children);
}

/* ---- StarPU under the core ----
 *
 * The thread that submits holds the core; StarPU's workers tell it which fronts are done. */

static pthread_mutex_t lock = PTHREAD_MUTEX_INITIALIZER;
static pthread_cond_t told = PTHREAD_COND_INITIALIZER;
static uint32_t *done;
static size_t done_head, done_tail;

static void tell_done(void *argument)
{
    pthread_mutex_lock(&lock);
    done[done_tail++] = number_in(argument);
    pthread_cond_signal(&told);
    pthread_mutex_unlock(&lock);
}

static uint32_t next_done(void)
{
    pthread_mutex_lock(&lock);
    while (done_head == done_tail)
        pthread_cond_wait(&told, &lock);
    uint32_t front = done[done_head++];
    pthread_mutex_unlock(&lock);
    return front;
}

static void give(uint32_t front)
{
    struct starpu_task *task = task_of(front);
    task->callback_func = tell_done;
    task->callback_arg = (void *)(uintptr_t)front;
    submit(task);
}

static void run_within(const uint32_t *order, size_t count, uint64_t bound)
{
    memplan_core *core = table(1, memplan_core_size());
    memplan_fault fault;
    memplan_core_new(core);
    check(memplan_core_begin(core, work->analysis->nodes, count, order, count, bound, WORKERS, &fault), &fault);
    done_head = done_tail = 0;
    for (size_t left = count; left; left--) {
        uint32_t front;
        while (memplan_core_activate(core))
            ;
        while ((front = memplan_core_next(core)) != 0 && memplan_core_start(core, front))
            give(front);
        if (!memplan_core_finish(core, next_done()))
            fail("a front that does not run was done");
    }
    starpu_task_wait_for_all();
    memplan_core_end(core);
    free(core);
}

/* ---- all of it ---- */

static int is_row, failures;

/* A run within a bound, in entries; alone where it is 0. */
static void run(const char *what, const uint32_t *order, uint64_t bound, uint64_t peak)
{
    size_t count = (size_t)work->analysis->fronts;
    begin_factorization(work);
    double start = starpu_timing_now();
    if (bound == 0)
        run_alone(order, count);
    else
        run_within(order, count, bound);
    double seconds = (starpu_timing_now() - start) / 1e6, off = residual(work), ratio = (double)most_bytes() / (8 * (double)peak);
    int holds = bound == 0 || most_bytes() <= 8 * bound;
    failures += !holds || !(off < 1e-9);
    if (is_row)
        printf(" %" PRIu64 " | %.2f |", most_bytes(), ratio);
    else
        printf("  %-26s %14" PRIu64 " bytes, %.2f of the least peak, %.2f s, residual %.0e%s\n", what, most_bytes(), ratio, seconds, off,
               bound == 0 ? "" : holds ? ": within" : ": PAST");
    end_factorization(work);
}

static void run_all(const char *input)
{
    const memplan_node *nodes = work->analysis->nodes;
    size_t count = (size_t)work->analysis->fronts;
    uint32_t *order = table(count, sizeof *order);
    done = table(count, sizeof *done);
    memplan_fault fault;
    uint64_t peak;
    check(memplan_plan_tree(nodes, count, order, count, &peak, &fault), &fault);
    printf(is_row ? "| %s | %zu | %" PRIu64 " |" : "%s: %zu fronts, least peak %" PRIu64 " bytes\n", input, count, 8 * peak);
    run("StarPU alone", order, 0, peak);
    run("within the least peak", order, peak, peak);
    run("within 1.5 times as much", order, peak * 3 / 2, peak);
    if (is_row)
        printf("\n");
    free(order);
    free(done);
}

static void begin_starpu(int columns)
{
    struct starpu_conf conf;
    starpu_conf_init(&conf);
    conf.ncpus = WORKERS;
    conf.ncuda = conf.nopencl = 0;
    conf.sched_policy_name = "prio";
    if (starpu_init(&conf) != 0 || starpu_cpu_worker_get_count() != WORKERS)
        fail("StarPU does not begin with 4 workers");
    for (unsigned w = 0; w < starpu_worker_get_count(); w++)
        local_of[w] = table((uint64_t)columns, sizeof(int));
}

int main(int argc, char **argv)
{
    is_row = argc > 1 && strcmp(argv[1], "--row") == 0;
    char **words = argv + 1 + is_row;
    int count = argc - 1 - is_row;
    if (count != 1 && count != 2)
        fail("usage: starpu [--row] MATRIX.mtx|square:SIDE|nine:SIDE|cube:SIDE [ZEROS]");
    struct matrix matrix;
    make_matrix(&matrix, words[0]);
    memplan_front_options options = {.shape = MEMPLAN_SQUARE, .merge = count == 2, .zeros = count == 2 ? strtoull(words[1], NULL, 10) : 0};
    struct analysis analysis;
    analyse(&analysis, &matrix, NULL, 0, &options);
    struct factorization whole = {.matrix = &matrix, .analysis = &analysis};
    work = &whole;
    begin_starpu(matrix.order);
    run_all(words[0]);
    for (unsigned w = 0; w < starpu_worker_get_count(); w++)
        free(local_of[w]);
    starpu_shutdown();
    free_analysis(&analysis);
    free_matrix(&matrix);
    return failures ? 1 : 0;
}
