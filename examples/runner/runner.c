/* Tasks of a random tree run by worker threads within a bound on memory, which the activation core keeps.
 *
 *     runner [WORKERS [PERCENT [TASKS]]]
 *
 * The bound is so many percent of the least peak. Each task takes its memory from the C library, touches it, sleeps a while, and gives its
 * extra and the blocks of its children back; what is there at once is counted at each such call. The program ends with 1 where the count
 * was past the bound at any time. */
#include "memplan.h"
#include <inttypes.h>
#include <pthread.h>
#include <stdio.h>
#include <stdlib.h>
#include <string.h>
#include <time.h>

static size_t count;
static memplan_node *nodes;
static uint32_t *first_child, *next_sibling;
static char **blocks;

/* ---- counted memory ---- */

static pthread_mutex_t counting = PTHREAD_MUTEX_INITIALIZER;
static uint64_t live, top;

static char *take(uint64_t bytes)
{
    pthread_mutex_lock(&counting);
    live += bytes;
    if (live > top)
        top = live;
    pthread_mutex_unlock(&counting);
    char *block = malloc(bytes ? bytes : 1);
    if (!block)
        abort();
    memset(block, 1, bytes);
    return block;
}

static void give(char *block, uint64_t bytes)
{
    free(block);
    pthread_mutex_lock(&counting);
    live -= bytes;
    pthread_mutex_unlock(&counting);
}

/* ---- two queues between the core's thread and the workers ---- */

struct queue {
    pthread_mutex_t lock;
    pthread_cond_t filled;
    uint32_t *tasks;
    size_t head, tail;
};

static struct queue started = {.lock = PTHREAD_MUTEX_INITIALIZER, .filled = PTHREAD_COND_INITIALIZER};
static struct queue ended = {.lock = PTHREAD_MUTEX_INITIALIZER, .filled = PTHREAD_COND_INITIALIZER};

static void put(struct queue *queue, uint32_t task)
{
    pthread_mutex_lock(&queue->lock);
    queue->tasks[queue->tail++] = task;
    pthread_cond_signal(&queue->filled);
    pthread_mutex_unlock(&queue->lock);
}

static uint32_t get(struct queue *queue)
{
    pthread_mutex_lock(&queue->lock);
    while (queue->head == queue->tail)
        pthread_cond_wait(&queue->filled, &queue->lock);
    uint32_t task = queue->tasks[queue->head++];
    pthread_mutex_unlock(&queue->lock);
    return task;
}

static void run_task(uint32_t task)
{
    const memplan_node *node = &nodes[task - 1];
    char *extra = take(node->extra);
    blocks[task] = take(node->out);
    nanosleep(&(struct timespec){0, (long)node->time * 1000}, NULL);
    give(extra, node->extra);
    for (uint32_t child = first_child[task]; child; child = next_sibling[child])
        give(blocks[child], nodes[child - 1].out);
}

/* Task 0 ends a worker. */
static void *work(void *none)
{
    for (uint32_t task; (task = get(&started)) != 0;) {
        run_task(task);
        put(&ended, task);
    }
    return none;
}

/* ---- the tree ---- */

static void make_tree(void)
{
    uint64_t seed = 99;
    for (size_t i = 0; i < count; i++) {
        seed = seed * 6364136223846793005u + 1442695040888963407u;
        size_t up = i + 2 + (seed >> 33) % 8;
        nodes[i] = (memplan_node){
            up > count ? (i + 1 < count ? (uint32_t)count : 0) : (uint32_t)up,
            100 + (seed >> 40) % 10000, (seed >> 20) % 20000, 0, 50 + (seed >> 35) % 500,
        };
    }
    for (uint32_t task = (uint32_t)count; task >= 1; task--) {
        uint32_t parent = nodes[task - 1].parent;
        next_sibling[task] = first_child[parent];
        first_child[parent] = task;
    }
}

static void run_all(memplan_core *core)
{
    size_t running = 0;
    for (size_t left = count; left; left--) {
        while (memplan_core_activate(core))
            ;
        for (uint32_t task; (task = memplan_core_next(core)) != 0; running++)
            if (memplan_core_start(core, task))
                put(&started, task);
        if (!running || !memplan_core_finish(core, get(&ended)))
            abort(); /* a core does not get stuck, and a task that was started runs */
        running--;
    }
}

static void *table(size_t length, size_t size)
{
    void *made = calloc(length, size);
    if (!made)
        abort();
    return made;
}

int main(int argc, char **argv)
{
    unsigned workers = argc > 1 ? (unsigned)atoi(argv[1]) : 4;
    uint64_t percent = argc > 2 ? strtoull(argv[2], NULL, 10) : 100;
    count = argc > 3 ? strtoull(argv[3], NULL, 10) : 1000;
    if (workers < 1 || workers > 256 || percent < 1 || count < 1 || count > 1000000) {
        fprintf(stderr, "usage: runner [WORKERS [PERCENT [TASKS]]]\n");
        return 2;
    }
    nodes = table(count, sizeof *nodes);
    first_child = table(count + 1, sizeof *first_child);
    next_sibling = table(count + 1, sizeof *next_sibling);
    blocks = table(count + 1, sizeof *blocks);
    started.tasks = table(count + workers, sizeof *started.tasks);
    ended.tasks = table(count, sizeof *ended.tasks);
    uint32_t *order = table(count, sizeof *order);
    make_tree();

    uint64_t peak;
    memplan_fault fault;
    uint32_t status = memplan_plan_tree(nodes, count, order, count, &peak, &fault);
    if (status != MEMPLAN_DONE) {
        fprintf(stderr, "plan: status %u, kind %u at %" PRIu64 "\n", status, fault.kind, fault.at);
        return 2;
    }
    uint64_t bound = peak * percent / 100;
    memplan_core *core = table(1, memplan_core_size());
    memplan_core_new(core);
    status = memplan_core_begin(core, nodes, count, order, count, bound, workers, &fault);
    if (status != MEMPLAN_DONE) {
        printf("refused: status %u, the peak is %" PRIu64 "\n", status, fault.value);
        return status == MEMPLAN_BOUND && percent < 100 ? 0 : 2;
    }
    pthread_t threads[256];
    for (unsigned i = 0; i < workers; i++)
        if (pthread_create(&threads[i], NULL, work, NULL))
            abort();
    run_all(core);
    for (unsigned i = 0; i < workers; i++)
        put(&started, 0);
    for (unsigned i = 0; i < workers; i++)
        pthread_join(threads[i], NULL);
    memplan_core_end(core);
    free(core);
    printf("%zu tasks, %u workers, least peak %" PRIu64 ", bound %" PRIu64 ", measured top %" PRIu64 ": %s\n", count, workers, peak, bound,
           top, top <= bound ? "within" : "PAST");
    return top <= bound ? 0 : 1;
}
