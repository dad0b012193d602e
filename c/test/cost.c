/* What calls cost: a refused one less than a microsecond; on many nodes as it comes; and, without a file, a run of the core by
 * memplan_core_next less than 0.1 s more than one by counts of the caller's own.
 *
 *     cost [TREE_FILE]
 *
 * The nodes are those of a tree file of version 1, or a million that are made here. bench/calls.py runs it beside the program. */
#include "check.h"
#include <inttypes.h>
#include <time.h>

static double now(void)
{
    struct timespec t;
    clock_gettime(CLOCK_PROCESS_CPUTIME_ID, &t);
    return (double)t.tv_sec + 1e-9 * (double)t.tv_nsec;
}

static uint64_t peak;
static memplan_fault fault;

/* The least of some rounds: what else runs on the machine makes others longer. */
static double refused_call(const memplan_node *nodes, size_t places, uint32_t status)
{
    enum { CALLS = 100000, ROUNDS = 10 };
    uint32_t order[5];
    double least = 1;
    for (int round = 0; round < ROUNDS; round++) {
        double start = now();
        for (int i = 0; i < CALLS; i++)
            CHECK(memplan_plan_tree(nodes, 5, order, places, &peak, &fault) == status);
        double one = (now() - start) / CALLS;
        least = one < least ? one : least;
    }
    return least;
}

static void refusals(void)
{
    memplan_node bad[5];
    memcpy(bad, five, sizeof five);
    bad[4].parent = 6;
    double nodes = refused_call(bad, 5, MEMPLAN_FORMAT), room = refused_call(five, 4, MEMPLAN_USAGE);
    printf("refused nodes %.0f ns, a refused length %.0f ns a call\n", 1e9 * nodes, 1e9 * room);
    CHECK(nodes < 1e-6 && room < 1e-6);
}

static memplan_node *read_nodes(const char *name, size_t *count)
{
    FILE *file = fopen(name, "r");
    CHECK(file && fscanf(file, "tree 1 nodes %zu", count) == 1);
    memplan_node *nodes = calloc(*count, sizeof *nodes);
    CHECK(nodes);
    for (size_t i = 0; i < *count; i++)
        CHECK(fscanf(file, "%" SCNu32 " %" SCNu64 " %" SCNu64 " %" SCNu64, &nodes[i].parent, &nodes[i].out, &nodes[i].extra,
                     &nodes[i].time) == 4);
    fclose(file);
    return nodes;
}

static memplan_node *make_nodes(size_t *count)
{
    *count = 1000000;
    memplan_node *nodes = calloc(*count, sizeof *nodes);
    CHECK(nodes);
    uint64_t seed = 12345;
    for (size_t i = 0; i < *count; i++) {
        seed = seed * 6364136223846793005u + 1442695040888963407u;
        size_t up = i + 2 + (seed >> 33) % 50;
        nodes[i] = (memplan_node){up > *count ? 0 : (uint32_t)up, 1 + (seed >> 40) % 1000, (seed >> 20) % 1000, 0, 1};
    }
    return nodes;
}

/* ---- the core ---- */

/* A run of one worker over a tree whose nodes stand in turn, which tells its order; how long it took. With the caller's own counts a leaf
 * is put down when it is activated, and a parent when the last of its children ends. */
static double run(memplan_core *core, const memplan_node *nodes, const uint32_t *order, size_t count, uint32_t *children, uint32_t *own)
{
    CHECK(memplan_core_begin(core, nodes, count, order, count, (uint64_t)1 << 60, 1, &fault) == MEMPLAN_DONE);
    size_t first = 0, last = 0;
    double start = now();
    for (uint32_t task; (task = memplan_core_activate(core)) != 0;)
        if (own && children[task] == 0)
            own[last++] = task;
    for (size_t left = count; left; left--) {
        uint32_t task = own ? own[first++] : memplan_core_next(core), parent = nodes[task - 1].parent;
        CHECK(memplan_core_start(core, task) && memplan_core_finish(core, task));
        if (own && parent && --children[parent] == 0)
            own[last++] = parent;
    }
    return now() - start;
}

static void count_children(const memplan_node *nodes, size_t count, uint32_t *children)
{
    memset(children, 0, (count + 1) * sizeof *children);
    for (size_t i = 0; i < count; i++)
        children[nodes[i].parent]++;
}

/* A million tasks of a binary tree, all activated at once. */
static void core_calls(void)
{
    enum { COUNT = 1000000, ROUNDS = 5 };
    memplan_node *nodes = calloc(COUNT, sizeof *nodes);
    uint32_t *order = calloc(COUNT, sizeof *order), *children = calloc(COUNT + 1, sizeof *children), *own = calloc(COUNT, sizeof *own);
    memplan_core *core = malloc(memplan_core_size());
    CHECK(nodes && order && children && own && core);
    for (uint32_t i = 0; i < COUNT; i++) {
        uint32_t up = (i + 1 + COUNT) / 2 + 1;
        nodes[i] = (memplan_node){up > COUNT || i + 1 == COUNT ? 0 : up, 1, 1, 0, 1};
        order[i] = i + 1;
    }
    memplan_core_new(core);
    double by_counts = 1000, by_next = 1000;
    for (int round = 0; round < ROUNDS; round++) {
        count_children(nodes, COUNT, children);
        double counted = run(core, nodes, order, COUNT, children, own), told = run(core, nodes, order, COUNT, NULL, NULL);
        by_counts = counted < by_counts ? counted : by_counts;
        by_next = told < by_next ? told : by_next;
    }
    printf("a run of %d tasks by the core: %.3f s by counts of the caller's own, %.3f s by memplan_core_next\n", COUNT, by_counts, by_next);
    CHECK(by_next < by_counts + 0.1);
    memplan_core_end(core);
    free(core);
    free(nodes);
    free(order);
    free(children);
    free(own);
}

int main(int argc, char **argv)
{
    size_t count;
    memplan_node *nodes = argc > 1 ? read_nodes(argv[1], &count) : make_nodes(&count);
    uint32_t *order = calloc(count, sizeof *order);
    CHECK(order);
    refusals();
    double start = now();
    CHECK(memplan_plan_tree(nodes, count, order, count, &peak, &fault) == MEMPLAN_DONE);
    printf("plan of %zu nodes: %.3f s, peak %" PRIu64 "\n", count, now() - start, peak);
    start = now();
    CHECK(memplan_best_postorder(nodes, count, order, count, &peak, &fault) == MEMPLAN_DONE);
    printf("best postorder: %.3f s\n", now() - start);
    start = now();
    CHECK(memplan_replay_tree(nodes, count, order, count, &peak, &fault) == MEMPLAN_DONE);
    printf("replay: %.3f s\n", now() - start);
    free(nodes);
    free(order);
    if (argc == 1)
        core_calls();
    return 0;
}
