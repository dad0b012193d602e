/* With little address space more than the program has, at 28 places, each call that takes memory answers that memory is wanting, and
 * leaves its outputs as they were. */
#include "check.h"
#include <malloc.h>
#include <sys/resource.h>
#include <unistd.h>

enum { COUNT = 300000, CALLS = 14, PLACES = 28, OF_COLUMNS = 11, OF_DEGREE = 12, FEW = 50000 };

static memplan_node *nodes;
static uint32_t *order;
static uint32_t *starts, *rows, *front_of, *columns, zeros[FEW + 1];
static memplan_node *fronts;
static uint64_t *amounts;
static memplan_task *tasks;
static memplan_shared_item *items;
static uint32_t *readers;
static memplan_claim *claims;

/* As many bytes of address space as the program has, and so many more. */
static void leave(long bytes)
{
    long pages = 0;
    FILE *file = fopen("/proc/self/statm", "r");
    CHECK(file && fscanf(file, "%ld", &pages) == 1);
    fclose(file);
    struct rlimit limit;
    CHECK(getrlimit(RLIMIT_AS, &limit) == 0);
    limit.rlim_cur = (rlim_t)(pages * sysconf(_SC_PAGESIZE) + bytes);
    CHECK(setrlimit(RLIMIT_AS, &limit) == 0);
}

static void leave_all(void)
{
    struct rlimit limit;
    CHECK(getrlimit(RLIMIT_AS, &limit) == 0);
    limit.rlim_cur = limit.rlim_max;
    CHECK(setrlimit(RLIMIT_AS, &limit) == 0);
}

static uint64_t peak, second;
static memplan_core *core;
static const memplan_front_options triangles = {MEMPLAN_TRIANGLE, 0, 1, 0};

/* A band: each column is joined to the next one. */
static void make_band(void)
{
    starts = malloc((COUNT + 1) * sizeof *starts);
    rows = malloc(COUNT * sizeof *rows);
    front_of = calloc(COUNT, sizeof *front_of);
    columns = calloc(COUNT, sizeof *columns);
    fronts = calloc(COUNT, sizeof *fronts);
    CHECK(starts && rows && front_of && columns && fronts);
    for (uint32_t i = 0; i <= COUNT; i++)
        starts[i] = i + 1;
    for (uint32_t i = 0; i < COUNT; i++)
        rows[i] = i + 1 < COUNT ? i + 2 : i + 1;
}

/* Each task reads what the one before it leaves. */
static void make_tasks(void)
{
    tasks = malloc(COUNT * sizeof *tasks);
    items = malloc(COUNT * sizeof *items);
    readers = malloc(COUNT * sizeof *readers);
    CHECK(tasks && items && readers);
    for (uint32_t i = 0; i < COUNT; i++) {
        tasks[i] = (memplan_task){1, 0, 1};
        items[i] = (memplan_shared_item){1, i + 1, i + 1 < COUNT};
        readers[i] = i + 2;
    }
}

/* These two take less memory than the others. */
static long bytes_of_step(int which)
{
    return which == OF_COLUMNS ? 1l << 18 : which == OF_DEGREE ? 1l << 17 : 2l << 20;
}

static uint32_t call(int which, memplan_fault *fault)
{
    switch (which) {
    case 0: return memplan_plan_tree(nodes, COUNT, order, COUNT, &peak, fault);
    case 1: return memplan_best_postorder(nodes, COUNT, order, COUNT, &peak, fault);
    case 2: return memplan_replay_tree(nodes, COUNT, order, COUNT, &peak, fault);
    case 3: return memplan_certify_tree(nodes, COUNT, order, COUNT, &peak, claims, 3 * COUNT + 1, &second, fault);
    case 4: return memplan_check_tree(nodes, COUNT, order, COUNT, 2, claims, 0, fault);
    case 5: return memplan_spill_tree(nodes, COUNT, order, COUNT, 3, amounts, COUNT, &peak, fault);
    case 6:
        return memplan_fronts(1, starts, COUNT + 1, rows, COUNT, order, COUNT, &triangles, fronts, COUNT, &second, front_of, COUNT, fault);
    case 7: return memplan_replay_shared(tasks, COUNT, items, COUNT, readers, COUNT - 1, order, COUNT, &peak, fault);
    case 8: return memplan_core_begin_shared(core, tasks, COUNT, items, COUNT, readers, COUNT - 1, order, COUNT, 3, 1, fault);
    case 9:
        return memplan_plan_shared(tasks, COUNT, items, COUNT, readers, COUNT - 1, readers, 0, 0, order, COUNT, &peak, &second, fault);
    case 10:
        return memplan_analyse(1, starts, COUNT + 1, rows, COUNT, order, COUNT, &triangles, fronts, COUNT, &second, front_of, COUNT, columns,
                               COUNT, fault);
    case OF_COLUMNS: return memplan_columns(1, order, COUNT, order, COUNT, order, COUNT, columns, COUNT, fault);
    case OF_DEGREE: return memplan_minimum_degree(0, zeros, FEW + 1, zeros, 0, columns, FEW, fault);
    default: return memplan_core_begin(core, nodes, COUNT, order, COUNT, 3, 1, fault);
    }
}

int main(void)
{
    /* each large block is taken from the system, and given back, by itself */
    CHECK(mallopt(M_MMAP_THRESHOLD, 1 << 16) == 1);
    nodes = chain(COUNT);
    order = malloc(COUNT * sizeof *order);
    amounts = calloc(COUNT, sizeof *amounts);
    claims = calloc(3 * COUNT + 1, sizeof *claims);
    core = malloc(memplan_core_size());
    CHECK(order && amounts && claims && core);
    make_band();
    make_tasks();
    memplan_core_new(core);
    int wanting = 0, of_call[CALLS] = {0};
    for (int which = 0; which < CALLS; which++)
        for (long step = 0; step < PLACES; step++) {
            for (uint32_t i = 0; i < COUNT; i++)
                order[i] = i + 1;
            peak = 76;
            second = 75;
            amounts[0] = 74;
            claims[0].position = 73;
            front_of[0] = front_of[COUNT - 1] = 72;
            columns[0] = columns[FEW - 1] = columns[COUNT - 1] = 70;
            fronts[0].parent = fronts[COUNT - 1].parent = 71;
            memplan_fault fault = untouched;
            leave(step * bytes_of_step(which));
            uint32_t status = call(which, &fault);
            leave_all();
            if (status != MEMPLAN_NO_MEMORY)
                continue;
            wanting++;
            of_call[which]++;
            CHECK(is_fault(fault, MEMPLAN_KIND_NO_MEMORY, 0, 0));
            CHECK(peak == 76 && second == 75 && amounts[0] == 74 && claims[0].position == 73);
            CHECK(columns[0] == 70 && columns[FEW - 1] == 70 && columns[COUNT - 1] == 70);
            CHECK(front_of[0] == 72 && front_of[COUNT - 1] == 72 && fronts[0].parent == 71 && fronts[COUNT - 1].parent == 71);
            for (uint32_t i = 0; i < COUNT; i++)
                CHECK(order[i] == i + 1);
            CHECK(memplan_core_used(core) == 0 && memplan_core_is_done(core, 1) == 0);
        }
    printf("memory was wanting in %d of %d calls:", wanting, CALLS * PLACES);
    for (int which = 0; which < CALLS; which++)
        printf(" %d", of_call[which]);
    printf("\n");
    for (int which = 0; which < CALLS; which++)
        CHECK(of_call[which] >= 8);
    memplan_core_end(core);
    free(core);
    free(nodes);
    free(order);
    free(amounts);
    free(tasks);
    free(items);
    free(readers);
    free(claims);
    free(starts);
    free(rows);
    free(front_of);
    free(columns);
    free(fronts);
    return 0;
}
