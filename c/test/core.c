/* The activation core: each event where it may happen, and none where it may not. */
#include "check.h"

static memplan_core *made(void)
{
    memplan_core *core = malloc(memplan_core_size());
    CHECK(core);
    memplan_core_new(core);
    return core;
}

/* Without a core each call answers 0. */
static void empty(memplan_core *core)
{
    CHECK(memplan_core_activate(core) == 0 && memplan_core_start(core, 1) == 0 && memplan_core_finish(core, 1) == 0);
    CHECK(memplan_core_is_startable(core, 1) == 0 && memplan_core_is_done(core, 1) == 0 && memplan_core_next(core) == 0);
    CHECK(memplan_core_used(core) == 0 && memplan_core_booked(core) == 0);
}

static void refused(memplan_core *core)
{
    memplan_fault fault = untouched;
    CHECK(memplan_core_begin(core, five, 5, across, 5, 10, 2, &fault) == MEMPLAN_BOUND);
    CHECK(is_fault(fault, MEMPLAN_KIND_BOUND_BELOW, 0, 11));
    CHECK(memplan_core_begin(core, five, 5, across, 5, 11, 0, &fault) == MEMPLAN_USAGE);
    CHECK(is_fault(fault, MEMPLAN_KIND_WORKERS, 0, 0));
    CHECK(memplan_core_begin(core, five, 5, across, 5, 11, 4097, &fault) == MEMPLAN_USAGE);
    CHECK(memplan_core_begin(core, five, 5, across, 4, 11, 2, &fault) == MEMPLAN_NO);
    CHECK(is_fault(fault, MEMPLAN_KIND_MISSING, 5, 0));
    CHECK(memplan_core_begin(core, five, 4, across, 4, 11, 2, &fault) == MEMPLAN_FORMAT);
    CHECK(is_fault(fault, MEMPLAN_KIND_PARENT, 2, 0));
}

/* Two workers, a bound of 11: 1 is booked with 10, 3 waits for its end. */
static void run(memplan_core *core)
{
    memplan_fault fault = untouched;
    CHECK(memplan_core_begin(core, five, 5, across, 5, 11, 2, &fault) == MEMPLAN_DONE);
    CHECK(is_fault(fault, 77, 78, 79));
    CHECK(memplan_core_start(core, 1) == 0 && memplan_core_is_startable(core, 1) == 0 && memplan_core_next(core) == 0);
    CHECK(memplan_core_activate(core) == 1 && memplan_core_activate(core) == 0);
    CHECK(memplan_core_booked(core) == 10 && memplan_core_used(core) == 0);
    CHECK(memplan_core_start(core, 3) == 0 && memplan_core_is_startable(core, 1) == 1);
    CHECK(memplan_core_next(core) == 1 && memplan_core_next(core) == 1);
    refused(core);
    CHECK(memplan_core_next(core) == 1);
    CHECK(memplan_core_start(core, 1) == 1 && memplan_core_start(core, 1) == 0 && memplan_core_used(core) == 10);
    CHECK(memplan_core_next(core) == 0);
    CHECK(memplan_core_finish(core, 3) == 0 && memplan_core_is_done(core, 1) == 0);
    CHECK(memplan_core_finish(core, 1) == 1 && memplan_core_finish(core, 1) == 0 && memplan_core_is_done(core, 1) == 1);
    CHECK(memplan_core_used(core) == 1 && memplan_core_booked(core) == 1);
    static const uint32_t left[4] = {3, 2, 4, 5};
    for (int i = 0; i < 4; i++) {
        uint32_t task = memplan_core_activate(core);
        CHECK(task == left[i] && memplan_core_next(core) == task && memplan_core_start(core, task) == 1);
        CHECK(memplan_core_used(core) <= memplan_core_booked(core) && memplan_core_booked(core) <= 11);
        CHECK(memplan_core_finish(core, task) == 1);
    }
    CHECK(memplan_core_used(core) == 0 && memplan_core_activate(core) == 0 && memplan_core_next(core) == 0);
    CHECK(memplan_core_start(core, 0) == 0 && memplan_core_start(core, 6) == 0 && memplan_core_is_done(core, 6) == 0);
}

static void check_ends(memplan_core *core, uint32_t task, uint32_t next)
{
    CHECK(memplan_core_start(core, task) == 1 && memplan_core_next(core) == 0);
    CHECK(memplan_core_finish(core, task) == 1 && memplan_core_next(core) == next);
}

/* All are activated at once, and one worker runs them, not in turn: of those that may start the first of the order is next. */
static void one_worker(memplan_core *core)
{
    memplan_fault fault = untouched;
    CHECK(memplan_core_begin(core, five, 5, across, 5, 100, 1, &fault) == MEMPLAN_DONE);
    for (int i = 0; i < 5; i++)
        CHECK(memplan_core_activate(core) == across[i] && memplan_core_next(core) == 1);
    check_ends(core, 3, 1);
    CHECK(memplan_core_start(core, 2) == 0 && memplan_core_start(core, 5) == 0);
    check_ends(core, 1, 2);
    check_ends(core, 4, 2);
    check_ends(core, 2, 5);
    check_ends(core, 5, 0);
}

/* ---- random trees and systems, run at random ---- */

enum { MOST = 12, RUNS = 1000 };

static uint64_t seed = 2024;

static uint32_t below(uint32_t count)
{
    seed = seed * 6364136223846793005u + 1442695040888963407u;
    return (uint32_t)(seed >> 33) % count;
}

/* A bound of one to three times the peak. */
static uint64_t wider(uint64_t peak)
{
    return peak + peak * below(201) / 100;
}

static void begin_tree(memplan_core *core, const uint32_t *order, uint32_t count)
{
    memplan_node nodes[MOST];
    for (uint32_t i = 0; i < count; i++) {
        uint32_t up = i + 2 + below(4);
        nodes[i] = (memplan_node){up > count ? 0 : up, below(9), below(9), 0, 1};
    }
    uint64_t peak;
    memplan_fault fault;
    CHECK(memplan_replay_tree(nodes, count, order, count, &peak, &fault) == MEMPLAN_DONE);
    CHECK(memplan_core_begin(core, nodes, count, order, count, wider(peak), 1 + below(4), &fault) == MEMPLAN_DONE);
}

/* An item of each task, which any of the later tasks read. */
static void begin_shared(memplan_core *core, const uint32_t *order, uint32_t count)
{
    memplan_task tasks[MOST];
    memplan_shared_item items[MOST];
    uint32_t readers[MOST * MOST], many = 0;
    for (uint32_t i = 0; i < count; i++) {
        uint32_t before = many;
        for (uint32_t reader = i + 2; reader <= count; reader++)
            if (below(3) == 0)
                readers[many++] = reader;
        tasks[i] = (memplan_task){below(9), 0, 1};
        items[i] = (memplan_shared_item){below(9), i + 1, many - before};
    }
    uint64_t peak;
    memplan_fault fault;
    CHECK(memplan_replay_shared(tasks, count, items, count, readers, many, order, count, &peak, &fault) == MEMPLAN_DONE);
    CHECK(memplan_core_begin_shared(core, tasks, count, items, count, readers, many, order, count, wider(peak), 1 + below(4), &fault)
          == MEMPLAN_DONE);
}

/* The first task that may start, found by asking of each. */
static uint32_t scanned(memplan_core *core, const uint32_t *order, uint32_t count)
{
    for (uint32_t i = 0; i < count; i++)
        if (memplan_core_is_startable(core, order[i]))
            return order[i];
    return 0;
}

static void runs_at_random(memplan_core *core, const uint32_t *order, uint32_t count)
{
    for (uint32_t ended = 0; ended < count;) {
        uint32_t task = 1 + below(count);
        switch (below(4)) {
        case 0:
            memplan_core_activate(core);
            break;
        case 1:
            memplan_core_start(core, task);
            break;
        case 2:
            task = memplan_core_next(core);
            CHECK(memplan_core_start(core, task) == (task != 0));
            break;
        default:
            ended += memplan_core_finish(core, task);
        }
        CHECK(memplan_core_next(core) == scanned(core, order, count));
    }
}

static void random_runs(memplan_core *core)
{
    uint32_t order[MOST];
    for (uint32_t i = 0; i < MOST; i++)
        order[i] = i + 1;
    for (int i = 0; i < RUNS; i++) {
        uint32_t count = 1 + below(MOST);
        (i % 2 ? begin_tree : begin_shared)(core, order, count);
        runs_at_random(core, order, count);
    }
}

int main(void)
{
    memplan_core *core = made();
    empty(core);
    refused(core);
    empty(core);
    run(core);
    /* a refused call leaves the core that is there; the next takes its place */
    refused(core);
    CHECK(memplan_core_is_done(core, 5) == 1);
    run(core);
    one_worker(core);
    random_runs(core);
    memplan_core_end(core);
    free(core);
    core = made();
    memplan_core_end(core);
    free(core);
    return 0;
}
