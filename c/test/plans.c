/* Plans of graphs that are no forest, worked by hand. Of three tasks that read one input of 10 the last one has what the other two leave
 * beside it: in turn the peak is 22, which none goes below, and the other way 28. */
#include "check.h"

enum { TASKS = 4, ITEMS = 5, READERS = 6 };

static const memplan_task tasks[TASKS] = {{6, 0, 1}, {1, 0, 1}, {0, 0, 1}, {0, 0, 1}};
static const memplan_shared_item items[ITEMS] = {{10, 0, 3}, {3, 1, 1}, {4, 2, 1}, {5, 3, 1}, {2, 4, 0}};
static const uint32_t readers[READERS] = {1, 2, 3, 4, 4, 4};
static const uint32_t other_way[TASKS] = {3, 2, 1, 4};

static uint32_t order[TASKS];
static uint64_t peak, bound;

static uint32_t planned(const uint32_t *start, size_t count, uint64_t effort, size_t places, memplan_fault *fault)
{
    return memplan_plan_shared(tasks, TASKS, items, ITEMS, readers, READERS, start, count, effort, order, places, &peak, &bound, fault);
}

static void is_replayed(void)
{
    uint64_t replayed = 0;
    memplan_fault fault = untouched;
    CHECK(memplan_replay_shared(tasks, TASKS, items, ITEMS, readers, READERS, order, TASKS, &replayed, &fault) == MEMPLAN_DONE);
    CHECK(replayed == peak);
}

static void plans(void)
{
    memplan_fault fault = untouched;
    CHECK(planned(other_way, 0, MEMPLAN_EFFORT, TASKS, &fault) == MEMPLAN_DONE && peak == 22 && bound == 22);
    is_replayed();
    CHECK(planned(other_way, TASKS, MEMPLAN_EFFORT, TASKS, &fault) == MEMPLAN_DONE && peak == 22 && bound == 22);
    is_replayed();
    CHECK(is_fault(fault, 77, 78, 79));
}

/* Task 1 makes 10 that tasks 3 and 4 read, and task 2 makes 3 for task 4 alone: no term tells these orders. Task 4 needs 14 for what it
 * reads and makes, and 16 where the 2 that task 3 makes are there. With no effort the plan is the start or better. */
static void is_never_worse(void)
{
    static const memplan_task four[TASKS] = {{0, 0, 1}, {0, 0, 1}, {0, 0, 1}, {0, 0, 1}};
    static const memplan_shared_item made[TASKS] = {{10, 1, 2}, {3, 2, 1}, {2, 3, 0}, {1, 4, 0}};
    static const uint32_t takers[3] = {3, 4, 4};
    static const struct {
        uint32_t start[TASKS];
        uint64_t effort, most;
    } rows[] = {{{1, 3, 2, 4}, 0, 16}, {{2, 1, 4, 3}, 0, 14}, {{1, 3, 2, 4}, MEMPLAN_EFFORT, 14}};
    for (size_t i = 0; i < sizeof rows / sizeof *rows; i++) {
        memplan_fault fault = untouched;
        CHECK(memplan_plan_shared(four, TASKS, made, TASKS, takers, 3, rows[i].start, TASKS, rows[i].effort, order, TASKS, &peak, &bound,
                                  &fault)
              == MEMPLAN_DONE);
        CHECK(14 <= peak && peak <= rows[i].most && bound <= 14);
        uint64_t replayed = 0;
        CHECK(memplan_replay_shared(four, TASKS, made, TASKS, takers, 3, order, TASKS, &replayed, &fault) == MEMPLAN_DONE);
        CHECK(replayed == peak);
    }
}

/* What is refused leaves all but the fault. */
static void is_refused(void)
{
    static const uint32_t early[TASKS] = {1, 2, 4, 3};
    memplan_fault fault = untouched;
    peak = 76;
    bound = 75;
    order[0] = order[TASKS - 1] = 74;
    CHECK(planned(early, TASKS, 0, TASKS, &fault) == MEMPLAN_NO && is_fault(fault, MEMPLAN_KIND_TOO_EARLY, 3, 0));
    CHECK(planned(other_way, 3, 0, TASKS, &fault) == MEMPLAN_NO && is_fault(fault, MEMPLAN_KIND_MISSING, 4, 0));
    CHECK(planned(early, 0, 0, TASKS - 1, &fault) == MEMPLAN_USAGE && is_fault(fault, MEMPLAN_KIND_ROOM, 0, TASKS));
    CHECK(memplan_plan_shared(tasks, TASKS, items, ITEMS, readers, READERS - 1, early, 0, 0, order, TASKS, &peak, &bound, &fault)
          == MEMPLAN_USAGE);
    CHECK(is_fault(fault, MEMPLAN_KIND_COUNTS, 0, 0));
    memplan_shared_item circle[ITEMS];
    memcpy(circle, items, sizeof items);
    circle[4].readers = 1;
    static const uint32_t round[READERS + 1] = {1, 2, 3, 4, 4, 4, 1};
    CHECK(memplan_plan_shared(tasks, TASKS, circle, ITEMS, round, READERS + 1, early, 0, 0, order, TASKS, &peak, &bound, &fault)
          == MEMPLAN_FORMAT);
    CHECK(is_fault(fault, MEMPLAN_KIND_CYCLE, 1, 0));
    CHECK(peak == 76 && bound == 75 && order[0] == 74 && order[TASKS - 1] == 74);
}

/* Task 1 hands 3 to task 2 and 4 to task 3, which needs 2 more, and both hand on to task 4: whatever the effort, the plan is least. */
static void a_term_needs_no_search(void)
{
    static const memplan_task diamond[TASKS] = {{0, 0, 1}, {0, 0, 1}, {2, 0, 1}, {0, 0, 1}};
    static const memplan_shared_item parts[6] = {{6, 0, 1}, {3, 1, 1}, {4, 1, 1}, {2, 2, 1}, {5, 3, 1}, {1, 4, 0}};
    static const uint32_t takers[5] = {1, 2, 3, 4, 4};
    static const uint32_t start[TASKS] = {1, 3, 2, 4};
    memplan_fault fault = untouched;
    CHECK(memplan_plan_shared(diamond, TASKS, parts, 6, takers, 5, start, TASKS, 0, order, TASKS, &peak, &bound, &fault) == MEMPLAN_DONE);
    CHECK(peak == 13 && bound == 13 && order[0] == 1 && order[1] == 2 && order[2] == 3 && order[3] == 4);
}

/* No task at all: the empty order. */
static void nothing_is_planned(void)
{
    static const memplan_shared_item kept = {7, 0, 0};
    memplan_fault fault = untouched;
    CHECK(memplan_plan_shared(tasks, 0, &kept, 1, readers, 0, other_way, 0, 0, order, 0, &peak, &bound, &fault) == MEMPLAN_DONE);
    CHECK(peak == 7 && bound == 7);
}

int main(void)
{
    plans();
    is_never_worse();
    is_refused();
    a_term_needs_no_search();
    nothing_is_planned();
    return 0;
}
