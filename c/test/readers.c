/* Three tasks that read one input of 10, and one that takes what they leave, worked by hand: the input counts once, and goes with the last
 * of its readers. In turn the peak is 22, else 28. */
#include "check.h"

enum { TASKS = 4, ITEMS = 5, READERS = 6 };

static const memplan_task tasks[TASKS] = {{6, 0, 1}, {1, 0, 1}, {0, 0, 1}, {0, 0, 1}};
static const memplan_shared_item items[ITEMS] = {{10, 0, 3}, {3, 1, 1}, {4, 2, 1}, {5, 3, 1}, {2, 4, 0}};
static const uint32_t readers[READERS] = {1, 2, 3, 4, 4, 4};
static const uint32_t in_order[TASKS] = {1, 2, 3, 4};
static const uint32_t other_way[TASKS] = {3, 2, 1, 4};

static uint64_t peak;

static uint32_t replayed(const uint32_t *order, memplan_fault *fault)
{
    return memplan_replay_shared(tasks, TASKS, items, ITEMS, readers, READERS, order, TASKS, &peak, fault);
}

static void replays(void)
{
    memplan_fault fault = untouched;
    CHECK(replayed(in_order, &fault) == MEMPLAN_DONE && peak == 22);
    CHECK(replayed(other_way, &fault) == MEMPLAN_DONE && peak == 28);
    CHECK(is_fault(fault, 77, 78, 79));
    static const uint32_t early[TASKS] = {1, 2, 4, 3};
    CHECK(replayed(early, &fault) == MEMPLAN_NO && peak == 28);
    CHECK(is_fault(fault, MEMPLAN_KIND_TOO_EARLY, 3, 0));
}

/* A system of another call: an item has at most one reader. */
static void is_that_of_one_reader(void)
{
    static const memplan_task two[2] = {{0, 0, 1}, {2, 0, 1}};
    static const memplan_item own[3] = {{6, 0, 1}, {3, 1, 2}, {1, 2, 0}};
    static const memplan_shared_item same[3] = {{6, 0, 1}, {3, 1, 1}, {1, 2, 0}};
    uint64_t first = 0, second = 1;
    memplan_fault fault = untouched;
    CHECK(memplan_replay_system(two, 2, own, 3, in_order, 2, &first, &fault) == MEMPLAN_DONE);
    CHECK(memplan_replay_shared(two, 2, same, 3, in_order, 2, in_order, 2, &second, &fault) == MEMPLAN_DONE);
    CHECK(first == 9 && second == 9);
}

/* One item, and the readers, are other ones. */
static void items_refused(void)
{
    static const struct {
        int item;
        memplan_shared_item as;
        uint32_t readers[READERS];
        uint32_t status, kind;
    } rows[] = {
        {3, {5, 5, 1}, {1, 2, 3, 4, 4, 4}, MEMPLAN_FORMAT, MEMPLAN_KIND_ENDS},
        {0, {10, 0, 3}, {1, 2, 5, 4, 4, 4}, MEMPLAN_FORMAT, MEMPLAN_KIND_READERS},
        {2, {4, 2, 1}, {1, 2, 3, 4, 0, 4}, MEMPLAN_FORMAT, MEMPLAN_KIND_READERS},
        {0, {10, 2, 3}, {1, 2, 3, 4, 4, 4}, MEMPLAN_FORMAT, MEMPLAN_KIND_APART},
        {0, {10, 0, 3}, {1, 3, 2, 4, 4, 4}, MEMPLAN_FORMAT, MEMPLAN_KIND_RISING},
        {0, {10, 0, 3}, {1, 2, 2, 4, 4, 4}, MEMPLAN_FORMAT, MEMPLAN_KIND_RISING},
        {4, {(1ull << 40) + 1, 4, 0}, {1, 2, 3, 4, 4, 4}, MEMPLAN_LIMIT, MEMPLAN_KIND_ITEM_SIZE},
    };
    peak = 76;
    for (size_t i = 0; i < sizeof rows / sizeof *rows; i++) {
        memplan_shared_item changed[ITEMS];
        memcpy(changed, items, sizeof items);
        changed[rows[i].item] = rows[i].as;
        memplan_fault fault = untouched;
        CHECK(memplan_replay_shared(tasks, TASKS, changed, ITEMS, rows[i].readers, READERS, in_order, TASKS, &peak, &fault)
              == rows[i].status);
        CHECK(is_fault(fault, rows[i].kind, (uint64_t)rows[i].item + 1, 0) && peak == 76);
    }
}

/* One task is another one. */
static void tasks_refused(void)
{
    static const struct {
        memplan_task as;
        uint32_t status, kind;
    } rows[] = {
        {{1, 0, 0}, MEMPLAN_FORMAT, MEMPLAN_KIND_TIME},
        {{(1ull << 40) + 1, 0, 1}, MEMPLAN_LIMIT, MEMPLAN_KIND_SIZE},
        {{1, 0, (1ull << 40) + 1}, MEMPLAN_LIMIT, MEMPLAN_KIND_LONG_TIME},
        {{1, 1, 1}, MEMPLAN_FORMAT, MEMPLAN_KIND_SHARE}, /* what it reads others read too */
    };
    for (size_t i = 0; i < sizeof rows / sizeof *rows; i++) {
        memplan_task changed[TASKS];
        memcpy(changed, tasks, sizeof tasks);
        changed[1] = rows[i].as;
        memplan_fault fault = untouched;
        CHECK(memplan_replay_shared(changed, TASKS, items, ITEMS, readers, READERS, in_order, TASKS, &peak, &fault) == rows[i].status);
        CHECK(is_fault(fault, rows[i].kind, 2, 0));
    }
}

/* Task 4 reads what 1 makes, which waits for what 4 makes. */
static void a_circle_is_refused(void)
{
    memplan_shared_item circle[ITEMS];
    memcpy(circle, items, sizeof items);
    circle[4].readers = 1;
    static const uint32_t round[READERS + 1] = {1, 2, 3, 4, 4, 4, 1};
    memplan_fault fault = untouched;
    CHECK(memplan_replay_shared(tasks, TASKS, circle, ITEMS, round, READERS + 1, in_order, TASKS, &peak, &fault) == MEMPLAN_FORMAT);
    CHECK(is_fault(fault, MEMPLAN_KIND_CYCLE, 1, 0));
}

/* Not as many readers as the items say, and more than there may be. */
static void numbers_of_readers_refused(void)
{
    static const uint32_t more[READERS + 1] = {1, 2, 3, 4, 4, 4, 4};
    for (size_t count = 0; count <= READERS + 1; count++) {
        memplan_fault fault = untouched;
        uint32_t status = memplan_replay_shared(tasks, TASKS, items, ITEMS, more, count, in_order, TASKS, &peak, &fault);
        CHECK(status == (count == READERS ? MEMPLAN_DONE : MEMPLAN_USAGE));
        CHECK(count == READERS || is_fault(fault, MEMPLAN_KIND_COUNTS, 0, 0));
    }
    size_t past = 10000001;
    uint32_t *many = calloc(past, sizeof *many);
    CHECK(many);
    memplan_fault fault = untouched;
    CHECK(memplan_replay_shared(tasks, TASKS, items, ITEMS, many, past, in_order, TASKS, &peak, &fault) == MEMPLAN_LIMIT);
    CHECK(is_fault(fault, MEMPLAN_KIND_MANY_USES, 0, 0));
    free(many);
}

static uint32_t begun(memplan_core *core, uint64_t bound, memplan_fault *fault)
{
    return memplan_core_begin_shared(core, tasks, TASKS, items, ITEMS, readers, READERS, in_order, TASKS, bound, 2, fault);
}

static void begins(memplan_core *core)
{
    memplan_fault fault = untouched;
    CHECK(begun(core, 21, &fault) == MEMPLAN_BOUND);
    CHECK(is_fault(fault, MEMPLAN_KIND_BOUND_BELOW, 0, 22));
    CHECK(memplan_core_begin_shared(core, tasks, TASKS, items, ITEMS, readers, 5, in_order, TASKS, 22, 2, &fault) == MEMPLAN_USAGE);
    CHECK(is_fault(fault, MEMPLAN_KIND_COUNTS, 0, 0));
    CHECK(memplan_core_begin_shared(core, tasks, TASKS, items, ITEMS, readers, READERS, in_order, TASKS, 22, 0, &fault)
          == MEMPLAN_USAGE);
    CHECK(is_fault(fault, MEMPLAN_KIND_WORKERS, 0, 0) && memplan_core_used(core) == 0);
}

/* Within the peak one reader runs after the other; the input is there until the third is done. */
static void runs(memplan_core *core)
{
    memplan_fault fault = untouched;
    CHECK(begun(core, 22, &fault) == MEMPLAN_DONE && is_fault(fault, 77, 78, 79));
    CHECK(memplan_core_used(core) == 10 && memplan_core_booked(core) == 10);
    CHECK(memplan_core_activate(core) == 1 && memplan_core_activate(core) == 0 && memplan_core_booked(core) == 19);
    CHECK(memplan_core_start(core, 1) == 1 && memplan_core_used(core) == 19 && memplan_core_finish(core, 1) == 1);
    CHECK(memplan_core_used(core) == 13 && memplan_core_activate(core) == 2 && memplan_core_activate(core) == 0);
    CHECK(memplan_core_start(core, 2) == 1 && memplan_core_used(core) == 18 && memplan_core_finish(core, 2) == 1);
    CHECK(memplan_core_used(core) == 17 && memplan_core_activate(core) == 3 && memplan_core_activate(core) == 0);
    CHECK(memplan_core_start(core, 3) == 1 && memplan_core_used(core) == 22 && memplan_core_finish(core, 3) == 1);
    CHECK(memplan_core_used(core) == 12 && memplan_core_activate(core) == 4);
    CHECK(memplan_core_start(core, 4) == 1 && memplan_core_used(core) == 14 && memplan_core_finish(core, 4) == 1);
    CHECK(memplan_core_used(core) == 2 && memplan_core_is_done(core, 4) == 1);
}

/* With 2 more the first two read at once; the last task waits for all three. */
static void runs_two_at_once(memplan_core *core)
{
    memplan_fault fault = untouched;
    CHECK(begun(core, 24, &fault) == MEMPLAN_DONE);
    CHECK(memplan_core_activate(core) == 1 && memplan_core_activate(core) == 2 && memplan_core_activate(core) == 0);
    CHECK(memplan_core_next(core) == 1 && memplan_core_start(core, 1) == 1 && memplan_core_next(core) == 2);
    CHECK(memplan_core_start(core, 2) == 1 && memplan_core_used(core) == 24 && memplan_core_next(core) == 0);
    CHECK(memplan_core_finish(core, 2) == 1 && memplan_core_finish(core, 1) == 1 && memplan_core_used(core) == 17);
    CHECK(memplan_core_activate(core) == 3 && memplan_core_activate(core) == 4 && memplan_core_booked(core) == 24);
    CHECK(memplan_core_is_startable(core, 4) == 0 && memplan_core_start(core, 3) == 1 && memplan_core_is_startable(core, 4) == 0);
    CHECK(memplan_core_next(core) == 0 && memplan_core_finish(core, 3) == 1 && memplan_core_used(core) == 12);
    CHECK(memplan_core_next(core) == 4 && memplan_core_is_startable(core, 4) == 1);
}

int main(void)
{
    replays();
    is_that_of_one_reader();
    items_refused();
    tasks_refused();
    a_circle_is_refused();
    numbers_of_readers_refused();
    memplan_core *core = malloc(memplan_core_size());
    CHECK(core);
    memplan_core_new(core);
    begins(core);
    runs(core);
    runs_two_at_once(core);
    memplan_core_end(core);
    free(core);
    return 0;
}
