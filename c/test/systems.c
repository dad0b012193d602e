/* Tasks that hand items to each other in a diamond, which is worked by hand: in turn the peak is 13, else 14. */
#include "check.h"

static const memplan_task tasks[4] = {{0, 0, 1}, {0, 0, 1}, {2, 0, 1}, {0, 0, 1}};
static const memplan_item items[6] = {
    {6, 0, 1}, {3, 1, 2}, {4, 1, 3}, {2, 2, 4}, {5, 3, 4}, {1, 4, 0},
};
static const uint32_t one_way[4] = {1, 2, 3, 4};
static const uint32_t other_way[4] = {1, 3, 2, 4};

static void replays(void)
{
    uint64_t peak = 0;
    memplan_fault fault = untouched;
    CHECK(memplan_replay_system(tasks, 4, items, 6, one_way, 4, &peak, &fault) == MEMPLAN_DONE);
    CHECK(peak == 13);
    CHECK(memplan_replay_system(tasks, 4, items, 6, other_way, 4, &peak, &fault) == MEMPLAN_DONE);
    CHECK(peak == 14 && is_fault(fault, 77, 78, 79));
    static const uint32_t early[4] = {1, 2, 4, 3};
    CHECK(memplan_replay_system(tasks, 4, items, 6, early, 4, &peak, &fault) == MEMPLAN_NO);
    CHECK(is_fault(fault, MEMPLAN_KIND_TOO_EARLY, 3, 0) && peak == 14);
}

static void refused(void)
{
    static const struct {
        int item;
        memplan_item as;
        uint32_t status, kind;
    } rows[] = {
        {3, {2, 5, 4}, MEMPLAN_FORMAT, MEMPLAN_KIND_ENDS},
        {4, {5, 3, 5}, MEMPLAN_FORMAT, MEMPLAN_KIND_ENDS},
        {1, {(1ull << 40) + 1, 1, 2}, MEMPLAN_LIMIT, MEMPLAN_KIND_ITEM_SIZE},
    };
    uint64_t peak = 76;
    for (size_t i = 0; i < sizeof rows / sizeof *rows; i++) {
        memplan_item changed[6];
        memcpy(changed, items, sizeof items);
        changed[rows[i].item] = rows[i].as;
        memplan_fault fault = untouched;
        CHECK(memplan_replay_system(tasks, 4, changed, 6, one_way, 4, &peak, &fault) == rows[i].status);
        CHECK(is_fault(fault, rows[i].kind, (uint64_t)rows[i].item + 1, 0) && peak == 76);
    }
    memplan_task changed[4];
    memcpy(changed, tasks, sizeof tasks);
    changed[2].share = 5; /* it consumes 4 */
    memplan_fault fault = untouched;
    CHECK(memplan_replay_system(changed, 4, items, 6, one_way, 4, &peak, &fault) == MEMPLAN_FORMAT);
    CHECK(is_fault(fault, MEMPLAN_KIND_SHARE, 3, 0));
    changed[1].time = 0;
    CHECK(memplan_replay_system(changed, 4, items, 6, one_way, 4, &peak, &fault) == MEMPLAN_FORMAT);
    CHECK(is_fault(fault, MEMPLAN_KIND_TIME, 2, 0) && peak == 76);
}

static void runs(void)
{
    memplan_core *core = malloc(memplan_core_size());
    CHECK(core);
    memplan_core_new(core);
    memplan_fault fault = untouched;
    CHECK(memplan_core_begin_system(core, tasks, 4, items, 6, one_way, 4, 12, 2, &fault) == MEMPLAN_BOUND);
    CHECK(is_fault(fault, MEMPLAN_KIND_BOUND_BELOW, 0, 13));
    CHECK(memplan_core_begin_system(core, tasks, 4, items, 6, one_way, 4, 13, 2, &fault) == MEMPLAN_DONE);
    CHECK(memplan_core_used(core) == 6 && memplan_core_booked(core) == 6);
    CHECK(memplan_core_activate(core) == 1 && memplan_core_activate(core) == 0 && memplan_core_booked(core) == 13);
    CHECK(memplan_core_start(core, 1) == 1 && memplan_core_used(core) == 13 && memplan_core_finish(core, 1) == 1);
    CHECK(memplan_core_used(core) == 7 && memplan_core_activate(core) == 2 && memplan_core_activate(core) == 0);
    CHECK(memplan_core_is_startable(core, 2) == 1 && memplan_core_is_startable(core, 3) == 0);
    CHECK(memplan_core_start(core, 2) == 1 && memplan_core_used(core) == 9 && memplan_core_finish(core, 2) == 1);
    CHECK(memplan_core_activate(core) == 3 && memplan_core_start(core, 3) == 1 && memplan_core_finish(core, 3) == 1);
    CHECK(memplan_core_activate(core) == 4 && memplan_core_start(core, 4) == 1 && memplan_core_finish(core, 4) == 1);
    CHECK(memplan_core_used(core) == 1 && memplan_core_is_done(core, 4) == 1);
    memplan_core_end(core);
    free(core);
}

int main(void)
{
    replays();
    refused();
    runs();
    return 0;
}
