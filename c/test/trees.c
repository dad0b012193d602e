/* The calls on trees: what they answer, and that a refused call writes nothing but its fault. */
#include "check.h"

static uint32_t order[5];
static uint64_t peak;
static memplan_fault fault;

static void reset(void)
{
    for (int i = 0; i < 5; i++)
        order[i] = 70 + i;
    peak = 76;
    fault = untouched;
}

static int is_unwritten(void)
{
    for (uint32_t i = 0; i < 5; i++)
        if (order[i] != 70 + i)
            return 0;
    return peak == 76;
}

static int has_no_fault(void)
{
    return is_fault(fault, 77, 78, 79);
}

static void orders(void)
{
    reset();
    CHECK(memplan_plan_tree(five, 5, order, 5, &peak, &fault) == MEMPLAN_DONE);
    CHECK(peak == 11 && has_no_fault());
    uint64_t replayed = 0;
    CHECK(memplan_replay_tree(five, 5, order, 5, &replayed, &fault) == MEMPLAN_DONE);
    CHECK(replayed == 11);
    CHECK(memplan_best_postorder(five, 5, order, 5, &peak, &fault) == MEMPLAN_DONE);
    CHECK(peak == 15 && memcmp(order, in_turn, sizeof in_turn) == 0);
    CHECK(memplan_replay_tree(five, 5, across, 5, &replayed, &fault) == MEMPLAN_DONE);
    CHECK(replayed == 11 && has_no_fault());
}

/* One node of the five is changed; each call that judges nodes refuses it with this fault. */
static void refused_nodes(void)
{
    static const struct {
        int node;
        memplan_node as;
        uint32_t status, kind;
        uint64_t at;
    } rows[] = {
        {3, {6, 5, 0, 0, 1}, MEMPLAN_FORMAT, MEMPLAN_KIND_PARENT, 4},
        {1, {5, 5, 0, 0, 0}, MEMPLAN_FORMAT, MEMPLAN_KIND_TIME, 2},
        {2, {4, (1ull << 40) + 1, 9, 0, 1}, MEMPLAN_LIMIT, MEMPLAN_KIND_SIZE, 3},
        {0, {2, 1, (1ull << 40) + 1, 0, 1}, MEMPLAN_LIMIT, MEMPLAN_KIND_SIZE, 1},
        {4, {0, 0, 0, 0, (1ull << 40) + 1}, MEMPLAN_LIMIT, MEMPLAN_KIND_LONG_TIME, 5},
        {4, {2, 0, 0, 0, 1}, MEMPLAN_FORMAT, MEMPLAN_KIND_CYCLE, 1},
        {1, {5, 5, 0, 2, 1}, MEMPLAN_FORMAT, MEMPLAN_KIND_SHARE, 2},
        {4, {0, 0, 3, 4, 1}, MEMPLAN_FORMAT, MEMPLAN_KIND_SHARE, 5},
    };
    for (size_t i = 0; i < sizeof rows / sizeof *rows; i++) {
        memplan_node nodes[5];
        memcpy(nodes, five, sizeof five);
        nodes[rows[i].node] = rows[i].as;
        reset();
        CHECK(memplan_plan_tree(nodes, 5, order, 5, &peak, &fault) == rows[i].status);
        CHECK(is_fault(fault, rows[i].kind, rows[i].at, 0) && is_unwritten());
        reset();
        CHECK(memplan_best_postorder(nodes, 5, order, 5, &peak, &fault) == rows[i].status);
        CHECK(is_fault(fault, rows[i].kind, rows[i].at, 0) && is_unwritten());
        reset();
        CHECK(memplan_replay_tree(nodes, 5, in_turn, 5, &peak, &fault) == rows[i].status);
        CHECK(is_fault(fault, rows[i].kind, rows[i].at, 0) && is_unwritten());
    }
}

static void refused_counts(void)
{
    reset();
    CHECK(memplan_plan_tree(five, 5, order, 4, &peak, &fault) == MEMPLAN_USAGE);
    CHECK(is_fault(fault, MEMPLAN_KIND_ROOM, 0, 5) && is_unwritten());
    reset();
    CHECK(memplan_plan_tree(five, 0, order, 0, &peak, &fault) == MEMPLAN_FORMAT);
    CHECK(is_fault(fault, MEMPLAN_KIND_NO_NODE, 0, 0) && is_unwritten());
    const size_t many = 1000001;
    memplan_node *nodes = chain(many);
    reset();
    CHECK(memplan_replay_tree(nodes, many, in_turn, 5, &peak, &fault) == MEMPLAN_LIMIT);
    CHECK(is_fault(fault, MEMPLAN_KIND_MANY_TASKS, 0, 0) && is_unwritten());
    /* 2^20 nodes would be too many; 600,000 of 2^40 + 2^40 are past 2^60 */
    const size_t great = 600000;
    for (size_t i = 0; i < great; i++)
        nodes[i] = (memplan_node){0, 1ull << 40, 1ull << 40, 0, 1};
    reset();
    CHECK(memplan_replay_tree(nodes, great, in_turn, 5, &peak, &fault) == MEMPLAN_LIMIT);
    CHECK(is_fault(fault, MEMPLAN_KIND_TOTAL, 0, 0) && is_unwritten());
    free(nodes);
}

static void refused_orders(void)
{
    static const struct {
        uint32_t order[5];
        size_t places;
        uint32_t kind;
        uint64_t at;
    } rows[] = {
        {{1, 2, 6, 4, 5}, 5, MEMPLAN_KIND_UNKNOWN, 3},
        {{1, 2, 3, 2, 5}, 5, MEMPLAN_KIND_REPEATED, 4},
        {{1, 4, 3, 2, 5}, 5, MEMPLAN_KIND_TOO_EARLY, 2},
        {{1, 2, 3, 4, 0}, 4, MEMPLAN_KIND_MISSING, 5},
    };
    for (size_t i = 0; i < sizeof rows / sizeof *rows; i++) {
        reset();
        CHECK(memplan_replay_tree(five, 5, rows[i].order, rows[i].places, &peak, &fault) == MEMPLAN_NO);
        CHECK(is_fault(fault, rows[i].kind, rows[i].at, 0) && is_unwritten());
    }
}

/* The block of node 2, of 5, is there while 3 and 4 run: with 4 of it on disk the order that needs 15 runs in 11. */
static void spills(void)
{
    uint64_t amounts[5] = {70, 71, 72, 73, 74}, volume = 76;
    fault = untouched;
    CHECK(memplan_spill_tree(five, 5, in_turn, 5, 11, amounts, 5, &volume, &fault) == MEMPLAN_DONE);
    CHECK(volume == 4 && amounts[1] == 4 && amounts[0] + amounts[2] + amounts[3] + amounts[4] == 0 && has_no_fault());
    volume = 76;
    CHECK(memplan_spill_tree(five, 5, in_turn, 5, 9, amounts, 5, &volume, &fault) == MEMPLAN_WORKING_SET);
    CHECK(is_fault(fault, MEMPLAN_KIND_WORKING_SET, 1, 10) && volume == 76 && amounts[1] == 4);
    CHECK(memplan_spill_tree(five, 5, in_turn, 5, 11, amounts, 4, &volume, &fault) == MEMPLAN_USAGE);
    CHECK(is_fault(fault, MEMPLAN_KIND_ROOM, 0, 5) && volume == 76);
}

/* The library is that of the header. */
static void versions(void)
{
    CHECK(strcmp(memplan_version(), MEMPLAN_VERSION) == 0);
}

int main(void)
{
    versions();
    orders();
    refused_nodes();
    refused_counts();
    refused_orders();
    spills();
    return 0;
}
