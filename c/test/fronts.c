/* The fronts of the arrow, worked by hand: column 1 is joined to 2, 3 and 4. Eliminated third, it leaves two fronts of one column, and one
 * of two; that is the order of minimum degree too. */
#include "check.h"

static const uint32_t starts[5] = {1, 4, 4, 4, 4}, rows[3] = {2, 3, 4}, ends_first[4] = {2, 3, 1, 4};
static const memplan_front_options triangles = {MEMPLAN_TRIANGLE, 0, 0, 0};

static memplan_node nodes[4];
static uint64_t count;
static uint32_t front_of[4];
static memplan_fault fault;

static void reset(void)
{
    for (int i = 0; i < 4; i++) {
        nodes[i] = (memplan_node){71, 72, 73, 74, 75};
        front_of[i] = 70;
    }
    count = 76;
    fault = untouched;
}

static int is_node(int i, uint32_t parent, uint64_t out, uint64_t extra, uint64_t share, uint64_t time)
{
    return nodes[i].parent == parent && nodes[i].out == out && nodes[i].extra == extra && nodes[i].share == share && nodes[i].time == time;
}

static int is_unwritten(int from)
{
    for (int i = from; i < 4; i++)
        if (!is_node(i, 71, 72, 73, 74, 75))
            return 0;
    return 1;
}

static uint32_t of_arrow(const uint32_t *order, size_t places, memplan_front_options options, size_t room)
{
    reset();
    return memplan_fronts(1, starts, 5, rows, 3, order, places, &options, nodes, room, &count, front_of, 4, &fault);
}

static void three_fronts(void)
{
    for (size_t places = 0; places <= 4; places += 4) {
        CHECK(of_arrow(ends_first, places, triangles, 4) == MEMPLAN_DONE);
        CHECK(count == 3 && is_node(0, 3, 1, 2, 0, 1) && is_node(1, 3, 1, 2, 0, 1) && is_node(2, 0, 0, 3, 0, 2) && is_unwritten(3));
        CHECK(front_of[0] == 3 && front_of[1] == 1 && front_of[2] == 2 && front_of[3] == 3 && is_fault(fault, 77, 78, 79));
    }
    CHECK(of_arrow(ends_first, 4, triangles, 3) == MEMPLAN_DONE && count == 3);
    uint32_t order[3];
    uint64_t peak;
    CHECK(memplan_plan_tree(nodes, count, order, count, &peak, &fault) == MEMPLAN_DONE && peak == 5);
}

/* The same from 0, with both triangles and the diagonal, in place and in squares. */
static void squares_in_place(void)
{
    static const uint32_t from_0[5] = {0, 4, 6, 7, 9}, all[9] = {0, 1, 2, 3, 0, 1, 0, 3, 0}, order[4] = {1, 2, 0, 3};
    const memplan_front_options options = {MEMPLAN_SQUARE, 1, 0, 0};
    reset();
    CHECK(memplan_fronts(0, from_0, 5, all, 9, order, 4, &options, nodes, 4, &count, front_of, 4, &fault) == MEMPLAN_DONE);
    CHECK(count == 3 && is_node(0, 3, 1, 3, 0, 1) && is_node(1, 3, 1, 3, 0, 1) && is_node(2, 0, 0, 4, 1, 2));
    CHECK(front_of[0] == 3 && front_of[1] == 1 && front_of[2] == 2 && front_of[3] == 3);
}

/* One zero is allowed: column 2 goes into the last front. */
static void merged(void)
{
    const memplan_front_options options = {MEMPLAN_TRIANGLE, 0, 1, 1};
    CHECK(of_arrow(ends_first, 4, options, 4) == MEMPLAN_DONE);
    CHECK(count == 2 && is_node(0, 2, 1, 2, 0, 1) && is_node(1, 0, 0, 6, 0, 3) && is_unwritten(2));
    CHECK(front_of[0] == 2 && front_of[1] == 2 && front_of[2] == 1 && front_of[3] == 2);
}

static void is_refused(uint32_t found, uint32_t status, uint32_t kind, uint64_t at, uint64_t value)
{
    CHECK(found == status && is_fault(fault, kind, at, value));
    CHECK(is_unwritten(0) && count == 76 && front_of[0] == 70 && front_of[3] == 70);
}

static void refused_columns(void)
{
    static const struct {
        uint32_t base, starts[5], rows[3];
        size_t start_count, entries;
        uint32_t status, kind;
        uint64_t at, value;
    } table[] = {
        {2, {2, 3, 3, 3, 3}, {3}, 5, 1, MEMPLAN_USAGE, MEMPLAN_KIND_BASE, 0, 0},
        {1, {0, 3, 3, 3, 3}, {1, 2, 3}, 5, 3, MEMPLAN_FORMAT, MEMPLAN_KIND_START, 1, 0},
        {0, {0, 3, 2, 3, 3}, {1, 2, 3}, 5, 3, MEMPLAN_FORMAT, MEMPLAN_KIND_START, 3, 0},
        {0, {0, 3, 3, 3, 4}, {1, 2, 3}, 5, 3, MEMPLAN_USAGE, MEMPLAN_KIND_ENTRIES, 0, 4},
        {0, {0, 3, 3, 3, 3}, {1, 4, 5}, 5, 3, MEMPLAN_FORMAT, MEMPLAN_KIND_ROW, 2, 0},
        {1, {1, 4, 4, 4, 4}, {1, 2, 0}, 5, 3, MEMPLAN_FORMAT, MEMPLAN_KIND_ROW, 3, 0},
        {1, {1, 4, 4, 4, 4}, {1, 2, 3}, 4, 3, MEMPLAN_USAGE, MEMPLAN_KIND_ROOM, 0, 3},
    };
    for (size_t i = 0; i < sizeof table / sizeof *table; i++) {
        reset();
        uint32_t found = memplan_fronts(table[i].base, table[i].starts, table[i].start_count, table[i].rows, table[i].entries, ends_first,
                                        0, &triangles, nodes, 4, &count, front_of, 4, &fault);
        is_refused(found, table[i].status, table[i].kind, table[i].at, table[i].value);
    }
    reset();
    is_refused(memplan_fronts(0, starts, 1, rows, 0, ends_first, 0, &triangles, nodes, 4, &count, front_of, 0, &fault), MEMPLAN_FORMAT,
               MEMPLAN_KIND_NO_COLUMN, 0, 0);
}

static void refused_orders(void)
{
    static const struct {
        uint32_t order[5];
        size_t places;
        uint32_t status, kind;
        uint64_t at;
    } table[] = {
        {{2, 3, 1, 4}, 3, MEMPLAN_USAGE, MEMPLAN_KIND_PLACES, 0},
        {{2, 3, 1, 4, 4}, 5, MEMPLAN_USAGE, MEMPLAN_KIND_PLACES, 0},
        {{2, 0, 1, 2}, 4, MEMPLAN_FORMAT, MEMPLAN_KIND_NO_SUCH_COLUMN, 2},
        {{2, 3, 1, 5}, 4, MEMPLAN_FORMAT, MEMPLAN_KIND_NO_SUCH_COLUMN, 4},
        {{2, 3, 1, 3}, 4, MEMPLAN_FORMAT, MEMPLAN_KIND_COLUMN_REPEATED, 4},
    };
    for (size_t i = 0; i < sizeof table / sizeof *table; i++)
        is_refused(of_arrow(table[i].order, table[i].places, triangles, 4), table[i].status, table[i].kind, table[i].at, 0);
    const memplan_front_options hexagons = {6, 0, 0, 0};
    is_refused(of_arrow(ends_first, 4, hexagons, 4), MEMPLAN_USAGE, MEMPLAN_KIND_SHAPE, 0, 0);
    is_refused(of_arrow(ends_first, 4, triangles, 2), MEMPLAN_USAGE, MEMPLAN_KIND_NODE_ROOM, 0, 3);
}

/* So many columns, none of which is joined to another. */
static uint32_t of_none(uint32_t columns, size_t places)
{
    uint32_t *zeros = calloc(columns + 1, sizeof *zeros), *order = malloc(columns * sizeof *order), *of = calloc(columns, sizeof *of);
    memplan_node *made = calloc(columns, sizeof *made);
    CHECK(zeros && order && of && made);
    for (uint32_t i = 0; i < columns; i++)
        order[i] = i;
    uint64_t found;
    uint32_t status = memplan_fronts(0, zeros, columns + 1, zeros, 0, order, places, &triangles, made, columns, &found, of, columns, &fault);
    if (status == MEMPLAN_DONE)
        CHECK(found == columns && of[columns - 1] == columns && made[columns - 1].extra == 1);
    free(zeros);
    free(order);
    free(of);
    free(made);
    return status;
}

static void limits(void)
{
    CHECK(of_none(50000, 0) == MEMPLAN_DONE);
    fault = untouched;
    CHECK(of_none(50001, 0) == MEMPLAN_LIMIT && is_fault(fault, MEMPLAN_KIND_DEGREE, 0, 0));
    CHECK(of_none(50001, 50001) == MEMPLAN_DONE);
    CHECK(of_none(1000001, 1000001) == MEMPLAN_LIMIT && is_fault(fault, MEMPLAN_KIND_MANY_COLUMNS, 0, 0));
    const size_t many = 10000001;
    uint32_t *long_rows = calloc(many, sizeof *long_rows);
    CHECK(long_rows);
    reset();
    uint32_t found = memplan_fronts(0, starts, 5, long_rows, many, ends_first, 0, &triangles, nodes, 4, &count, front_of, 4, &fault);
    is_refused(found, MEMPLAN_LIMIT, MEMPLAN_KIND_MANY_ENTRIES, 0, 0);
    free(long_rows);
}

int main(void)
{
    three_fronts();
    squares_in_place();
    merged();
    refused_columns();
    refused_orders();
    limits();
    return 0;
}
