/* Orders of elimination along fronts, worked by hand. Of the arrow, column 1 is joined to 2, 3 and 4. Of the five columns, 1 and 3, 3 and 5, 2
 * and 4, and 4 and 5 are joined: two chains that meet in column 5. From the first column to the last they are five fronts of one column, and
 * the postorder of the elimination tree takes the first chain, then the second one. */
#include "check.h"

static const memplan_front_options triangles = {MEMPLAN_TRIANGLE, 0, 0, 0};
static const uint32_t arrow_starts[5] = {1, 4, 4, 4, 4}, arrow_rows[3] = {2, 3, 4}, ends_first[4] = {2, 3, 1, 4};
static const uint32_t five_starts[6] = {0, 1, 2, 3, 4, 4}, five_rows[4] = {2, 3, 4, 4}, from_0[5] = {0, 1, 2, 3, 4};

static memplan_node nodes[5];
static uint64_t count;
static uint32_t front_of[5], columns[5], along[5];
static memplan_fault fault;

static void reset(void)
{
    for (int i = 0; i < 5; i++) {
        nodes[i] = (memplan_node){71, 72, 73, 74, 75};
        front_of[i] = 70;
        columns[i] = 69;
        along[i] = 68;
    }
    count = 76;
    fault = untouched;
}

static int are(const uint32_t *found, uint32_t a, uint32_t b, uint32_t c, uint32_t d)
{
    return found[0] == a && found[1] == b && found[2] == c && found[3] == d;
}

static uint32_t of_arrow(const uint32_t *order, size_t places, memplan_front_options options, size_t room, size_t of, size_t places_of)
{
    reset();
    return memplan_analyse(1, arrow_starts, 5, arrow_rows, 3, order, places, &options, nodes, room, &count, front_of, of, columns, places_of,
                           &fault);
}

/* Two fronts of one column, and one of two; the second front first. */
static void the_arrow(void)
{
    static const uint32_t second_first[3] = {2, 1, 3};
    for (size_t places = 0; places <= 4; places += 4) {
        CHECK(of_arrow(ends_first, places, triangles, 4, 4, 4) == MEMPLAN_DONE && is_fault(fault, 77, 78, 79));
        CHECK(count == 3 && nodes[0].parent == 3 && nodes[1].parent == 3 && nodes[2].parent == 0 && nodes[3].parent == 71);
        CHECK(are(front_of, 3, 1, 2, 3) && are(columns, 2, 3, 1, 4) && columns[4] == 69);
        CHECK(memplan_columns(1, columns, 4, front_of, 4, second_first, 3, along, 4, &fault) == MEMPLAN_DONE);
        CHECK(are(along, 3, 2, 1, 4) && along[4] == 68 && is_fault(fault, 77, 78, 79));
    }
}

/* The columns of a front keep their order, whatever their numbers are. */
static void two_in_one_front(void)
{
    static const uint32_t starts[3] = {1, 2, 2}, rows[1] = {2}, order[2] = {2, 1}, only[1] = {1};
    reset();
    CHECK(memplan_analyse(1, starts, 3, rows, 1, order, 2, &triangles, nodes, 2, &count, front_of, 2, columns, 2, &fault) == MEMPLAN_DONE);
    CHECK(count == 1 && front_of[0] == 1 && front_of[1] == 1 && columns[0] == 2 && columns[1] == 1);
    CHECK(memplan_columns(1, columns, 2, front_of, 2, only, 1, along, 2, &fault) == MEMPLAN_DONE && along[0] == 2 && along[1] == 1);
}

/* One zero is allowed: the arrow's column 2 goes into the last front. */
static void merged(void)
{
    static const uint32_t in_turn_of_fronts[2] = {1, 2};
    const memplan_front_options options = {MEMPLAN_TRIANGLE, 0, 1, 1};
    CHECK(of_arrow(ends_first, 4, options, 4, 4, 4) == MEMPLAN_DONE);
    CHECK(count == 2 && are(front_of, 2, 2, 1, 2) && are(columns, 2, 3, 1, 4));
    CHECK(memplan_columns(1, columns, 4, front_of, 4, in_turn_of_fronts, 2, along, 4, &fault) == MEMPLAN_DONE && are(along, 3, 2, 1, 4));
}

/* The second chain first; and the analysis of that order, which is its own postorder, has the fronts in just that order. */
static void the_five(void)
{
    static const uint32_t other_chain_first[5] = {3, 4, 1, 2, 5};
    reset();
    CHECK(memplan_analyse(0, five_starts, 6, five_rows, 4, from_0, 5, &triangles, nodes, 5, &count, front_of, 5, columns, 5, &fault) ==
          MEMPLAN_DONE);
    CHECK(count == 5 && are(front_of, 1, 3, 2, 4) && front_of[4] == 5 && are(columns, 0, 2, 1, 3) && columns[4] == 4);
    CHECK(memplan_columns(0, columns, 5, front_of, 5, other_chain_first, 5, along, 5, &fault) == MEMPLAN_DONE);
    CHECK(are(along, 1, 3, 0, 2) && along[4] == 4);
    CHECK(memplan_analyse(0, five_starts, 6, five_rows, 4, along, 5, &triangles, nodes, 5, &count, front_of, 5, columns, 5, &fault) ==
          MEMPLAN_DONE);
    CHECK(count == 5 && are(front_of, 3, 1, 4, 2) && front_of[4] == 5 && are(columns, 1, 3, 0, 2) && columns[4] == 4);
}

static void is_refused(uint32_t found, uint32_t status, uint32_t kind, uint64_t at, uint64_t value)
{
    CHECK(found == status && is_fault(fault, kind, at, value) && count == 76);
    for (int i = 0; i < 5; i++)
        CHECK(nodes[i].parent == 71 && nodes[i].time == 75 && front_of[i] == 70 && columns[i] == 69 && along[i] == 68);
}

static void refused_analyses(void)
{
    static const uint32_t repeated[4] = {2, 3, 1, 3};
    const memplan_front_options hexagons = {6, 0, 0, 0};
    is_refused(of_arrow(ends_first, 4, triangles, 4, 4, 3), MEMPLAN_USAGE, MEMPLAN_KIND_ROOM, 0, 4);
    is_refused(of_arrow(ends_first, 4, triangles, 4, 4, 5), MEMPLAN_USAGE, MEMPLAN_KIND_ROOM, 0, 4);
    is_refused(of_arrow(ends_first, 4, triangles, 4, 3, 4), MEMPLAN_USAGE, MEMPLAN_KIND_ROOM, 0, 4);
    is_refused(of_arrow(ends_first, 4, triangles, 2, 4, 4), MEMPLAN_USAGE, MEMPLAN_KIND_NODE_ROOM, 0, 3);
    is_refused(of_arrow(ends_first, 4, hexagons, 4, 4, 4), MEMPLAN_USAGE, MEMPLAN_KIND_SHAPE, 0, 0);
    is_refused(of_arrow(ends_first, 3, triangles, 4, 4, 4), MEMPLAN_USAGE, MEMPLAN_KIND_PLACES, 0, 0);
    is_refused(of_arrow(repeated, 4, triangles, 4, 4, 4), MEMPLAN_FORMAT, MEMPLAN_KIND_COLUMN_REPEATED, 4, 0);
}

static void refused_columns(void)
{
    static const struct {
        uint32_t columns[4], fronts_of[4], fronts[3];
        size_t count, of_columns, front_count, places;
        uint32_t status, kind;
        uint64_t at, value;
    } table[] = {
        {{2, 3, 1, 4}, {3, 1, 2, 3}, {1, 2, 3}, 4, 4, 3, 3, MEMPLAN_USAGE, MEMPLAN_KIND_ROOM, 0, 4},
        {{2, 3, 1, 4}, {3, 1, 2, 3}, {1, 2, 3}, 4, 3, 3, 4, MEMPLAN_USAGE, MEMPLAN_KIND_COLUMN_FRONTS, 0, 0},
        {{2, 3, 1, 3}, {3, 1, 2, 3}, {1, 2, 3}, 4, 4, 3, 4, MEMPLAN_FORMAT, MEMPLAN_KIND_COLUMN_REPEATED, 4, 0},
        {{2, 5, 1, 4}, {3, 1, 2, 3}, {1, 2, 3}, 4, 4, 3, 4, MEMPLAN_FORMAT, MEMPLAN_KIND_NO_SUCH_COLUMN, 2, 0},
        {{0, 3, 1, 2}, {3, 1, 2, 3}, {1, 2, 3}, 4, 4, 3, 4, MEMPLAN_FORMAT, MEMPLAN_KIND_NO_SUCH_COLUMN, 1, 0},
        {{2, 3, 1, 4}, {3, 1, 2, 3}, {1, 2, 4}, 4, 4, 3, 4, MEMPLAN_NO, MEMPLAN_KIND_UNKNOWN, 3, 0},
        {{2, 3, 1, 4}, {3, 1, 2, 3}, {2, 0, 1}, 4, 4, 3, 4, MEMPLAN_NO, MEMPLAN_KIND_UNKNOWN, 2, 0},
        {{2, 3, 1, 4}, {3, 1, 2, 3}, {2, 1, 2}, 4, 4, 3, 4, MEMPLAN_NO, MEMPLAN_KIND_REPEATED, 3, 0},
        {{2, 3, 1, 4}, {3, 1, 4, 3}, {2, 1, 3}, 4, 4, 3, 4, MEMPLAN_FORMAT, MEMPLAN_KIND_NO_SUCH_FRONT, 3, 0},
        {{2, 3, 1, 4}, {3, 0, 2, 3}, {2, 1, 3}, 4, 4, 3, 4, MEMPLAN_FORMAT, MEMPLAN_KIND_NO_SUCH_FRONT, 2, 0},
        {{2, 3, 1, 4}, {3, 1, 2, 3}, {2, 1}, 4, 4, 2, 4, MEMPLAN_FORMAT, MEMPLAN_KIND_NO_SUCH_FRONT, 1, 0},
    };
    for (size_t i = 0; i < sizeof table / sizeof *table; i++) {
        reset();
        uint32_t found = memplan_columns(1, table[i].columns, table[i].count, table[i].fronts_of, table[i].of_columns, table[i].fronts,
                                         table[i].front_count, along, table[i].places, &fault);
        is_refused(found, table[i].status, table[i].kind, table[i].at, table[i].value);
    }
}

static void of_minimum_degree(void)
{
    static const uint32_t wrong_rows[3] = {2, 3, 5};
    static uint32_t starts[50002], many[50001];
    reset();
    CHECK(memplan_minimum_degree(1, arrow_starts, 5, arrow_rows, 3, columns, 4, &fault) == MEMPLAN_DONE);
    CHECK(are(columns, 2, 3, 1, 4) && columns[4] == 69 && is_fault(fault, 77, 78, 79));
    reset();
    is_refused(memplan_minimum_degree(1, arrow_starts, 5, arrow_rows, 3, columns, 3, &fault), MEMPLAN_USAGE, MEMPLAN_KIND_ROOM, 0, 4);
    is_refused(memplan_minimum_degree(2, arrow_starts, 5, arrow_rows, 3, columns, 4, &fault), MEMPLAN_USAGE, MEMPLAN_KIND_BASE, 0, 0);
    is_refused(memplan_minimum_degree(1, arrow_starts, 5, wrong_rows, 3, columns, 4, &fault), MEMPLAN_FORMAT, MEMPLAN_KIND_ROW, 3, 0);
    is_refused(memplan_minimum_degree(0, starts, 50002, starts, 0, many, 50001, &fault), MEMPLAN_LIMIT, MEMPLAN_KIND_DEGREE, 0, 0);
    CHECK(many[0] == 0 && many[50000] == 0);
    reset();
    CHECK(memplan_minimum_degree(0, starts, 50001, starts, 0, many, 50000, &fault) == MEMPLAN_DONE && many[0] == 0 && many[49999] == 49999);
}

/* A million columns, each its own front, the last one first; no more, and none. */
static void limits(void)
{
    const size_t most = 1000000;
    uint32_t *up = malloc((most + 1) * sizeof *up), *down = malloc((most + 1) * sizeof *down), *new_columns = calloc(most + 1, sizeof *up);
    CHECK(up && down && new_columns);
    for (size_t i = 0; i <= most; i++) {
        up[i] = (uint32_t)i + 1;
        down[i] = (uint32_t)(most - i);
    }
    reset();
    CHECK(memplan_columns(1, up, most, up, most, down, most, new_columns, most, &fault) == MEMPLAN_DONE && is_fault(fault, 77, 78, 79));
    CHECK(new_columns[0] == most && new_columns[most - 1] == 1 && new_columns[most] == 0);
    is_refused(memplan_columns(1, up, most + 1, up, most + 1, up, most, new_columns, most + 1, &fault), MEMPLAN_LIMIT,
               MEMPLAN_KIND_MANY_COLUMNS, 0, 0);
    reset();
    is_refused(memplan_columns(1, up, 5, up, 5, up, most + 1, along, 5, &fault), MEMPLAN_LIMIT, MEMPLAN_KIND_LONG_ORDER, 0, 0);
    reset();
    CHECK(memplan_columns(0, up, 0, up, 0, up, 0, along, 0, &fault) == MEMPLAN_DONE && along[0] == 68);
    CHECK(new_columns[0] == most && new_columns[most] == 0);
    free(up);
    free(down);
    free(new_columns);
}

int main(void)
{
    the_arrow();
    two_in_one_front();
    merged();
    the_five();
    refused_analyses();
    refused_columns();
    of_minimum_degree();
    limits();
    return 0;
}
