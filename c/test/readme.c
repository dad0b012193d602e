/* The lines of C of docs/SOLVERS.md and of c/README.md, which test/run cuts out of these pages. */
#include "check.h"

static uint32_t factorized;

static void factorize(uint32_t front)
{
    factorized += front;
}

/* The arrow: column 0 is joined to all others, and eliminated third. */
static void lines_of_solvers(void)
{
    enum { n = 4, entries = 3 };
    static const uint32_t starts[n + 1] = {0, 3, 3, 3, 3}, rows[entries] = {1, 2, 3}, perm[n] = {1, 2, 0, 3};
    uint32_t status, front_of[n], order[n];
    memplan_node nodes[n];
    uint64_t count, peak = 0;
    memplan_fault fault;
#include "solvers_lines.h"
    CHECK(status == MEMPLAN_DONE && count == 3 && factorized == 6);
    /* the second front to run has 3 entries beside the block of the first; the last one is built over one block of 1, beside the other */
    CHECK(peak == 4);
}

static void lines_of_c_readme(void)
{
#include "c_readme_lines.h"
    CHECK(status == MEMPLAN_DONE && peak == 11 && order[4] == 5 && needed == 22);
    CHECK(count == 5 && columns[1] == 3 && post_peak == 5 && post[1] == 2 && new_columns[0] == 1 && new_columns[1] == 3 && new_columns[4] == 5);
    CHECK(found == 22 && bound == 22 && better[0] == 1 && better[3] == 4);
}

int main(void)
{
    lines_of_solvers();
    lines_of_c_readme();
    return 0;
}
