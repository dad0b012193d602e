/* What kinds say: each number that is a kind has words of its own, and any other the one word. */
#include "check.h"

static int is_kind(uint32_t number)
{
    return strcmp(memplan_message(number), "refused") != 0;
}

int main(void)
{
    CHECK(strcmp(memplan_message(MEMPLAN_KIND_PARENT), "a parent is no node") == 0);
    CHECK(strcmp(memplan_message(MEMPLAN_KIND_BOUND_BELOW), "the bound is below the peak of the order") == 0);
    CHECK(is_kind(MEMPLAN_KIND_NO_MEMORY) && is_kind(MEMPLAN_KIND_NO_SUCH_FRONT));
    CHECK(!is_kind(0) && !is_kind(5) && !is_kind(9) && !is_kind(1000) && !is_kind(UINT32_MAX));
    for (uint32_t one = 1; one < 100; one++)
        for (uint32_t other = one + 1; other < 100; other++)
            CHECK(!is_kind(one) || strcmp(memplan_message(one), memplan_message(other)) != 0);
    memplan_node nodes[2] = {{2, 1, 0, 0, 1}, {3, 1, 0, 0, 1}};
    uint32_t order[2];
    uint64_t peak;
    memplan_fault fault;
    CHECK(memplan_plan_tree(nodes, 2, order, 2, &peak, &fault) == MEMPLAN_FORMAT && fault.at == 2);
    CHECK(strcmp(memplan_message(fault.kind), "a parent is no node") == 0);
    return 0;
}
