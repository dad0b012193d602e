/* Plans with claims: what is written passes the check, and what is changed does not. */
#include "check.h"

int main(void)
{
    uint32_t order[5] = {0};
    uint64_t peak = 76, count = 75;
    memplan_claim claims[16];
    memplan_fault fault = untouched;
    memset(claims, 0x5a, sizeof claims);
    const memplan_claim blank = claims[0];

    /* no room for the 4 claims that there are: how many there always is room enough for, 3 for a node and 1, and nothing else */
    CHECK(memplan_certify_tree(five, 5, order, 5, &peak, claims, 3, &count, &fault) == MEMPLAN_USAGE);
    CHECK(is_fault(fault, MEMPLAN_KIND_CLAIM_ROOM, 0, 16));
    CHECK(peak == 76 && count == 75 && order[0] == 0 && memcmp(&claims[0], &blank, sizeof blank) == 0);

    /* room for as many as were told */
    fault = untouched;
    CHECK(memplan_certify_tree(five, 5, order, 5, &peak, claims, 16, &count, &fault) == MEMPLAN_DONE);
    CHECK(peak == 11 && count == 4 && is_fault(fault, 77, 78, 79));
    for (size_t i = count; i < 16; i++)
        CHECK(memcmp(&claims[i], &blank, sizeof blank) == 0);
    CHECK(memplan_check_tree(five, 5, order, 5, peak, claims, count, &fault) == MEMPLAN_DONE);
    CHECK(is_fault(fault, 77, 78, 79));

    /* another peak, an order with another one, no claim on the whole, a rest that is too great, a claim out of place */
    CHECK(memplan_check_tree(five, 5, order, 5, 10, claims, count, &fault) == MEMPLAN_NO);
    CHECK(is_fault(fault, MEMPLAN_KIND_OTHER_PEAK, 0, 11));
    CHECK(memplan_check_tree(five, 5, in_turn, 5, peak, claims, count, &fault) == MEMPLAN_NO);
    CHECK(is_fault(fault, MEMPLAN_KIND_OTHER_PEAK, 0, 15));
    CHECK(memplan_check_tree(five, 5, order, 5, peak, claims, count - 1, &fault) == MEMPLAN_NO);
    CHECK(is_fault(fault, MEMPLAN_KIND_NO_ROOT_CLAIM, 13, 0));
    claims[0].rest += 1;
    CHECK(memplan_check_tree(five, 5, order, 5, peak, claims, count, &fault) == MEMPLAN_NO);
    CHECK(fault.kind == MEMPLAN_KIND_WRONG_CLAIM && fault.at == claims[0].position);
    claims[0].rest -= 1;
    claims[2].position = claims[1].position;
    CHECK(memplan_check_tree(five, 5, order, 5, peak, claims, count, &fault) == MEMPLAN_FORMAT);
    CHECK(is_fault(fault, MEMPLAN_KIND_CLAIM, 3, 0));
    CHECK(memplan_check_tree(five, 5, order, 5, (1ull << 60) + 1, claims, count, &fault) == MEMPLAN_LIMIT);
    CHECK(is_fault(fault, MEMPLAN_KIND_GREAT_PEAK, 0, 0));
    return 0;
}
