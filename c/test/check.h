/* What the test programs share. */
#ifndef CHECK_H
#define CHECK_H

#include "memplan.h"
#include <stdio.h>
#include <stdlib.h>
#include <string.h>

/* Ends the program where a fact does not hold. */
#define CHECK(fact)                                                             \
    do {                                                                        \
        if (!(fact)) {                                                          \
            fprintf(stderr, "%s:%d: %s does not hold\n", __FILE__, __LINE__, #fact); \
            exit(1);                                                            \
        }                                                                       \
    } while (0)

/* Two chains of two nodes below a root; the lower ones need 9 beside the 1 that they leave. The least peak is 11, that of the best
 * postorder 15. */
static const memplan_node five[5] = {
    {2, 1, 9, 0, 1}, {5, 5, 0, 0, 1}, {4, 1, 9, 0, 1}, {5, 5, 0, 0, 1}, {0, 0, 0, 0, 1},
};

static const uint32_t in_turn[5] = {1, 2, 3, 4, 5};
static const uint32_t across[5] = {1, 3, 2, 4, 5};

static const memplan_fault untouched = {77, 78, 79};

static inline int is_fault(memplan_fault fault, uint32_t kind, uint64_t at, uint64_t value)
{
    return fault.kind == kind && fault.at == at && fault.value == value;
}

/* A chain of so many nodes, each the parent of the one before. */
static inline memplan_node *chain(size_t count)
{
    memplan_node *nodes = malloc(count * sizeof *nodes);
    if (!nodes)
        exit(2);
    for (size_t i = 0; i < count; i++)
        nodes[i] = (memplan_node){i + 1 == count ? 0 : (uint32_t)i + 2, 1, 1, 0, 1};
    return nodes;
}

#endif
