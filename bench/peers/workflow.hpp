// A series-parallel workflow, and an order of least peak without a certificate.
#pragma once

#include "tree.hpp"

// A data item of a size; a task with what it needs beside, of which it takes over a share; or that
// so many parts stand side by side. Positions are in postfix order.
struct Position {
    enum Kind : std::uint8_t { Data, Task, Par } kind;
    std::uint64_t size, share;
};

using Workflow = std::vector<Position>;

Workflow read_workflow(const char *name);

// Each part is cut at a state of least memory (Kayaaslan, Lambert, Marchal and Ucar 2018): from its
// start and from its end a list of segments leads down to it, as in Liu's order of a tree.
Traversal least_peak(const Workflow &workflow);
