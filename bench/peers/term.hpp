// The term of a tree or a workflow, which the model of memplan's planner plans.
#pragma once

#include "workflow.hpp"

// Tasks are numbered in the order of their positions. Those of a tree have names beside, the
// numbers of its nodes.
struct Term {
    Workflow positions;
    std::size_t tasks;
    Order names;
};

Term term_of(Workflow workflow);

// Nodes in postorder, children in rising number: of each the parts below it side by side, its
// block, and its task. The roots stand side by side.
Term term_of(const Tree &tree);
