// A tree of tasks, and the two orders that a solver would make of it without a proof.
#pragma once

#include "text.hpp"

// A node's parent, or 0; the block that it leaves; what it needs beside while it runs; and what of
// that it takes over from its children's blocks. Nodes are numbered from 1.
struct Node {
    std::uint32_t parent;
    std::uint64_t out, extra, share;
};

using Tree = std::vector<Node>;
using Order = std::vector<std::uint32_t>;

struct Traversal {
    Order order;
    std::uint64_t peak;
};

Tree read_tree(const char *name);

// The nodes, each after its children.
Order children_first(const Tree &tree);

// The postorder of least peak (Liu 1986): children by falling difference of peak and block.
Traversal best_postorder(const Tree &tree);

// The order of least peak of all (Liu 1987), without a certificate.
Traversal least_peak(const Tree &tree);
