#include "term.hpp"

#include <algorithm>
#include <utility>

namespace {

// The nodes in postorder, children in rising number.
Order postorder_of(const Tree &tree) {
    Order first(tree.size(), 0), next(tree.size(), 0), left, order(tree.size() - 1);
    for (std::size_t v = tree.size() - 1; v > 0; v--) {
        next[v] = std::exchange(first[tree[v].parent], static_cast<std::uint32_t>(v));
    }
    // the last node first: a node, then its children from the last to the first
    const auto put_children = [&](std::uint32_t v) {
        for (std::uint32_t child = first[v]; child != 0; child = next[child]) left.push_back(child);
    };
    put_children(0);
    for (std::size_t at = order.size(); at-- > 0;) {
        if (left.empty()) fail("the tree has a cycle");
        order[at] = left.back();
        left.pop_back();
        put_children(order[at]);
    }
    return order;
}

// How many positions gather so many children.
std::size_t gathering(std::uint32_t children) { return children == 1 ? 0 : 1; }

// What stands below a node, as one part: nothing, the only child's part, or several side by side.
void gather(Workflow &positions, std::uint32_t children) {
    if (children == 0) positions.push_back({Position::Data, 0, 0});
    if (children > 1) positions.push_back({Position::Par, children, 0});
}

}

Term term_of(Workflow workflow) {
    const auto is_task = [](const Position &position) { return position.kind == Position::Task; };
    const auto tasks = std::count_if(workflow.begin(), workflow.end(), is_task);
    return {std::move(workflow), static_cast<std::size_t>(tasks), {}};
}

Term term_of(const Tree &tree) {
    Order children(tree.size(), 0);
    for (std::size_t v = 1; v < tree.size(); v++) children[tree[v].parent]++;
    std::size_t count = 2 * (tree.size() - 1);
    for (const std::uint32_t it : children) count += gathering(it);
    Term term{{}, tree.size() - 1, postorder_of(tree)};
    term.positions.reserve(count);
    for (const std::uint32_t v : term.names) {
        gather(term.positions, children[v]);
        term.positions.push_back({Position::Data, tree[v].out, 0});
        term.positions.push_back({Position::Task, tree[v].extra, tree[v].share});
    }
    gather(term.positions, children[0]);
    return term;
}
