// What memplan does, without any proof: reading, best postorder, least peak, and the peak and the run of a graph.
//
// usage: peer read tree|workflow|matrix|plan FILE
//        peer post TREE_FILE
//        peer plan tree|workflow FILE
//        peer replay GRAPH_FILE ORDER_FILE
//        peer simulate GRAPH_FILE ORDER_FILE BOUND WORKERS

#include <cstring>

#include "graph.hpp"
#include "pattern.hpp"
#include "workflow.hpp"

namespace {

struct Claim {
    std::uint64_t position;
    bool is_forwards;
    std::int64_t bound;
    std::uint64_t rest;
};

struct Plan {
    Order order;
    std::uint64_t peak;
    std::vector<Claim> claims;
};

Plan read_plan(const char *name) {
    Text text(name);
    text.expect("plan");
    const bool has_priority = text.number() == 2;
    text.expect("order");
    Plan plan{Order(text.number()), 0, {}};
    for (std::uint32_t &task : plan.order) task = static_cast<std::uint32_t>(text.number());
    if (has_priority) {
        text.expect("priority");
        for (std::uint64_t left = text.number(); left > 0; left--) text.number();
    }
    text.expect("peak");
    plan.peak = text.number();
    text.expect("claims");
    plan.claims.resize(text.number());
    for (Claim &claim : plan.claims) {
        claim.position = text.number();
        claim.is_forwards = text.token() == "F";
        const std::string_view bound = text.token();
        claim.bound = std::strtoll(bound.data(), nullptr, 10);
        claim.rest = text.number();
    }
    text.expect("end");
    return plan;
}

void read(const char *kind, const char *name) {
    std::size_t count = 0;
    if (!std::strcmp(kind, "tree")) count = read_tree(name).size() - 1;
    else if (!std::strcmp(kind, "workflow")) count = read_workflow(name).size();
    else if (!std::strcmp(kind, "matrix")) count = read_pattern(name).rows.size();
    else if (!std::strcmp(kind, "plan")) count = read_plan(name).claims.size();
    else fail("another kind of file is wanted");
    std::printf("read %zu\n", count);
}

Traversal plan(const char *kind, const char *name) {
    if (!std::strcmp(kind, "tree")) return least_peak(read_tree(name));
    if (!std::strcmp(kind, "workflow")) return least_peak(read_workflow(name));
    fail("another kind of file is wanted");
}

void print_post(const Traversal &found) {
    Page page;
    page.line("peak ", found.peak);
    page.line("order ", found.order.size());
    for (const std::uint32_t v : found.order) page.line("", v);
    page.word("end\n");
    page.write();
}

void print_plan(const Traversal &found) {
    Page page;
    page.word("plan 1\n");
    page.line("order ", found.order.size());
    for (const std::uint32_t v : found.order) page.line("", v);
    page.line("peak ", found.peak);
    page.word("claims 0\nend\n");
    page.write();
}

void print_peak(std::uint64_t peak) {
    Page page;
    page.line("peak ", peak);
    page.write();
}

void print_run(const Run &run) {
    Page page;
    page.line("makespan ", run.makespan);
    page.line("used ", run.used);
    page.line("booked ", run.booked);
    page.line("events ", run.events.size());
    for (const Event &event : run.events) {
        page.number(event.time);
        page.line(event.kind == 'a' ? " activate " : event.kind == 's' ? " start " : " finish ", event.task);
    }
    page.word("end\n");
    page.write();
}

void simulate(char **words) {
    const std::uint64_t bound = std::strtoull(words[2], nullptr, 10);
    print_run(run_of(read_graph(words[0]), read_order(words[1]), bound, std::strtoull(words[3], nullptr, 10)));
}

}

int main(int count, char **words) {
    const auto is = [&](const char *word) { return count > 1 && !std::strcmp(words[1], word); };
    if (is("read") && count == 4) read(words[2], words[3]);
    else if (is("post") && count == 3) print_post(best_postorder(read_tree(words[2])));
    else if (is("plan") && count == 4) print_plan(plan(words[2], words[3]));
    else if (is("replay") && count == 4) print_peak(peak_of(read_graph(words[2]), read_order(words[3])));
    else if (is("simulate") && count == 6) simulate(words + 2);
    else fail("usage: peer read KIND FILE | post TREE | plan KIND FILE | replay GRAPH ORDER | simulate GRAPH ORDER BOUND WORKERS");
}
