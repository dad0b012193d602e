// Task graphs of version 2, in which an item may have several readers: the peak of an order, and a run on several workers within a bound.
#pragma once

#include <utility>

#include "text.hpp"
#include "tree.hpp"

struct Task {
    std::uint64_t extra, share, time;
};

// Its readers are those of the graph's list from first to last; from is 0 where no task makes it.
struct Item {
    std::uint64_t size;
    std::uint32_t from, first, last;
};

// Tasks have numbers from 1.
struct Graph {
    std::vector<Task> tasks;
    std::vector<Item> items;
    Order readers;
};

// A task is activated ('a'), started ('s') or finished ('f').
struct Event {
    std::uint64_t time;
    char kind;
    std::uint32_t task;
};

struct Run {
    std::uint64_t makespan, used, booked;
    std::vector<Event> events;
};

Graph read_graph(const char *name);
Order read_order(const char *name);
std::uint64_t peak_of(const Graph &graph, const Order &order);
Run run_of(const Graph &graph, const Order &order, std::uint64_t bound, std::size_t workers);
