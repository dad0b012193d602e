#include "graph.hpp"

#include <algorithm>
#include <functional>
#include <queue>

namespace {

constexpr std::size_t NO_PLACE = SIZE_MAX;

std::uint32_t number_of(Text &text) { return static_cast<std::uint32_t>(text.number()); }

// Rows of numbers in one table, those of row v from starts[v] to starts[v + 1].
struct Rows {
    template <class Each> Rows(std::size_t count, Each each) : starts(count + 1, 0) {
        each([&](std::size_t row, std::uint32_t) { starts[row + 1]++; });
        for (std::size_t row = 0; row < count; row++) starts[row + 1] += starts[row];
        list.resize(starts[count]);
        std::vector<std::size_t> next(starts.begin(), starts.end() - 1);
        each([&](std::size_t row, std::uint32_t number) { list[next[row]++] = number; });
    }

    const std::uint32_t *begin(std::size_t row) const { return list.data() + starts[row]; }
    const std::uint32_t *end(std::size_t row) const { return list.data() + starts[row + 1]; }

    std::vector<std::size_t> starts;
    Order list;
};

// The tasks by their places in the order, and what follows from it.
struct Places {
    Places(const Graph &graph, const Order &order) : of(graph.tasks.size(), NO_PLACE) {
        for (std::size_t place = 0; place < order.size(); place++) {
            if (order[place] == 0 || order[place] >= of.size()) fail("the order has no such task");
            if (of[order[place]] != NO_PLACE) fail("the order has a task twice");
            of[order[place]] = place;
        }
        if (order.size() + 1 != of.size()) fail("the order lacks a task");
        for (const Item &item : graph.items) {
            if (item.from == 0) continue;
            for (std::uint32_t at = item.first; at < item.last; at++) {
                if (of[graph.readers[at]] < of[item.from]) fail("a task stands before its supplier");
            }
        }
    }

    std::vector<std::size_t> of;
};

// What each task makes, by number.
std::vector<std::uint64_t> outputs_of(const Graph &graph) {
    std::vector<std::uint64_t> outputs(graph.tasks.size(), 0);
    for (const Item &item : graph.items) {
        if (item.from != 0) outputs[item.from] += item.size;
    }
    return outputs;
}

std::uint64_t inputs_of_none(const Graph &graph) {
    std::uint64_t memory = 0;
    for (const Item &item : graph.items) memory += item.from == 0 ? item.size : 0;
    return memory;
}

// The run of the tasks on so many workers, activated along the order, which is the priority too.
class Simulation {
public:
    Simulation(const Graph &graph, const Order &order, std::uint64_t bound, std::size_t workers)
        : graph(graph), order(order), bound(bound), workers(workers), place(Places(graph, order).of),
          outputs(outputs_of(graph)),
          read(graph.tasks.size(), [&](const auto &put) { each_use(put, true); }),
          made(graph.tasks.size(), [&](const auto &put) { each_use(put, false); }),
          left(graph.items.size()), waiting(graph.tasks.size(), 0), booked(inputs_of_none(graph)), used(booked) {
        for (std::size_t i = 0; i < graph.items.size(); i++) {
            left[i] = graph.items[i].last - graph.items[i].first;
        }
        for (const Item &item : graph.items) {
            for (std::uint32_t at = item.first; item.from != 0 && at < item.last; at++) {
                waiting[graph.readers[at]]++;
            }
        }
    }

    Run run() {
        note();
        while (true) {
            finish_due();
            activate();
            start();
            if (running.empty()) return found;
            time = running.top().first;
        }
    }

private:
    template <class Put> void each_use(const Put &put, bool is_read) {
        for (std::uint32_t i = 0; i < graph.items.size(); i++) {
            const Item &item = graph.items[i];
            if (!is_read && item.from != 0) put(item.from, i);
            for (std::uint32_t at = item.first; is_read && at < item.last; at++) {
                put(graph.readers[at], i);
            }
        }
    }

    std::uint64_t need(std::uint32_t task) const {
        return graph.tasks[task].extra + outputs[task] - graph.tasks[task].share;
    }

    void note() {
        found.used = std::max(found.used, used);
        found.booked = std::max(found.booked, booked);
    }

    void tell(char kind, std::uint32_t task) {
        found.events.push_back({time, kind, task});
        note();
    }

    void finish_due() {
        while (!running.empty() && running.top().first == time) {
            const std::uint32_t task = order[running.top().second];
            running.pop();
            std::uint64_t gone = need(task) - outputs[task];
            for (auto at = read.begin(task); at != read.end(task); at++) {
                if (--left[*at] == 0) gone += graph.items[*at].size;
            }
            booked -= gone;
            used -= gone;
            for (auto at = made.begin(task); at != made.end(task); at++) release(graph.items[*at]);
            tell('f', task);
        }
    }

    void release(const Item &item) {
        for (std::uint32_t at = item.first; at < item.last; at++) {
            const std::uint32_t reader = graph.readers[at];
            if (--waiting[reader] == 0 && place[reader] < activated) ready.push(place[reader]);
        }
    }

    void activate() {
        while (activated < order.size() && need(order[activated]) <= bound - booked) {
            const std::uint32_t task = order[activated];
            booked += need(task);
            if (waiting[task] == 0) ready.push(activated);
            activated++;
            tell('a', task);
        }
    }

    void start() {
        while (!ready.empty() && running.size() < workers) {
            const std::size_t first = ready.top();
            ready.pop();
            used += need(order[first]);
            running.push({time + graph.tasks[order[first]].time, first});
            tell('s', order[first]);
            found.makespan = std::max(found.makespan, time + graph.tasks[order[first]].time);
        }
    }

    using Due = std::pair<std::uint64_t, std::size_t>;

    const Graph &graph;
    const Order &order;
    const std::uint64_t bound;
    const std::size_t workers;
    const std::vector<std::size_t> place;
    const std::vector<std::uint64_t> outputs;
    const Rows read, made;
    std::vector<std::uint32_t> left, waiting;
    std::size_t activated = 0;
    std::uint64_t time = 0, booked, used;
    std::priority_queue<Due, std::vector<Due>, std::greater<Due>> running;
    std::priority_queue<std::size_t, std::vector<std::size_t>, std::greater<std::size_t>> ready;
    Run found{0, 0, 0, {}};
};

}

Graph read_graph(const char *name) {
    Text text(name);
    text.expect("graph");
    if (text.number() != 2) fail("a graph of version 2 is wanted");
    text.expect("tasks");
    Graph graph{std::vector<Task>(text.number() + 1, Task{0, 0, 0}), {}, {}};
    for (std::size_t v = 1; v < graph.tasks.size(); v++) {
        graph.tasks[v] = {text.number(), text.number(), text.number()};
    }
    text.expect("items");
    graph.items.resize(text.number());
    for (Item &item : graph.items) {
        item.size = text.number();
        item.from = number_of(text);
        item.first = static_cast<std::uint32_t>(graph.readers.size());
        while (!text.is_line_end()) graph.readers.push_back(number_of(text));
        item.last = static_cast<std::uint32_t>(graph.readers.size());
    }
    text.expect("end");
    return graph;
}

Order read_order(const char *name) {
    Text text(name);
    Order order;
    while (!text.is_end()) order.push_back(number_of(text));
    return order;
}

std::uint64_t peak_of(const Graph &graph, const Order &order) {
    const Places places(graph, order);
    const std::vector<std::uint64_t> outputs = outputs_of(graph);
    std::vector<std::uint64_t> freed(order.size(), 0);
    for (const Item &item : graph.items) {
        std::size_t last = 0;
        for (std::uint32_t at = item.first; at < item.last; at++) {
            last = std::max(last, places.of[graph.readers[at]]);
        }
        if (item.first < item.last) freed[last] += item.size;
    }
    std::uint64_t memory = inputs_of_none(graph), peak = memory;
    for (std::size_t place = 0; place < order.size(); place++) {
        const Task &task = graph.tasks[order[place]];
        peak = std::max(peak, memory + task.extra + outputs[order[place]] - task.share);
        memory += outputs[order[place]] - freed[place];
        peak = std::max(peak, memory);
    }
    return peak;
}

Run run_of(const Graph &graph, const Order &order, std::uint64_t bound, std::size_t workers) {
    if (bound < peak_of(graph, order)) fail("the bound is below the peak");
    return Simulation(graph, order, bound, workers).run();
}
