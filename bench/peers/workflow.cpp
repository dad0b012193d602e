#include "workflow.hpp"

#include <algorithm>
#include <map>
#include <utility>

Workflow read_workflow(const char *name) {
    Text text(name);
    text.expect("workflow");
    const bool has_shares = text.number() == 2;
    text.expect("tasks");
    text.number();
    Workflow workflow;
    // a line has at least six bytes; what is not written takes no memory
    workflow.reserve(text.size() / 6);
    for (;;) {
        const std::string_view word = text.token();
        if (word == "end") return workflow;
        Position position{Position::Data, text.number(), 0};
        if (word == "task") {
            position.kind = Position::Task;
            position.share = has_shares ? text.number() : 0;
            text.number();
        } else if (word == "par") {
            position.kind = Position::Par;
        } else if (word != "data") {
            fail("another word is wanted");
        }
        workflow.push_back(position);
    }
}

namespace {

using Level = std::int64_t;

// A list of tasks by its two ends; 0 and 0 is the empty one.
struct List {
    std::uint32_t first = 0, last = 0;

    List turned() const { return {last, first}; }
};

// The links of all lists. A task knows its two neighbours and not which comes first, so a list is
// turned round without a look at its tasks.
class Links {
public:
    explicit Links(std::size_t count) : links(count + 1, {0, 0}) {}

    List join(List one, List other) {
        if (!one.first || !other.first) return one.first ? one : other;
        put(one.last, other.first);
        put(other.first, one.last);
        return {one.first, other.last};
    }

    void write(List list, Order &order) const {
        for (std::uint32_t task = list.first, before = 0; task;) {
            order.push_back(task);
            const auto [one, other] = links[task];
            before = std::exchange(task, one == before ? other : one);
        }
    }

private:
    void put(std::uint32_t task, std::uint32_t neighbour) {
        auto &[one, other] = links[task];
        (one ? other : one) = neighbour;
    }

    std::vector<std::pair<std::uint32_t, std::uint32_t>> links;
};

// A run of tasks that needs `up` above the level at which it starts, the key of its map, and ends
// lower by `net`.
struct Segment {
    Level net;
    List tasks;
};

// Segments by rising `up`, as they are run from one end of a part down to its least memory.
using Side = std::map<Level, Segment>;

struct Part {
    Level initial, fin, least;
    Side front, back;
};

class Planner {
public:
    explicit Planner(std::size_t tasks) : links(tasks) {}

    // Parts side by side: the segments of both, the fewer put into the more.
    void beside(Part &one, Part &&other) {
        one.initial += other.initial;
        one.fin += other.fin;
        one.least += other.least;
        merge(one.front, std::move(other.front));
        merge(one.back, std::move(other.back));
    }

    // The first part, a task with a hill, and the second part.
    void series(Part &first, std::uint32_t task, Level hill, Part &&second) {
        if (first.least <= second.least) {
            const Way over{second.least, second.front, second.initial, hill, task, first.fin};
            first.back = through(std::move(second.back), over, std::move(first.back));
        } else {
            const Way over{first.least, first.back, first.fin, hill, task, second.initial};
            first.front = through(std::move(first.front), over, std::move(second.front));
            first.back = std::move(second.back);
            first.least = second.least;
        }
        first.fin = second.fin;
    }

    Traversal traversal(const Part &part) {
        Traversal found{{}, static_cast<std::uint64_t>(std::max(part.initial, part.fin))};
        List front = run_down(part.front, part.initial, found.peak);
        List back = run_down(part.back, part.fin, found.peak);
        links.write(links.join(front, back.turned()), found.order);
        return found;
    }

private:
    // From the least state of the near part to the far part: up along the near part's other side,
    // over the task.
    struct Way {
        Level least;
        const Side &climbed;
        Level climbed_from, hill;
        std::uint32_t task;
        Level far_start;
    };

    // The near side, the way over, and the far side, as one side.
    Side through(Side &&near, const Way &way, Side &&far) {
        std::uint64_t top =
            static_cast<std::uint64_t>(std::max({way.hill, way.climbed_from, way.far_start}));
        const List climbed = run_down(way.climbed, way.climbed_from, top).turned();
        Level up = static_cast<Level>(top) - way.least;
        Segment run{way.least - way.far_start, links.join(climbed, {way.task, way.task})};
        for (bool has_grown = true; has_grown;) {
            has_grown = false;
            while (!far.empty() && (run.net <= 0 || far.begin()->first <= up)) {
                const auto next = far.begin();
                up = std::max(up, next->first - run.net);
                run = joined(run, next->second);
                far.erase(next);
            }
            if (!near.empty() && std::prev(near.end())->first >= up) {
                const auto last = std::prev(near.end());
                up = last->first;
                run = joined(last->second, run);
                near.erase(last);
                has_grown = true;
            }
        }
        far.emplace_hint(far.begin(), up, run);
        merge(near, std::move(far));
        return std::move(near);
    }

    Segment joined(const Segment &one, const Segment &other) {
        return {one.net + other.net, links.join(one.tasks, other.tasks)};
    }

    void merge(Side &one, Side &&other) {
        if (one.size() < other.size()) one.swap(other);
        for (auto &[up, segment] : other) {
            const auto [place, is_new] = one.try_emplace(up, segment);
            if (!is_new) place->second = joined(place->second, segment);
        }
    }

    // All tasks of a side from a level on, with the greatest memory.
    List run_down(const Side &side, Level level, std::uint64_t &top) {
        List tasks;
        for (const auto &[up, segment] : side) {
            top = std::max(top, static_cast<std::uint64_t>(level + up));
            level -= segment.net;
            tasks = links.join(tasks, segment.tasks);
        }
        return tasks;
    }

    Links links;
};

}

Traversal least_peak(const Workflow &workflow) {
    const auto is_task = [](const Position &position) { return position.kind == Position::Task; };
    const auto tasks = std::count_if(workflow.begin(), workflow.end(), is_task);
    Planner planner(static_cast<std::size_t>(tasks));
    std::vector<Part> parts;
    std::uint32_t task = 0;
    for (const Position &position : workflow) {
        const auto size = static_cast<Level>(position.size);
        const std::size_t taken = position.kind == Position::Par    ? position.size
                                  : position.kind == Position::Task ? 2
                                                                    : 0;
        if (taken > parts.size()) fail("a position lacks its parts");
        if (position.kind == Position::Data) {
            parts.push_back({size, size, size, {}, {}});
        } else if (position.kind == Position::Task) {
            Part second = std::move(parts.back());
            parts.pop_back();
            const Level hill =
                parts.back().fin + size + second.initial - static_cast<Level>(position.share);
            planner.series(parts.back(), ++task, hill, std::move(second));
        } else {
            for (std::size_t left = taken - 1; left > 0; left--) {
                Part last = std::move(parts.back());
                parts.pop_back();
                planner.beside(parts.back(), std::move(last));
            }
        }
    }
    if (parts.size() != 1) fail("the positions are not one term");
    return planner.traversal(parts.back());
}
