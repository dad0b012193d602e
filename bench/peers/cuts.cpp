#include "cuts.hpp"

#include <algorithm>
#include <utility>

namespace {

// Memory at the start and at the end of a part, the least between, where it is cut, and the
// segments that lead there from both ends.
struct Part {
    std::uint64_t initial, fin, least;
    Side front, back;
};

class Planner {
public:
    Planner(const Term &term, Notes *notes) : term(term), lists(term.tasks), notes(notes) {
        if (!notes) return;
        // room for the most, of which only what is written is taken
        notes->series.reserve(term.tasks);
        notes->parts.reserve(term.positions.size());
        notes->gone.reserve(4 * term.tasks);
    }

    Planned plan() {
        for (const Position &position : term.positions) {
            if (position.kind == Position::Data) {
                const std::uint64_t size = position.size;
                parts.push_back({size, size, size, {}, {}});
            } else if (position.kind == Position::Task) {
                put_series(position);
            } else {
                put_beside(position.size);
            }
        }
        if (parts.size() != 1) fail("the positions are not one term");
        return planned(parts.back());
    }

private:
    void put_series(const Position &position);
    void put_beside(std::size_t count);

    // The way that a side goes on: up along the near part's other side, over the hill of a task,
    // and down along the far part's side.
    struct Way {
        Direction direction;
        std::uint64_t near_least, climbed_from, hill, far_start;
        List task;
    };

    SeriesNote go_on(const Way &way, Side &near, Side climbed, Side far);
    void note_parts(const Part *first, const Part *last);
    std::uint32_t note_side(const Side &side);
    void note(const Segment &segment) {
        if (notes) notes->gone.push_back({segment.up, segment.run.net});
    }
    void merge(Part *first, Part *last, Side Part::*side, Direction direction);
    Planned planned(Part &whole);

    const Term &term;
    Lists lists;
    Notes *notes;
    std::vector<Part> parts;
    List task = 0;
};

// The first part, the task, the second part. The cut of the whole is that of the part whose least
// memory is less, the first one's if both are equal.
void Planner::put_series(const Position &position) {
    if (parts.size() < 2) fail("a position lacks its parts");
    Part second = std::move(parts.back());
    parts.pop_back();
    Part &first = parts.back();
    const std::uint64_t hill = first.fin + position.size + second.initial - position.share;
    task++;
    SeriesNote made;
    if (first.least <= second.least) {
        const Way way{Direction::Backwards, second.least, second.initial, hill, first.fin, task};
        made = go_on(way, second.back, std::move(second.front), std::move(first.back));
    } else {
        const Way way{Direction::Forwards, first.least, first.fin, hill, second.initial, task};
        made = go_on(way, first.front, std::move(first.back), std::move(second.front));
        first.least = second.least;
    }
    made.first_fin = first.fin;
    made.second_initial = second.initial;
    first.back = std::move(second.back);
    first.fin = second.fin;
    if (notes) notes->series.push_back(made);
}

SeriesNote Planner::go_on(const Way &way, Side &near, Side climbed, Side far) {
    SeriesNote made{near.last_up(), way.near_least, 0, 0, climbed.size(), 0, way.direction};
    std::uint64_t level = way.climbed_from, high = std::max(way.climbed_from, way.hill);
    List tasks = way.task;
    while (!climbed.empty()) {
        const Segment next = climbed.take_first();
        note(next);
        high = std::max(high, level + next.up);
        level -= next.run.net;
        tasks = lists.join(way.direction, next.run.tasks, tasks);
    }
    // down to less than the near part's least memory
    for (level = way.far_start; way.near_least < level && !far.empty(); made.passed++) {
        const Segment next = far.take_first();
        note(next);
        high = std::max(high, level + next.up);
        level -= next.run.net;
        tasks = lists.join(way.direction, tasks, next.run.tasks);
    }
    const Segment over{high - way.near_least, {way.near_least - level, tasks}};
    near.append(way.direction, over, lists);
    while (!far.empty() && far.first_up() <= near.last_up()) {
        near.join_last(way.direction, far.take_first().run, lists);
    }
    near.merge(way.direction, std::move(far), lists);
    return made;
}

// The last parts, side by side.
void Planner::put_beside(std::size_t count) {
    if (count == 0 || count > parts.size()) fail("a position lacks its parts");
    Part *const last = parts.data() + parts.size(), *const first = last - count;
    if (notes) note_parts(first, last);
    merge(first, last, &Part::front, Direction::Forwards);
    merge(first, last, &Part::back, Direction::Backwards);
    for (const Part *it = first + 1; it != last; it++) {
        first->initial += it->initial;
        first->fin += it->fin;
        first->least += it->least;
    }
    parts.erase(parts.end() - static_cast<std::ptrdiff_t>(count) + 1, parts.end());
}

void Planner::note_parts(const Part *first, const Part *last) {
    const auto length = [](const Part &it) { return std::max(it.front.size(), it.back.size()); };
    const auto is_shorter = [&](const Part &a, const Part &b) { return length(a) < length(b); };
    const Part *const longest = std::max_element(first, last, is_shorter);
    for (const Part *it = first; it != last; it++) {
        PartNote made{it->least, it->front.last_up(), it->back.last_up(), 0, 0, it != longest};
        if (made.is_noted) {
            made.front = note_side(it->front);
            made.back = note_side(it->back);
        }
        notes->parts.push_back(made);
    }
}

std::uint32_t Planner::note_side(const Side &side) {
    side.for_each([&](std::uint64_t up, std::uint64_t net) { notes->gone.push_back({up, net}); });
    return side.size();
}

// A side of all parts into that of the first: into the longest one, the nearest first.
void Planner::merge(Part *first, Part *last, Side Part::*side, Direction direction) {
    const auto is_shorter = [&](const Part &a, const Part &b) {
        return (a.*side).size() < (b.*side).size();
    };
    Part *const longest = std::max_element(first, last, is_shorter);
    Side whole = std::move(longest->*side);
    for (Part *it = longest; it != first;) {
        Side before = std::move((--it)->*side);
        before.merge(direction, std::move(whole), lists);
        whole = std::move(before);
    }
    for (Part *it = longest + 1; it < last; it++) {
        whole.merge(direction, std::move(it->*side), lists);
    }
    first->*side = std::move(whole);
}

// A side of the whole as it is run down.
struct Descent {
    std::vector<Segment> segments;
    std::uint64_t start, top;
};

Descent run_down(Side &side, std::uint64_t start) {
    Descent descent{{}, start, start};
    for (std::uint64_t level = start; !side.empty();) {
        descent.segments.push_back(side.take_first());
        descent.top = std::max(descent.top, level + descent.segments.back().up);
        level -= descent.segments.back().run.net;
    }
    return descent;
}

// The least memory that it reaches before it comes to the peak.
std::uint64_t lowest_below(const Descent &descent, std::uint64_t peak) {
    std::uint64_t level = descent.start;
    for (const auto &[up, run] : descent.segments) {
        if (level + up >= peak) break;
        level -= run.net;
    }
    return level;
}

Planned Planner::planned(Part &whole) {
    const Descent front = run_down(whole.front, whole.initial);
    const Descent back = run_down(whole.back, whole.fin);
    Order order;
    order.reserve(task);
    for (auto it = front.segments.begin(); it != front.segments.end(); it++) {
        lists.write(it->run.tasks, order);
    }
    for (auto it = back.segments.rbegin(); it != back.segments.rend(); it++) {
        lists.write(it->run.tasks, order);
    }
    if (!term.names.empty()) {
        for (std::uint32_t &it : order) it = term.names[it - 1];
    }
    const std::uint64_t peak = std::max(front.top, back.top);
    const bool is_front = front.top == peak;
    const std::uint64_t low = lowest_below(is_front ? front : back, peak);
    const auto over = static_cast<std::int64_t>(peak - low);
    const Direction direction = is_front ? Direction::Forwards : Direction::Backwards;
    return {{std::move(order), peak}, {over, low, direction}};
}

}

Planned least_peak(const Term &term, Notes *notes) { return Planner(term, notes).plan(); }
