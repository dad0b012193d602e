// Segments as a planner keeps them for each end of a part of a term.
#pragma once

#include <map>
#include <utility>

#include "tree.hpp"

enum class Direction : std::uint8_t { Forwards, Backwards };

inline Direction turned(Direction direction) {
    return direction == Direction::Forwards ? Direction::Backwards : Direction::Forwards;
}

// Tasks in the order in which they run: the number of one task, or a number above all of these,
// which two lists one after the other have.
using List = std::uint32_t;

// A run of tasks that ends lower by `net` than it starts.
struct Run {
    std::uint64_t net;
    List tasks;
};

// A run that needs `up` above the level at which it starts.
struct Segment {
    std::uint64_t up;
    Run run;
};

// All lists of tasks. A list is in one other at most, so there are fewer joins than tasks.
class Lists {
public:
    explicit Lists(std::size_t count) : tasks(static_cast<List>(count)) { joins.reserve(count); }

    // One list, and then in a direction another.
    List join(Direction direction, List one, List then) {
        if (direction == Direction::Backwards) std::swap(one, then);
        joins.push_back({one, then});
        return tasks + static_cast<List>(joins.size());
    }

    Run join(Direction direction, const Run &one, const Run &then) {
        return {one.net + then.net, join(direction, one.tasks, then.tasks)};
    }

    void write(List list, Order &order);

private:
    struct Join {
        List one, then;
    };

    List tasks;
    std::vector<Join> joins;
    std::vector<List> left;
};

// Segments by rising `up`, as they are run in a direction: from one end of a part down to its least
// memory. Most sides have one segment or a few, some have thousands. So one stands in place; more
// stand in a row with room at both ends; and a long row becomes a tree where one goes inside it.
class Side {
public:
    Side() {}
    Side(Side &&other) noexcept
        : count(std::exchange(other.count, 0)), kind(std::exchange(other.kind, InPlace)),
          place(other.place) {}
    ~Side() { clear(); }

    Side &operator=(Side &&other) noexcept {
        clear();
        count = std::exchange(other.count, 0);
        kind = std::exchange(other.kind, InPlace);
        place = other.place;
        return *this;
    }

    bool empty() const { return count == 0; }
    std::uint32_t size() const { return count; }

    std::uint64_t first_up() const {
        return kind == InTree ? place.tree->begin()->first : begin()->up;
    }

    // That of the last segment, or 0 where there is none.
    std::uint64_t last_up() const {
        if (count == 0) return 0;
        return kind == InTree ? place.tree->rbegin()->first : begin()[count - 1].up;
    }

    Segment take_first() {
        const Segment first = kind == InTree ? take_from_tree() : *begin();
        if (kind == InRow) place.row.head++;
        if (--count == 0) clear();
        return first;
    }

    // Puts a segment behind all others, or into the last one if that goes up as high.
    void append(Direction direction, const Segment &segment, Lists &lists) {
        if (count > 0 && segment.up <= last_up()) join_last(direction, segment.run, lists);
        else push_back(segment);
    }

    // Puts a run into the last segment.
    void join_last(Direction direction, const Run &run, Lists &lists) {
        Run &last = kind == InTree ? place.tree->rbegin()->second : begin()[count - 1].run;
        last = lists.join(direction, last, run);
    }

    // Puts the segments of another side among these: the fewer go to the more. Where two go up
    // equally high they become one, and those of the other side come after these.
    void merge(Direction direction, Side &&other, Lists &lists) {
        if (other.empty()) return;
        if (empty()) *this = std::move(other);
        else merge_both(direction, other, lists);
    }

    template <class Each> void for_each(Each each) const {
        if (kind == InTree) {
            for (const auto &[up, run] : *place.tree) each(up, run.net);
        } else {
            const Segment *const end = begin() + count;
            for (const Segment *it = begin(); it != end; it++) each(it->up, it->run.net);
        }
    }

private:
    using Tree = std::map<std::uint64_t, Run>;

    struct Row {
        Segment *segments;
        std::uint32_t head, capacity;
    };

    // How segments of one `up` become one.
    struct Joining {
        Direction direction;
        bool are_before;
        Lists &lists;

        void put(const Run &run, Run &into) const {
            into = are_before ? lists.join(direction, run, into) : lists.join(direction, into, run);
        }
    };

    Segment *begin() { return kind == InRow ? place.row.segments + place.row.head : &place.one; }
    const Segment *begin() const { return const_cast<Side *>(this)->begin(); }

    void clear() {
        if (kind != InPlace) free_place();
        kind = InPlace;
        count = 0;
    }

    void push_back(const Segment &segment) {
        if (count > 0) return push_behind(segment);
        clear();
        place.one = segment;
        count = 1;
    }

    void free_place();
    Segment take_from_tree();
    void push_behind(const Segment &segment);
    void push_front(const Segment &segment);
    void merge_both(Direction direction, Side &other, Lists &lists);
    void insert(const Segment &segment, const Joining &joining);
    void insert_in_tree(const Segment &segment, const Joining &joining);
    void insert_in_row(const Segment &segment, const Joining &joining);
    void open(std::uint32_t at);
    void take_all(Side &fewer, const Joining &joining);
    void take_row(Side &fewer, const Joining &joining);
    void make_room(std::uint32_t capacity, std::uint32_t head);
    void make_tree();
    void make_row();

    std::uint32_t count = 0;
    enum : std::uint32_t { InPlace, InRow, InTree } kind = InPlace;
    union {
        Segment one;
        Row row;
        Tree *tree;
    } place;
};
