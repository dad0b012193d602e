#include "side.hpp"

#include <algorithm>

namespace {

// A row of more segments than this becomes a tree where one goes inside it.
const std::uint32_t LONG_ROW = 512;

// A side of at least so many times the segments of another takes them up one by one.
const std::uint64_t FAR_MORE = 8;

// In a row of at most so many segments a place is found by going along it.
const std::uint32_t SHORT_ROW = 8;

}

void Lists::write(List list, Order &order) {
    left.push_back(list);
    while (!left.empty()) {
        List it = left.back();
        left.pop_back();
        while (it > tasks) {
            const Join &join = joins[it - tasks - 1];
            left.push_back(join.then);
            it = join.one;
        }
        order.push_back(it);
    }
}

void Side::free_place() {
    if (kind == InTree) delete place.tree;
    if (kind == InRow) delete[] place.row.segments;
}

Segment Side::take_from_tree() {
    const auto least = place.tree->begin();
    const Segment first{least->first, least->second};
    place.tree->erase(least);
    return first;
}

void Side::merge_both(Direction direction, Side &other, Lists &lists) {
    const bool is_fewer = count < other.count;
    if (is_fewer) std::swap(*this, other);
    const Joining joining{direction, is_fewer, lists};
    if (other.count == 1 || FAR_MORE * other.count <= count) take_all(other, joining);
    else take_row(other, joining);
}

void Side::take_all(Side &fewer, const Joining &joining) {
    while (!fewer.empty()) insert(fewer.take_first(), joining);
}

// Both as rows, in one pass from their ends to the end of this one's room.
void Side::take_row(Side &fewer, const Joining &joining) {
    if (kind == InTree) make_row();
    if (fewer.kind == InTree) fewer.make_row();
    const std::uint32_t most = count + fewer.count;
    if (kind != InRow || place.row.head + most > place.row.capacity) make_room(most + most / 4, 0);
    Segment *const first = begin();
    Segment *own = first + count, *to = first + most;
    for (const Segment *it = fewer.begin() + fewer.count; it != fewer.begin();) {
        if (own != first && own[-1].up > it[-1].up) {
            *--to = *--own;
            continue;
        }
        Segment next = *--it;
        if (own != first && own[-1].up == next.up) {
            const Run run = next.run;
            next = *--own;
            joining.put(run, next.run);
        }
        *--to = next;
    }
    // what is left of this one's stands at its place, behind which joined segments left a gap
    std::move_backward(first, own, to);
    const auto gap = static_cast<std::uint32_t>(to - own);
    place.row.head += gap;
    count = most - gap;
    fewer.clear();
}

void Side::insert(const Segment &segment, const Joining &joining) {
    if (segment.up > last_up()) push_behind(segment);
    else if (segment.up < first_up()) push_front(segment);
    else if (kind == InTree || count > LONG_ROW) insert_in_tree(segment, joining);
    else insert_in_row(segment, joining);
}

void Side::insert_in_tree(const Segment &segment, const Joining &joining) {
    if (kind != InTree) make_tree();
    const auto [at, is_new] = place.tree->try_emplace(segment.up, segment.run);
    if (is_new) count++;
    else joining.put(segment.run, at->second);
}

void Side::insert_in_row(const Segment &segment, const Joining &joining) {
    const auto is_below = [](const Segment &it, std::uint64_t up) { return it.up < up; };
    Segment *at = begin();
    if (count > SHORT_ROW) at = std::lower_bound(at, at + count, segment.up, is_below);
    else while (at->up < segment.up) at++;
    if (at->up == segment.up) return joining.put(segment.run, at->run);
    const auto place_of = static_cast<std::uint32_t>(at - begin());
    open(place_of);
    begin()[place_of] = segment;
}

// Opens a gap in a row: the shorter end goes aside, if there is room.
void Side::open(std::uint32_t at) {
    const bool is_full = kind != InRow || place.row.head + count == place.row.capacity;
    const bool has_room_before = kind == InRow && place.row.head > 0;
    if (has_room_before && (at < count / 2 || is_full)) {
        place.row.head--;
        std::move(begin() + 1, begin() + 1 + at, begin());
    } else {
        if (is_full) make_room(2 * count + 4, 0);
        std::move_backward(begin() + at, begin() + count, begin() + count + 1);
    }
    count++;
}

void Side::push_behind(const Segment &segment) {
    if (kind == InTree) {
        place.tree->emplace_hint(place.tree->end(), segment.up, segment.run);
    } else {
        if (kind != InRow) make_room(4, 0);
        const Row row = place.row;
        // the room before the segments is used, if it is more than half of all
        if (row.head + count == row.capacity) {
            make_room(row.head > row.capacity / 2 ? row.capacity : 2 * (count + 1), 0);
        }
        begin()[count] = segment;
    }
    count++;
}

void Side::push_front(const Segment &segment) {
    if (kind == InTree) {
        place.tree->emplace_hint(place.tree->begin(), segment.up, segment.run);
    } else {
        if (kind != InRow || place.row.head == 0) make_room(2 * count + 4, count + 3);
        place.row.head--;
        *begin() = segment;
    }
    count++;
}

// Another row for the segments, with so many free places before them.
void Side::make_room(std::uint32_t capacity, std::uint32_t head) {
    Segment *const segments = new Segment[capacity];
    std::copy(begin(), begin() + count, segments + head);
    if (kind == InRow) delete[] place.row.segments;
    kind = InRow;
    place.row = {segments, head, capacity};
}

void Side::make_tree() {
    Tree *const tree = new Tree;
    for (const Segment *it = begin(); it != begin() + count; it++) {
        tree->emplace_hint(tree->end(), it->up, it->run);
    }
    if (kind == InRow) delete[] place.row.segments;
    kind = InTree;
    place.tree = tree;
}

void Side::make_row() {
    Segment *const segments = new Segment[count + 1];
    Segment *to = segments;
    for (const auto &[up, run] : *place.tree) *to++ = {up, run};
    delete place.tree;
    kind = InRow;
    place.row = {segments, 0, count + 1};
}
