#include "claims.hpp"

#include <algorithm>
#include <optional>

namespace {

// Where segments lead to from a level below a limit, and whether one of them comes to it.
struct Reached {
    std::uint64_t level;
    bool is_stuck;
};

Reached run_down(const Gone *first, const Gone *last, std::uint64_t level, std::uint64_t limit) {
    for (; first != last; first++) {
        if (level + first->up >= limit) return {level, true};
        level -= first->net;
    }
    return {level, false};
}

// Positions from the last to the first. What is wanted of a position is known before it is met, and
// its notes are the last ones that are left.
class Walk {
public:
    Walk(const Term &term, Notes &notes) : term(term), notes(notes) {}

    std::vector<Claim> claims(const Wanted &whole) {
        left.push_back(whole);
        claimed.reserve(term.positions.size());
        for (std::size_t at = term.positions.size(); at-- > 0;) {
            const Position &position = term.positions[at];
            const std::optional<Wanted> wanted = left.back();
            left.pop_back();
            if (wanted) {
                claimed.push_back({static_cast<std::uint32_t>(at + 1), wanted->direction,
                                   wanted->limit() - 1, wanted->low});
            }
            if (position.kind == Position::Task) go_into_series(position, wanted);
            if (position.kind == Position::Par) go_into_parts(position.size, wanted);
        }
        std::reverse(claimed.begin(), claimed.end());
        return std::move(claimed);
    }

private:
    // What is wanted of the two parts of a series.
    struct Both {
        std::optional<Wanted> near, far;
    };

    void go_into_series(const Position &position, const std::optional<Wanted> &wanted);
    Both wanted_in_series(const Position &position, const SeriesNote &note, const Gone *gone,
                          const Wanted &wanted) const;
    void go_into_parts(std::size_t count, const std::optional<Wanted> &wanted);
    void set_levels(const PartNote *first, const PartNote *last, const Wanted &wanted);

    const Term &term;
    Notes &notes;
    std::vector<std::optional<Wanted>> left;
    std::vector<Claim> claimed;
    std::vector<std::uint64_t> levels;
};

void Walk::go_into_series(const Position &position, const std::optional<Wanted> &wanted) {
    const SeriesNote note = notes.series.back();
    notes.series.pop_back();
    const std::size_t kept = notes.gone.size() - note.climbed - note.passed;
    const Gone *const gone = notes.gone.data() + kept;
    const Both both = wanted ? wanted_in_series(position, note, gone, *wanted) : Both{};
    const bool is_first_near = note.direction == Direction::Forwards;
    left.push_back(is_first_near ? both.near : both.far);
    left.push_back(is_first_near ? both.far : both.near);
    notes.gone.resize(kept);
}

// Against the direction of the near part's side only the far part matters. In it, the near part is
// stuck already, or on its way up to the task; or the task is; or the far part.
Walk::Both Walk::wanted_in_series(const Position &position, const SeriesNote &note,
                                  const Gone *gone, const Wanted &wanted) const {
    if (wanted.direction != note.direction) return {{}, wanted};
    if (static_cast<std::int64_t>(note.near_up) >= wanted.over) return {wanted, {}};
    const bool is_first_near = note.direction == Direction::Forwards;
    const std::uint64_t near_start = is_first_near ? note.first_fin : note.second_initial;
    const std::uint64_t far_start = is_first_near ? note.second_initial : note.first_fin;
    const auto limit = static_cast<std::uint64_t>(wanted.limit());
    const auto over = [&](std::uint64_t low) { return static_cast<std::int64_t>(limit - low); };

    const Gone *const passed = gone + note.climbed;
    const Reached climbed = run_down(gone, passed, near_start, limit);
    if (climbed.is_stuck || limit <= near_start) {
        return {Wanted{over(climbed.level), climbed.level, turned(note.direction)}, {}};
    }
    const std::uint64_t hill =
        note.first_fin + position.size + note.second_initial - position.share;
    if (limit <= hill) return {};
    const bool is_below = wanted.low < note.near_least;
    const std::uint64_t low =
        is_below ? wanted.low : run_down(passed, passed + note.passed, far_start, limit).level;
    return {{}, Wanted{over(low), low, note.direction}};
}

// A part is stuck as the whole is, as far above its own level, if its side ever goes up so far.
void Walk::go_into_parts(std::size_t count, const std::optional<Wanted> &wanted) {
    const PartNote *const last = notes.parts.data() + notes.parts.size();
    const PartNote *const first = last - count;
    if (wanted) set_levels(first, last, *wanted);
    for (std::size_t at = 0; at < count; at++) {
        left.push_back({});
        if (!wanted) continue;
        const bool is_front = wanted->direction == Direction::Forwards;
        const std::uint64_t up = is_front ? first[at].front_up : first[at].back_up;
        if (static_cast<std::int64_t>(up) < wanted->over) continue;
        left.back() = Wanted{wanted->over, levels[at], wanted->direction};
    }
    std::size_t gone = 0;
    for (const PartNote *it = first; it != last; it++) gone += it->front + it->back;
    notes.gone.resize(notes.gone.size() - gone);
    notes.parts.resize(notes.parts.size() - count);
}

// How low each part gets where the whole is stuck: its least memory, and the segments that it does
// not get over. That of the part without notes is what the others leave.
void Walk::set_levels(const PartNote *first, const PartNote *last, const Wanted &wanted) {
    levels.clear();
    std::size_t unknown = 0;
    std::uint64_t rest = wanted.low;
    const Gone *gone = notes.gone.data() + notes.gone.size();
    for (const PartNote *it = first; it != last; it++) gone -= it->front + it->back;
    for (const PartNote *it = first; it != last; it++) {
        if (!it->is_noted) unknown = levels.size();
        const bool is_front = wanted.direction == Direction::Forwards;
        const Gone *const own = is_front ? gone : gone + it->front;
        std::uint64_t level = it->is_noted ? it->least : 0;
        for (const Gone *at = own; at != own + (is_front ? it->front : it->back); at++) {
            if (static_cast<std::int64_t>(at->up) >= wanted.over) level += at->net;
        }
        gone += it->front + it->back;
        rest -= level;
        levels.push_back(level);
    }
    levels[unknown] = rest;
}

}

std::vector<Claim> claims_of(const Term &term, Notes &notes, const Wanted &whole) {
    return Walk(term, notes).claims(whole);
}
