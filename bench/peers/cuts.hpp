// An order of least peak of a term, in one pass over its positions, and notes of what that uses up.
#pragma once

#include "side.hpp"
#include "term.hpp"

// A segment that is gone: another one took it in, or its part was put beside others.
struct Gone {
    std::uint64_t up, net;
};

// How a task joined two parts. The near one holds a least state that is not the least of the whole,
// and its side goes on, in a direction, over the task to the far part. That side has ended at
// `near_least`, where its last segment went up by `near_up`. Gone are the segments of the near
// part's other side, `climbed`, and the first ones of the far side, `passed`.
struct SeriesNote {
    std::uint64_t near_up, near_least, first_fin, second_initial;
    std::uint32_t climbed, passed;
    Direction direction;
};

// A part that was put beside others: its least memory, the last `up` of its two sides, and how many
// segments of these are gone. Those of the part with the longest side are not noted: what is known
// of the whole and of all others tells enough.
struct PartNote {
    std::uint64_t least, front_up, back_up;
    std::uint32_t front, back;
    bool is_noted;
};

// Each position's notes stand behind those of the positions before it.
struct Notes {
    std::vector<SeriesNote> series;
    std::vector<PartNote> parts;
    std::vector<Gone> gone;
};

// What is wanted of a part: that in a direction no state below a limit is reached with less than
// `low`. The limit is `low + over`.
struct Wanted {
    std::int64_t over;
    std::uint64_t low;
    Direction direction;

    std::int64_t limit() const { return static_cast<std::int64_t>(low) + over; }
};

// An order of least peak, and what shows that there is no better one.
struct Planned {
    Traversal traversal;
    Wanted whole;
};

// Parts are cut at a state of least memory (Kayaaslan, Lambert, Marchal and Ucar 2018). Where no
// claims are to be made, no notes are kept.
Planned least_peak(const Term &term, Notes *notes);
