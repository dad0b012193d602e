// The claims that show that no order of a term has a lower peak.
#pragma once

#include "cuts.hpp"

// At a position, in a direction: no state whose memory is at most the bound is reached with less
// than the rest.
struct Claim {
    std::uint32_t position;
    Direction direction;
    std::int64_t bound;
    std::uint64_t rest;
};

// From the whole down to its parts, in rising order of positions. The notes are used up.
std::vector<Claim> claims_of(const Term &term, Notes &notes, const Wanted &whole);
