"""Random words that are the same in C++: the Mersenne Twister of 64 bits (Nishimura 2000), which is std::mt19937_64 there."""
from __future__ import annotations

# How many words there are in a state, and how far apart the two are that make a new one.
LENGTH, DISTANCE = 312, 156
ALL = 2**64 - 1
LOW = 2**31 - 1
HIGH = ALL - LOW
TWIST = 0xB5026F5AA96619E9


class MersenneTwister:
    """Words of 64 bits, one after another. Without a seed it has the one of the standard."""

    def __init__(self, seed: int = 5489) -> None:
        self.state = [seed & ALL]
        for place in range(1, LENGTH):
            last = self.state[-1]
            self.state.append((6364136223846793005 * (last ^ last >> 62) + place) & ALL)
        self.place = LENGTH

    def renew(self) -> None:
        """The next state: each word from the one at its place, the next one and a distant one, the first of which are new already."""
        state = self.state
        for place in range(LENGTH):
            mixed = state[place] & HIGH | state[(place + 1) % LENGTH] & LOW
            state[place] = state[(place + DISTANCE) % LENGTH] ^ mixed >> 1 ^ (TWIST if mixed & 1 else 0)
        self.place = 0

    def word(self) -> int:
        if self.place == LENGTH:
            self.renew()
        word = self.state[self.place]
        self.place += 1
        word ^= word >> 29 & 0x5555555555555555
        word ^= word << 17 & 0x71D67FFFEDA60000
        word ^= word << 37 & 0xFFF7EEE000000000
        return word ^ word >> 43
