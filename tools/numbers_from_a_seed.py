"""Numbers that look random and are the same on each run, for the scripts beside this file."""


def words(seed):
    """Numbers of 32 bits, one after another."""
    state = seed
    while True:
        state = (state * 6364136223846793005 + 1442695040888963407) % 2**64
        yield state >> 32
