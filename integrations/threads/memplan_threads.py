"""The name that `memplan.threads` had before it was a part of the package; it is the same module."""

import sys

import memplan.threads

sys.modules[__name__] = memplan.threads
