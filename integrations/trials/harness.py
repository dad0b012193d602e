"""Runs checks one after the other, each with a limit of time, and tells how many passed."""

from __future__ import annotations

import signal
import sys
import time
import traceback
from types import FrameType
from typing import Any, Callable, Optional, Sequence, Type

SECONDS = 300


class TooLong(BaseException):
    """A check takes so long that it counts as hanging."""


def _stop(_signal: int, _frame: Optional[FrameType]) -> None:
    raise TooLong


def passes(name: str, check: Callable[[], None]) -> bool:
    signal.signal(signal.SIGALRM, _stop)
    signal.alarm(SECONDS)
    began = time.monotonic()
    try:
        check()
    except (Exception, TooLong):
        print(f"{name}: failed", flush=True)
        traceback.print_exc(file=sys.stdout)
        return False
    finally:
        signal.alarm(0)
    print(f"{name}: passed, {time.monotonic() - began:.1f} s", flush=True)
    return True


def run_all(checks: Sequence[Any]) -> int:
    """Of pairs of a name and a check; the status for the shell."""
    passed = sum(passes(name, check) for name, check in checks)
    print(f"{passed} passed, {len(checks) - passed} failed", flush=True)
    return 0 if passed == len(checks) else 1


def raised(kind: Type[BaseException], call: Callable[..., Any], *arguments: Any) -> Any:
    """The error of this kind that a call ends with."""
    try:
        call(*arguments)
    except kind as error:
        return error
    raise AssertionError(f"no {kind.__name__} was raised")


def eventually(holds: Callable[[], bool], seconds: float = 10) -> bool:
    """Whether something comes to hold within so many seconds."""
    end = time.monotonic() + seconds
    while not holds():
        if time.monotonic() > end:
            return False
        time.sleep(0.02)
    return True
