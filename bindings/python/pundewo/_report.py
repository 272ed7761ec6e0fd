"""What a run reports of itself, by `logging`."""

from __future__ import annotations

import logging
import traceback
from typing import NamedTuple, Optional, Union

from .values import Pid, Reason

log = logging.getLogger("pundewo")


def text_of(error: BaseException) -> str:
    """The text of an exception, with its type."""
    return "".join(traceback.format_exception_only(type(error), error)).strip()


class Crash(NamedTuple):
    """A handler has raised an exception, by which its process exits. An error of `logging`."""

    pid: Pid
    behaviour: str
    text: str

    def __str__(self) -> str:
        return f"{self.pid} of {self.behaviour} crashed: {self.text}"


class Restart(NamedTuple):
    """A supervisor has started a child again, whose process before exited with this reason, and how often it was started. A
    warning of `logging`, and an info if that exited with NORMAL or SHUTDOWN."""

    supervisor: Pid
    child: str
    pid: Pid
    reason: Reason
    started: int

    def __str__(self) -> str:
        return (f"{self.supervisor} started its child {self.child} again, as {self.pid}, {self.started} times in all: "
                f"the one before exited with {self.reason}")


class Halt(NamedTuple):
    """The run halts at this exception: its sink refuses a history, or a desk has no memory or no stamp. An error of `logging`,
    and a warning if it was interrupted or cancelled."""

    why: BaseException

    def __str__(self) -> str:
        return f"the run halted: {text_of(self.why)}"


class Holder(NamedTuple):
    """A process that holds up the run: for so many seconds its handler has not returned, or had not when it did. A warning of
    `logging` if that is longer than a second, or if somebody waited in vain meanwhile."""

    pid: Pid
    name: str
    seconds: float

    def __str__(self) -> str:
        return f"{self.pid} of {self.name}, in its handler for {self.seconds:.1f} s"


# What has happened in a run: a record of the logger `pundewo` has it as `report`.
Report = Union[Crash, Restart, Halt, Holder]


def report(level: int, what: Report, text: str = "%s", error: Optional[BaseException] = None) -> None:
    """Reports it. What a handler of the log raises harms nobody."""
    try:
        if not log.isEnabledFor(level):
            return
        log.log(level, text, what, exc_info=error, extra={"report": what})
    except Exception:
        traceback.print_exc()
