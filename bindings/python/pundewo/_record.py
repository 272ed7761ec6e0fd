"""What the desks of a run count of themselves."""

from __future__ import annotations

from typing import Optional

from ._report import Holder


class Record:
    """What the desks of a run count: numbers, which the thread of the run alone writes, a place for each desk."""

    __slots__ = ("told", "unheard", "others", "restarts", "losses", "longest")

    def __init__(self, desks: int):
        # (what is told is counted once a step. So a message costs nothing, and what is more rare is counted apart)
        self.told = [0] * desks
        # those for which no handler ran, and those that were no message
        self.unheard, self.others = [0] * desks, [0] * desks
        self.restarts, self.losses = [0] * desks, [0] * desks
        # the handler that ran longest of all
        self.longest: Optional[Holder] = None

    def returned(self, holder: Holder) -> None:
        """A handler has returned that ran for this time."""
        if self.longest is None or holder.seconds > self.longest.seconds:
            self.longest = holder
