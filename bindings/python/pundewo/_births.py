"""The live processes of a run by birth, so that a page of them costs what is on it."""

from __future__ import annotations

from typing import TYPE_CHECKING, Iterator, Optional

if TYPE_CHECKING:
    from ._process import Seat
    from .values import Pid

# So few that have left are kept without a look at how many live.
FEW = 64


class Births:
    """The processes of a run in the order of their births, and how many of them each desk has. Those that have left are
    dropped once they are more than half."""

    def __init__(self, desks: int):
        self.on = [0] * desks
        self.supervisors: dict[Pid, Seat] = {}
        self._seats: list[Seat] = []
        self._left: set[int] = set()

    def enter(self, seat: Seat) -> None:
        self.on[seat.pid.shard] += 1
        self._seats.append(seat)
        if seat.family is not None:
            self.supervisors[seat.pid] = seat

    def leave(self, seat: Seat) -> None:
        self.on[seat.pid.shard] -= 1
        self.supervisors.pop(seat.pid, None)
        self._left.add(seat.born)
        if len(self._left) > FEW + len(self._seats) // 2:
            self._seats = [it for it in self._seats if it.born not in self._left]
            self._left.clear()

    def after(self, born: Optional[int]) -> Iterator[Seat]:
        """Those that were born after this one, or all."""
        for place in range(0 if born is None else self._place(born), len(self._seats)):
            if self._seats[place].born not in self._left:
                yield self._seats[place]

    def _place(self, born: int) -> int:
        """The place of the first that was born later."""
        low, high = 0, len(self._seats)
        while low < high:
            middle = (low + high) // 2
            if self._seats[middle].born > born:
                high = middle
            else:
                low = middle + 1
        return low
