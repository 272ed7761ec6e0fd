"""Groups of processes. The library keeps which process is in which group."""

from __future__ import annotations

from itertools import count
from typing import TYPE_CHECKING, Any

if TYPE_CHECKING:
    from ._process import Address
    from ._sending import Sending

# (no group has the number of another, also not of another run)
NUMBERS = count()


class Group:
    """Processes to which a program sends together, as a group of Erlang's `pg`. `Runtime.group` makes one.

    A process may be in many groups. It may join a group several times, and is in it until it has left as often, or has exited. A
    group may go to any thread, and keeps no process alive. All of its processes are of the run that it was made for.
    """

    __slots__ = ("name", "_number", "_engine")

    def __init__(self, engine: Sending, name: str):
        self.name, self._number, self._engine = name, next(NUMBERS), engine

    def __repr__(self) -> str:
        return f"<Group {self.name}>"

    def __len__(self) -> int:
        """How many processes are in the group, each counted once."""
        return self._engine.group_len(self._number)

    def __bool__(self) -> bool:
        """True, also if no process is in the group."""
        return True

    def join(self, process: Address) -> bool:
        """Adds a process, once more if it is there already: `pg:join`. It has joined when this returns, on any thread. It
        returns False, and nothing changes, if the process has exited. Fault: MEMORY."""
        return self._engine.join(self._number, self._engine.own("process", process).pid)

    def leave(self, process: Address) -> bool:
        """Takes a process out, once: `pg:leave`. It returns False if the process was not in the group."""
        return self._engine.leave(self._number, self._engine.own("process", process).pid)

    def times(self, process: Address) -> int:
        """How often a process is in the group: 0 if it is not."""
        return self._engine.times(self._number, self._engine.own("process", process).pid)

    def members(self) -> list[Address]:
        """The processes that are in the group, each once, in no order: `pg:get_members`."""
        return self._engine.members(self._number)

    def send_all(self, value: Any) -> int:
        """Sends each member a message, from any thread, as `Address.send`, and returns how many were sent. In a behaviour take
        `Context.send_all`."""
        return sum(member.send(value) for member in self.members())
