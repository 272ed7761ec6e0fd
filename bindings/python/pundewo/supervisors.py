"""Supervisors among the processes of a `Crew`, as plain data.

A process of a crew is one with a tag, whose handler is yours, or a supervisor, which handles what it gets itself: it starts
its children, and starts them again when they exit. The supervisors are those that are proved.

    crew = Crew(desk)
    boss = crew.spawn_supervisor(desk, 0, SupervisorSpec(), [ChildSpec(7)])
    jobs, turned = crew.step(desk)      # the supervisor starts its child
    jobs, turned = crew.step(desk)      # [Job("start", pid, 7, supervisor=boss)]
    crew.answer(jobs[0].pid, Next("wait", ANY))
"""

from __future__ import annotations

import ctypes as c
from typing import NamedTuple, Optional, Sequence, Union

from ._abi import (
    RESTART_CODES, SHUTDOWN_CODES, STRATEGY_CODES, CChild, CChildCounts, CChildSpec, CGaveUp, CSupervisorSpec,
)
from ._library import c_pid, pid_of, reason_of
from .values import U64, Pid, Reason, flag, number, of_type, one_of, shown

__all__ = ["RESTARTS", "STRATEGIES", "Child", "ChildCounts", "ChildSpec", "GaveUp", "SupervisorSpec"]

# Which others a supervisor ends and starts again with a child that has exited: no other, all others, or those that were
# listed after it.
STRATEGIES = STRATEGY_CODES
# Whether a child is started again when it has exited: always; unless it exited with `normal` or `shutdown`; never.
RESTARTS = RESTART_CODES

# How a child is ended: "infinity", by `shutdown`, however long that takes; a time, by `shutdown`, and after this time by
# `kill`; "brutal_kill", by `kill`.
Shutdown = Union[str, int]


class ChildSpec(NamedTuple):
    """What a supervisor knows of a child. `restart` is one of RESTARTS. `shutdown` is "infinity", "brutal_kill", or the
    time (`Crew.set_time`) after which it is killed. With `elsewhere` the program starts it, on another desk
    (`Crew.child_to_start`)."""

    tag: int
    restart: str = "permanent"
    shutdown: Shutdown = "infinity"
    elsewhere: bool = False


class SupervisorSpec(NamedTuple):
    """A supervisor without its children: it makes `most` restarts within `span`, which is one of time if `timed`, and else
    of stamps of its desk. `strategy` is one of STRATEGIES. It exits with `parent`."""

    strategy: str = "one_for_one"
    most: int = 1
    span: int = 5
    timed: bool = False
    parent: Optional[Pid] = None


class Child(NamedTuple):
    """A child in its place. It has a pid from its start until its supervisor gets its exit. `wanted` is whether the
    supervisor wants it alive."""

    pid: Optional[Pid]
    restart: str
    shutdown: Shutdown
    wanted: bool


class ChildCounts(NamedTuple):
    """How many children a supervisor has: all; those that are alive, by all that it has heard; those that it is to start."""

    specs: int
    active: int
    restarting: int


class GaveUp(NamedTuple):
    """Why a supervisor gave up: the child with this tag, in this place, exited with this reason and was to be started again.
    There had been `restarts` within `span`, which is one of time if `timed`, and else of stamps, and no more are allowed."""

    tag: int
    place: int
    reason: Reason
    restarts: int
    span: int
    timed: bool


def c_child(field: str, child: ChildSpec) -> CChildSpec:
    tag, restart, shutdown, elsewhere = of_type(field, child, ChildSpec)
    crossing = CChildSpec(number(f"{field}.tag", tag, 0, U64), RESTARTS.index(one_of(f"{field}.restart", restart, RESTARTS)))
    if shutdown == "brutal_kill":
        crossing.shutdown = SHUTDOWN_CODES.index("brutal_kill")
    elif shutdown != "infinity":
        if isinstance(shutdown, str):
            raise ValueError(f"{field}.shutdown is {shown(shutdown)}, and must be a time, 'infinity' or 'brutal_kill'")
        crossing.shutdown = SHUTDOWN_CODES.index("after")
        crossing.time = number(f"{field}.shutdown", shutdown, 0, U64)
    crossing.elsewhere = flag(f"{field}.elsewhere", elsewhere)
    return crossing


def c_children(children: Sequence[ChildSpec]) -> c.Array[CChildSpec]:
    """What supervisors know of their children, as it crosses."""
    try:
        given = list(children)
    except TypeError:
        raise TypeError(f"children is {shown(children)}, and must be a sequence of type ChildSpec") from None
    crossing = [c_child(f"children[{place}]", child) for place, child in enumerate(given)]
    return (CChildSpec * len(crossing))(*crossing)


def c_spec(field: str, spec: SupervisorSpec) -> CSupervisorSpec:
    """A supervisor without its children, as it crosses."""
    strategy, most, span, timed, parent = of_type(field, spec, SupervisorSpec)
    crossing = CSupervisorSpec(
        STRATEGIES.index(one_of(f"{field}.strategy", strategy, STRATEGIES)), flag(f"{field}.timed", timed),
        most=number(f"{field}.most", most, 0, U64), span=number(f"{field}.span", span, 0, U64))
    if parent is not None:
        crossing.has_parent, crossing.parent = True, c_pid(f"{field}.parent", parent)
    return crossing


def child_of(child: CChild) -> Child:
    """A child, as it came across."""
    shutdown: Shutdown = ("infinity", child.time, "brutal_kill")[child.shutdown]
    return Child(pid_of(child.pid) if child.has_pid else None, RESTARTS[child.restart], shutdown, child.wanted)


def counts_of(counts: CChildCounts) -> ChildCounts:
    """How many children a supervisor has, as it came across."""
    return ChildCounts(counts.specs, counts.active, counts.restarting)


def cause_of(cause: CGaveUp) -> GaveUp:
    """Why a supervisor gave up, as it came across."""
    return GaveUp(cause.tag, cause.place, reason_of(cause.reason), cause.restarts, cause.span, cause.timed)
