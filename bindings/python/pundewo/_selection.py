"""What a process takes now of what it is told.

What the library can choose it chooses: a pick is its own, and so is a selection of one kind of messages (`Selection.pick`).
"""

from __future__ import annotations

from typing import TYPE_CHECKING, Any, Callable, NamedTuple, Optional, Union

from .values import Pick, _Checked, flag, number, shown, unchecked

if TYPE_CHECKING:
    from ._behaviour import Message, Request

# The kinds that messages have in a history: a message, an answer, a request. From FIRST_KIND on: a message or a request whose
# behaviour gives it a kind of its own, unless that is 0. From NEWS on: the news, under its number, that a process could not be
# monitored or called since it had exited.
MESSAGE, ANSWER, REQUEST, FIRST_KIND = 1, 2, 3, 16
MOST_KIND = 2**16 - 1
NEWS = FIRST_KIND + MOST_KIND + 1

# What is chosen of messages and requests: those of these kinds, those whose values are of these types, or those of which this
# returns something true.
Chooses = Callable[["Union[Message, Request]"], object]
Wants = Union[int, type, "tuple[Union[int, type], ...]", Chooses]

# (a kind that no letter has)
NOTHING = Pick("kind", 0)


def letter(kind: object, plain: int) -> int:
    """The kind that a message or a request has in the table: this one if the behaviour's own is 0."""
    own = number("Behaviour.kind", kind, 0, MOST_KIND)
    return FIRST_KIND + own if own else plain


class _Selection(NamedTuple):
    wants: Wants
    downs: bool
    exits: bool
    answers: bool
    but: bool


class Selection(_Checked, _Selection):
    """What a process takes now: a pattern of Erlang's `receive`. All else waits, in order: see `Next.only`.

    `wants` chooses among messages and requests: a kind (`Behaviour.kind`), a type of their values, or a tuple of kinds and
    types, of which one has to fit. `Message` fits each message, and `Request` each request. Or it is a function, which gets a
    message or a request and returns whether it is taken. News of monitors, exit signals and answers of calls are chosen apart
    from them. With `but` all messages and requests are taken but those that fit.
    """

    __slots__ = ()

    def __new__(cls, wants: Wants, downs: bool = False, exits: bool = False, answers: bool = False,
                but: bool = False) -> Selection:
        return unchecked(cls, (
            wants_of(wants), flag("downs", downs), flag("exits", exits), flag("answers", answers), flag("but", but)))

    @classmethod
    def all_but(cls, wants: Wants, downs: bool = True, exits: bool = True, answers: bool = True) -> Selection:
        """It takes all but the messages and requests that fit."""
        return cls(wants, downs, exits, answers, True)

    def pick(self) -> Optional[Pick]:
        """What the library is to hand out, if it can choose alone; else None."""
        wants = self.wants if isinstance(self.wants, tuple) else (self.wants,)
        if self.downs or self.exits or self.answers or self.but:
            return None
        if not wants:
            return NOTHING
        kind = wants[0]
        # (messages and requests of the kind 0 have two kinds in the table)
        return Pick("kind", FIRST_KIND + kind) if len(wants) == 1 and isinstance(kind, int) and kind else None


def is_function(wants: object) -> bool:
    """Whether it is a function that chooses."""
    return callable(wants) and not isinstance(wants, type)


def wants_of(value: Any) -> Any:
    """The value, which chooses."""
    if not is_function(value):
        for part in value if isinstance(value, tuple) else (value,):
            if not isinstance(part, (type, int)) or isinstance(part, bool):
                raise TypeError(f"wants is {shown(value)}, and must be a kind, a type, a tuple of them, or a function")
            if isinstance(part, int):
                number("wants", part, 0, MOST_KIND)
    return value


# What a process waits for.
Waits = Union[Pick, Selection]
