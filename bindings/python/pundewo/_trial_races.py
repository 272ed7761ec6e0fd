"""Which moves of a run meet, and in which order they would be tried as well: the races that source sets are made of."""

from __future__ import annotations

from typing import NamedTuple, Optional

from ._trial_engine import Effect, Key


class Made(NamedTuple):
    """A move that was made, and of each key how many moves of the run come before it in every order, up to the last one."""

    key: Optional[Key]
    effect: Effect
    before: dict[Optional[Key], int]
    # the moves that might have been made in its place
    ready: frozenset[Optional[Key]]


class Race(NamedTuple):
    """A race: the place of a move, the moves that may come in its place so that it comes behind the other one, and that one."""

    at: int
    first: list[Optional[Key]]
    last: Optional[Key]


class Line:
    """The moves of the run that is made, each behind the ones before it."""

    def __init__(self) -> None:
        self.made: list[Made] = []

    def push(self, key: Optional[Key], effect: Effect, ready: frozenset[Optional[Key]]) -> list[Race]:
        """Notes a move, and returns its races: moves of others that it meets, with nothing between them in their order."""
        before: dict[Optional[Key], int] = {}
        enabler, races = self._enabler(key), []
        for at in range(len(self.made) - 1, -1, -1):
            made = self.made[at]
            if before.get(made.key, 0) > at:
                continue
            # (what comes behind a rest of all comes behind all that was before it)
            is_rested = made.effect.rested != effect.rested
            if is_rested or at == enabler or made.key == key or made.effect.meets(effect):
                for of, count in made.before.items():
                    before[of] = max(before.get(of, 0), count)
                if not is_rested and made.key != key:
                    races.append(at)
        before[key] = len(self.made) + 1
        self.made.append(Made(key, effect, before, ready))
        return [self._race(at) for at in races]

    def _enabler(self, key: Optional[Key]) -> int:
        """The place of the move by which this one was there, if that is not another one of the same key; or -1."""
        at = len(self.made)
        while at > 0 and key in self.made[at - 1].ready and self.made[at - 1].key != key:
            at -= 1
        return at - 1

    def _is_before(self, first: int, then: int) -> bool:
        """Whether one move comes before another in every order."""
        return self.made[then].before.get(self.made[first].key, 0) > first

    def _race(self, at: int) -> Race:
        """The race of a move with the last one: what does not come behind the first of both may come in its place."""
        last, first, seen = len(self.made) - 1, list[Optional[Key]](), list[int]()
        for then in range(at + 1, last + 1):
            if then < last and self._is_before(at, then):
                continue
            if not any(self._is_before(it, then) for it in seen):
                first.append(self.made[then].key)
            seen.append(then)
        return Race(at, first, self.made[last].key)
