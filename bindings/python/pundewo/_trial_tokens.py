"""Values that a run of a trial counts."""

from __future__ import annotations

from typing import NamedTuple


class Tokens(NamedTuple):
    """How many tokens of a run were made, how many of them were handled, and how many were dropped without that."""

    made: int
    handled: int
    dropped: int

    def kept(self) -> int:
        """How many are still somewhere."""
        return self.made - self.handled - self.dropped


class Counts:
    """What became of the tokens of a run."""

    def __init__(self) -> None:
        self.made = self.handled = self.dropped = self.again = 0

    def tokens(self) -> Tokens:
        return Tokens(self.made, self.handled, self.dropped)


class Token:
    """A value that a run counts, as `World.token` makes it: in a message, in a behaviour or in an answer it says whether that was
    handled, and how often, or dropped. Nothing refers to a token any more as it is dropped. A copy is another token."""

    __slots__ = ("_counts", "_is_handled")

    def __init__(self, counts: Counts):
        self._counts, self._is_handled = counts, False
        counts.made += 1

    def handle(self) -> None:
        """Says that it has come to where it was to come. RuntimeError if it was handled before, and then the run is wrong."""
        if self._is_handled:
            self._counts.again += 1
            raise RuntimeError("this token was handled before")
        self._is_handled = True
        self._counts.handled += 1

    def __copy__(self) -> Token:
        return Token(self._counts)

    def __deepcopy__(self, memo: object) -> Token:
        return Token(self._counts)

    def __del__(self) -> None:
        if not self._is_handled:
            self._counts.dropped += 1

    def __repr__(self) -> str:
        return f"<Token, {'handled' if self._is_handled else 'not handled'}>"
