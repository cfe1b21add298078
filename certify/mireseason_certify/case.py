"""A case: its name, what it tries, what it needs, and how it is played."""

from __future__ import annotations

from collections.abc import Callable, Mapping, Sequence
from dataclasses import dataclass

from .stage import Stage

Play = Callable[[Stage], None]


@dataclass(frozen=True)
class Case:
    """One thing that a desk has to be able to do."""

    name: str
    title: str
    play: Play
    needs: Sequence[str]  # the cases without which this one shows nothing
    is_of_session: bool


class Cases:
    """Those of one kind, in the order in which they are written."""

    def __init__(self, is_of_session: bool = False) -> None:
        self.all: list[Case] = []
        self._is_of_session = is_of_session

    def __call__(self, title: str, needs: Sequence[str] = ()) -> Callable[[Play], Play]:
        """Adds the function as a case of its name."""

        def add(play: Play) -> Play:
            name = play.__name__.replace("_", "-")
            self.all.append(Case(name, title, play, needs, self._is_of_session))
            return play

        return add


def depth(name: str, known: Mapping[str, Case]) -> int:
    """How many cases have to come before this one, each behind the one before."""
    return max((1 + depth(one, known) for one in known[name].needs), default=0)


def with_needs(names: Sequence[str], known: Mapping[str, Case]) -> set[str]:
    """These cases, and all that they need."""
    found = set(names)
    for name in names:
        found |= with_needs(known[name].needs, known)
    return found
