"""A line whose both ends a test speaks for: what a case decides is tried without a venue, a desk or a second of waiting."""

from __future__ import annotations

from collections.abc import Callable
from contextlib import AbstractContextManager
from types import SimpleNamespace
from typing import Any, cast

import pytest
from mireseason_certify.draw import Draw
from mireseason_certify.frames import Message, message_of, written
from mireseason_certify.played import PlayedFirm
from mireseason_certify.relay import By, Fits, Relay, Seen
from mireseason_certify.stage import Failed, Stage
from mireseason_certify.telling import Telling

DESK = "TESTDESK"
AGAIN = ((43, "Y"), (122, "20261127-12:00:00.000"))


def message(kind: str, fields: dict[int, str], number: int = 1, again: bool = False) -> Message:
    return message_of(written(kind, DESK, number, [*fields.items()], AGAIN if again else ()))


class Line:
    """Stands for the relay."""

    port = 7

    def __init__(self) -> None:
        self.seen: list[Seen] = []
        self.did: list[str] = []
        self.is_up = True
        self.logons: list[float] = []  # the pauses before them
        self.losses: list[tuple[By, Fits]] = []

    def say(
        self,
        by: By,
        kind: str,
        fields: dict[int, str] | None = None,
        number: int = 1,
        *,
        again: bool = False,
        moment: float = 0.0,
        at: int = 1,
    ) -> Message:
        said = message(kind, fields or {}, number, again)
        loss = next((one for one in self.losses if one[0] is by and one[1](said)), None)
        if loss:
            self.losses.remove(loss)
        self.seen.append(Seen(by, said, moment, at, loss is not None))
        return said

    def desk(self, kind: str, fields: dict[int, str] | None = None, number: int = 1) -> Message:
        return self.say(By.DESK, kind, fields, number)

    def venue(self, kind: str, fields: dict[int, str] | None = None, number: int = 1) -> Message:
        return self.say(By.VENUE, kind, fields, number)

    def count(self) -> int:
        return len(self.seen)

    def since(self, place: int) -> list[Seen]:
        return self.seen[place:]

    def wait(self, by: By, fits: Fits, place: int, _: float) -> Seen | None:
        found = (one for one in self.seen[place:] if one.by is by and fits(one.message))
        return next((one for one in found if by is By.DESK or not one.is_lost), None)

    def has_line(self, number: int = 0) -> bool:
        return self.is_up and number in (0, 1)

    def pauses(self, _: int) -> list[float]:
        return self.logons

    def lose(self, by: By, fits: Fits) -> None:
        self.losses.append((by, fits))

    def has_lost(self) -> bool:
        return not self.losses

    def __getattr__(self, name: str) -> Callable[..., None]:
        """`cut`, `refuse`, `hold` and the others are noted."""
        return lambda *words: self.did.append(" ".join([name, *map(str, words)]))


class Developer(Telling):
    """Does what `acts` has for a task, by what the task is to do; what it enters stands in `enters`."""

    def __init__(self) -> None:
        super().__init__(quiet=True)
        self.acts: dict[str, Callable[[dict[str, str]], object]] = {}
        self.tasks: list[str] = []
        self.enters: list[str | None] = []

    def say(
        self, case: str, text: str, act: Any, asks: bool = False, may_refuse: bool = False
    ) -> None:
        super().say(case, text, act, asks, may_refuse)
        self.tasks.append(text)
        if act["do"] in self.acts:
            self.acts[act["do"]](act)

    def answer(self, seconds: float, is_over: Callable[[], bool] = lambda: False) -> str | None:
        return self.enters.pop(0)


class Played:
    """Stands for a firm that is played: it is answered at once."""

    def __init__(self, name: str) -> None:
        self.who = SimpleNamespace(name=name, trader="T01")
        self.sent: list[tuple[str, dict[int, str]]] = []
        self.got: list[Message] = []
        self.did: list[str] = []

    def send(self, kind: str, fields: list[tuple[int, str]]) -> None:
        self.sent.append((kind, dict(fields)))

    def count(self) -> int:
        return len(self.got)

    def wait(self, what: str, fits: Fits, place: int = 0, seconds: float = 0.0) -> Message:
        return next((one for one in self.got[place:] if fits(one)), message("AI", {}))

    def __getattr__(self, name: str) -> Callable[..., None]:
        return lambda *words: self.did.append(" ".join([name, *map(str, words)]))


class Script:
    """A stage, and who is on it."""

    def __init__(self, role: str = "dealer", seed: int = 1) -> None:
        self.line, self.developer = Line(), Developer()
        self.orders: list[str] = []
        self.dealers = [Played(name) for name in ("ELGIN", "CALDER", "HARLOW")]
        self.investors = [Played("MERLIN")]
        draw = Draw(seed)
        who = draw.cast(DESK, role)
        venue = SimpleNamespace(cast=who, order=self.order, kill=self.order, start=self.order)
        self.password = who.desk.password
        self.stage = Stage(
            cast(Relay, self.line),
            cast(Any, venue),
            draw,
            self.developer,
            cast(list[PlayedFirm], self.dealers),
            cast(list[PlayedFirm], self.investors),
            0.01,
        )

    def order(self, *words: str) -> str:
        self.orders.append(" ".join(words))
        return ""

    def logon(self, number: int = 1, **more: str) -> Message:
        """The desk's, as it was told, but for fields that are named `_49`."""
        fields = {49: DESK, 553: DESK, 554: self.password, 1137: "9", 98: "0", 108: "10"}
        fields |= {int(name[1:]): value for name, value in more.items()}
        data = written("A", fields.pop(49), number, [*fields.items()])
        target = more.get("_56", "VENUE").encode()
        said = message_of(data.replace(b"56=VENUE", b"56=" + target))
        self.line.seen.append(Seen(By.DESK, said, 0.0, 1))
        return said

    def is_let_in(self) -> None:
        """The venue answers the Logon, and the desk its TestRequest."""
        self.line.venue("A")
        self.line.venue("1", {112: "t"})
        self.line.desk("0", {112: "t"})


def fails(words: str) -> AbstractContextManager[object]:
    """The case has to fail, with these words."""
    return pytest.raises(Failed, match=words)
