"""Asks a program, or the model, for what has to hold between its commands, on days that are drawn.

For every day of `live` and every firm: `replay --live FIRM` prints what `live` printed of that firm;
`due --live FIRM` (with `--investor` of an investor) and then `alone` print it too; `dues --live` prints
the former of each dealer; each `clock` line is its `expire` lines; what `due` writes is read back as the
same list; and after each line there is one mark.
"""

import re
import subprocess
from collections.abc import Callable, Iterator

from .compare import head, joined, model_answer
from .days import Day
from .investor_lines import investor_text, read_investor_text
from .lines import due_text, read_due_text
from .replay import seen_by

Answer = tuple[int, bytes, bytes]
Ask = Callable[[list[str], bytes], Answer]


def asker(program: list[str] | None) -> Ask:
    if program is None:
        return model_answer
    first = program

    def of_program(words: list[str], data: bytes) -> Answer:
        run = subprocess.run([*first, *words], input=data, capture_output=True)
        return run.returncode, run.stdout, run.stderr

    return of_program


def of_firm(lines: list[bytes], firm: bytes) -> list[bytes]:
    return [line for line in lines if line.startswith(firm + b" ")]


def with_expire_lines(day: Day, steps: bytes) -> bytes:
    """The steps with the `expire` lines of each room in the place of each `clock` line."""
    lines = []
    for line in steps.split(b"\n"):
        found = re.fullmatch(rb"clock ([0-9:.]+)", line)
        if found is None:
            lines.append(line)
            continue
        firms = day.configuration.firms
        lines += [
            b"expire %s %d %s" % (firms[firm].name, n, found.group(1))
            for firm, n in day.configuration.rooms()
        ]
    return b"\n".join(lines)


def broken(day: Day, ask: Ask) -> Iterator[str]:
    """The laws that this day breaks."""
    steps = (
        b"\n".join(line for line in day.lines if not line.startswith(b"turn "))
        + b"\nno line of a day\n# none\n"
    )
    data, marked = joined(head(day), steps), steps.count(b"\n")
    status, out, told = ask(["live", "--marks", "--frames"], data)
    lines = out.splitlines()
    if status != 0 or sum(line.startswith((b"done ", b"fault ")) for line in lines) != marked:
        yield "one mark behind each line"
    if ask(["live", "--frames"], data) != (
        0,
        b"".join(line + b"\n" for line in lines if not line.startswith((b"done ", b"fault "))),
        told,
    ):
        yield "what the marks are left out of"
    if ask(["replay", "--frames"], joined(head(day), with_expire_lines(day, day.text()))) != ask(
        ["replay", "--frames"], joined(head(day), day.text())
    ):
        yield "clock is its expire lines"
    unswept = joined(head(day), with_expire_lines(day, steps))
    texts = []
    for row in day.configuration.firms:
        wanted, name = (
            b"".join(line + b"\n" for line in of_firm(lines, row.name)),
            row.name.decode(),
        )
        if ask(["replay", "--live", name, "--frames"], data) != (0, wanted, told):
            yield "replay --live %s" % name
        if ask(["replay", "--live", name, "--frames"], unswept)[1] != wanted:
            yield "clock is its expire lines to %s" % name
        is_dealer = row in day.configuration.dealers
        due = ask(
            ["due", "--live", name] if is_dealer else ["due", "--live", "--investor", name], data
        )
        if is_dealer:
            texts.append(due[1])
        if due[::2] != (0, told) or ask(["alone", "--frames"], due[1]) != (0, wanted, b""):
            yield "due --live %s, and then alone" % name
    if ask(["dues", "--live"], data) != (0, b"".join(texts), told):
        yield "dues --live is that of each dealer"


def unread(day: Day) -> Iterator[str]:
    """Due lists of the model whose text is read back as another."""
    for firm, row in enumerate(day.configuration.dealers):
        due = day.venue.due[firm]
        if read_due_text(list(due_text(day.configuration.date, row, due)), 1) != (
            day.configuration.date,
            row,
            due,
        ):
            yield "the due text of %s" % row.name.decode()
    for firm in day.investors():
        due, seen = day.venue.due[firm], seen_by(day.configuration, firm)
        if read_investor_text(tuple(investor_text(seen, due)), 1) != (seen, due):
            yield "the due text of %s" % day.configuration.firms[firm].name.decode()
