#!/usr/bin/env python3
"""Compares a program with the model: status, output and standard error on drawn inputs.

usage: compare.py [--notes] PROGRAM INPUTS [FIRST_SEED [PROCESSES]]
       compare.py --write SEED  writes the inputs of a seed to the working directory

A seed has one or more inputs. The first that differs is written to the working directory, as SEED-N.in and its
words, beside both answers; the status is then 1. With --notes it tries only the commands that have that flag, each
with it, and INPUTS counts those of each of them: of `alone`, of `live` and of `replay --live`.
"""

from __future__ import annotations

import collections
import io
import multiprocessing
import os
import re
import subprocess
import sys
import traceback
from collections.abc import Sequence
from typing import TYPE_CHECKING

from . import faults
from . import main as model
from .days import Day, Draw
from .investor_lines import investor_text
from .investor_lists import MadeUpInvestor
from .lines import due_text
from .replay import seen_by
from .venue_command import words_of

if TYPE_CHECKING:
    from .configuration import Dealer, Investor

Input = tuple[list[str], bytes]  # arguments, and standard input
Answer = tuple[int, bytes, bytes]  # status, output, standard error
Difference = tuple[
    int, list[str], bytes, Answer, Answer
]  # an input by its number, and both answers to it

# ---------------------------------------------------------------- the inputs of a seed


def inputs(seed: int) -> list[Input]:
    """Pairs of arguments and standard input."""
    draw = Draw(seed)
    kinds = (
        [a_day] * 10
        + [two_days] * 2
        + [due_list] * 3
        + [investor_list] * 2
        + [made_up] * 4
        + [spoilt] * 3
        + [configurations] * 2
        + [streams] * 2
        + [rarely]
    )
    return draw.choice(kinds)(draw)


def noted_inputs(seed: int) -> list[tuple[list[str], bytes]]:
    """The same of the commands that have --notes, each with it; about as many of each."""
    draw = Draw(seed)
    kinds = (
        [noted_day] * 6
        + [due_list] * 3
        + [investor_list] * 2
        + [made_up] * 2
        + [spoilt] * 2
        + [streams]
    )
    return [
        (with_notes(words), data) for words, data in draw.choice(kinds)(draw) if has_notes(words)
    ]


def joined(*parts: bytes) -> bytes:
    return b"\n%%\n".join(parts)


def ended(draw: Draw, data: bytes) -> bytes:
    """With a line feed at its end, or without."""
    return data + bytes(draw.of(b"\n", b"\n", b""))


def head(day: Day) -> bytes:
    return "\n".join(day.head).encode()


def firm_word(draw: Draw, day: Day, dealer: bool = False) -> str:
    """A firm of the day, for the most part."""
    return (
        word_among(draw, day.configuration.dealers)
        if dealer
        else word_among(draw, day.configuration.firms)
    )


def investor_words(draw: Draw, day: Day) -> list[str]:
    """The words that name an investor of the day, for the most part."""
    words = ["--investor", word_among(draw, day.configuration.investors)]
    return words if draw.chance(0.8) else words[::-1]


def word_among(draw: Draw, rows: Sequence[Dealer | Investor]) -> str:
    if not rows or draw.chance(0.02):
        return str(draw.of("NOBODY", "CLOCK", "INV1", "DLR1", "DLR99"))
    return draw.choice(rows).name.decode()


def commands(draw: Draw, day: Day) -> list[list[str]]:
    """Some commands that read a day."""
    all_of_them = [
        ["replay"],
        ["replay", firm_word(draw, day)],
        ["replay", "--frames"],
        ["dues"],
        ["due", firm_word(draw, day, True)],
        ["blotter", firm_word(draw, day)],
        ["due", *investor_words(draw, day)],
    ]
    return draw.sample(all_of_them, draw.of(2, 3, 5))


def a_day(draw: Draw) -> list[Input]:
    day = Day(draw)
    data = ended(draw, joined(head(day), day.text()))
    found = [(words, data) for words in commands(draw, day)]
    if draw.chance(0.3):
        found.append((live_words(draw), without_turns(draw, data)))
    if draw.chance(0.3):
        found += [(words, without_turns(draw, data)) for words in audits(draw, day)]
    return found


def noted_day(draw: Draw) -> list[tuple[list[str], bytes]]:
    """A day as `live` answers it, and as `replay --live` prints it of all firms and of one."""
    day = Day(draw)
    data = ended(draw, joined(head(day), without_turns(draw, day.text())))
    after = [
        ["replay", "--live"],
        ["replay", firm_word(draw, day), "--live"],
        ["replay", "--live", "--frames"],
    ]
    return [(live_words(draw), data), (draw.choice(after), data)]


def live_words(draw: Draw) -> list[str]:
    return ["live"] + draw.sample(["--marks", "--frames"], draw.randint(0, 2))


def audits(draw: Draw, day: Day) -> list[list[str]]:
    """Commands that read a day of `live`."""
    found = [
        ["replay", "--live"],
        ["replay", firm_word(draw, day), "--live"],
        ["replay", "--live", "--frames"],
        ["dues", "--live"],
        ["due", firm_word(draw, day, True), "--live"],
        ["blotter", "--live", firm_word(draw, day)],
        ["due", "--live", *investor_words(draw, day)],
    ]
    return draw.sample(found, draw.of(1, 2, 3))


def without_turns(draw: Draw, data: bytes) -> bytes:
    """For the most part without the lines `turn`, which the answer line by line has no use for."""
    return (
        data
        if draw.chance(0.05)
        else b"\n".join(line for line in data.split(b"\n") if not line.startswith(b"turn "))
    )


def two_days(draw: Draw) -> list[Input]:
    """A day against itself with something changed, or against another of the same firms."""
    day = Day(draw, length=draw.randint(1, 40))
    first, second = day.text(), day.text()
    other = head(day)
    if draw.chance(0.3):
        second = Day(draw, lines=day.head).text()
    elif draw.chance(0.8):
        lines = second.split(b"\n")
        place = draw.randrange(len(lines))
        what = draw.randrange(4)
        if what == 0:
            del lines[place]
        elif what == 1:
            lines.insert(place, lines[draw.randrange(len(lines))])
        elif what == 2:
            lines[place] = re.sub(rb"(13[23]=)[0-9.]+", rb"\g<1>99.5", lines[place])
        else:
            lines = lines[:place]
        second = b"\n".join(lines)
    if draw.chance(0.3):
        other = re.sub(
            rb"exposure = [0-9]+",
            b"exposure = %d" % draw.of(5, 2_000_000),
            other,
            count=draw.of(0, 1),
        )
    data = ended(draw, joined(head(day), first, other, second))
    words = (
        ["compare", firm_word(draw, day, True)]
        if draw.chance(0.7)
        else ["compare", *investor_words(draw, day)]
    )
    if draw.chance(0.4):
        return [(words + ["--live"], data if draw.chance(0.1) else without_turns(draw, data))]
    return [(words, data)]


def due_list(draw: Draw) -> list[Input]:
    """What was due to a dealer of a day, as it was or with something changed."""
    day = Day(draw)
    if not day.configuration.dealers:
        return []
    dealer = draw.choice(day.dealers())
    configuration = day.configuration
    data = b"\n".join(
        due_text(configuration.date, configuration.dealer(dealer), day.venue.due[dealer])
    )
    found: list[Input] = [
        (["alone"], data + b"\n"),
        (["alone", "--frames"], data),
        ([], ended(draw, faults.spoilt_input(draw, data))),
    ]
    return draw.sample(found, draw.of(1, 2))


def investor_list(draw: Draw) -> list[Input]:
    """The same of an investor."""
    day = Day(draw)
    if not day.configuration.investors:
        return []
    investor = draw.choice(day.investors())
    data = b"\n".join(investor_text(seen_by(day.configuration, investor), day.venue.due[investor]))
    found: list[Input] = [
        (["alone"], data + b"\n"),
        (["alone", "--frames"], data),
        ([], ended(draw, faults.spoilt_input(draw, data))),
    ]
    return draw.sample(found, draw.of(1, 2))


def made_up(draw: Draw) -> list[Input]:
    data = faults.MadeUp(draw).text() if draw.chance(0.6) else MadeUpInvestor(draw).text()
    found = [(draw.of(["alone"], [], ["alone", "--frames"]), ended(draw, data))]
    if draw.chance(0.5):
        found.append((["alone"], ended(draw, faults.spoilt_input(draw, data))))
    return found


def spoilt(draw: Draw) -> list[Input]:
    """A lawful input with some bytes, words or lines changed."""
    day = Day(draw, length=draw.randint(1, 20))
    found = []
    for _ in range(3):
        steps = day.text()
        if draw.chance(0.1):
            steps += b"\n" + faults.exact_frames(draw, day)
        steps = faults.spoilt_input(draw, steps)
        top = head(day) if draw.chance(0.9) else faults.spoilt_input(draw, head(day))
        words = draw.of(
            ["replay"],
            ["replay"],
            ["replay"],
            ["due", firm_word(draw, day, True)],
            live_words(draw),
            ["blotter", firm_word(draw, day)],
        )
        if draw.chance(0.3):
            words = draw.choice(audits(draw, day))
        found.append((words, ended(draw, joined(top, steps))))
    return found


def configurations(draw: Draw) -> list[Input]:
    day, found = Day(draw, length=2), []
    for _ in range(4):
        lines = (
            faults.crowded_configuration(draw)
            if draw.chance(0.05)
            else faults.spoilt_configuration(draw)
        )
        data = joined("\n".join(lines).encode(), day.text() if draw.chance(0.3) else b"")
        found.append(
            (draw.of(["replay"], ["replay", "DLR1"], ["live"], ["due", "DLR1"]), ended(draw, data))
        )
    return found


def streams(draw: Draw) -> list[Input]:
    """Streams in pieces, lawful or not."""
    top, found = "\n".join(faults.STREAM_FIRMS).encode(), []
    for _ in range(3):
        words = draw.of(
            ["replay"], ["replay"], live_words(draw), ["due", "DLR1"], ["replay", "--frames"]
        )
        found.append((words, ended(draw, joined(top, faults.stream_lines(draw)))))
    return found


def rarely(draw: Draw) -> list[Input]:
    day = Day(draw, length=3)
    parts = [head(day), day.text()] * draw.of(0, 1, 2, 3) + draw.of([], [b""], [b"x"])
    words = draw.of(
        ["replay"],
        ["alone"],
        ["compare", "DLR1"],
        ["due", "DLR1"],
        live_words(draw),
        ["blotter", "INV1"],
    )
    if words[0] in ("replay", "compare", "due", "blotter") and draw.chance(0.5):
        words = words + ["--live"]
    found = [
        (words, ended(draw, joined(*parts))),
        (draw.choice(faults.WRONG_ARGUMENTS), joined(head(day), day.text())),
    ]
    if draw.chance(0.01):
        data = b"#" * draw.of(16_777_215, 16_777_216, 16_777_217)
        found.append((draw.of(["alone"], ["replay"]), data))
    return found


# ---------------------------------------------------------------- both answers

NOTED_COMMANDS = ("alone", "live", "replay --live")  # those that have --notes
NOTED = "with --notes: "  # before the command in the count behind a run


def model_answer(words: list[str], data: bytes) -> tuple[int, bytes, bytes]:
    out, err = io.BytesIO(), io.BytesIO()
    texts = [os.fsdecode(word) for word in words]
    status = model.run(texts, io.BytesIO(data), out, err)
    return status, out.getvalue(), err.getvalue()


def program_answer(program: list[str], words: list[str], data: bytes) -> tuple[int, bytes, bytes]:
    run = subprocess.run([*program, *words], input=data, capture_output=True)
    return run.returncode, run.stdout, run.stderr


def same(mine: tuple[int, bytes, bytes], other: tuple[int, bytes, bytes]) -> bool:
    """Whether both answers are equal; what is said of wrong arguments is not held against one another."""
    return mine == other or (mine[0] == 2 and mine[:2] == other[:2])


def kinds_of(words: list[str], answer: tuple[int, bytes, bytes]) -> collections.Counter[str]:
    """What kinds of answers there are: for the count behind a run."""
    status, out, err = answer
    kinds = collections.Counter(
        {
            "%s, status %d"
            % (words[0] if words and words[0] in model.COMMANDS else "other", status): 1
        }
    )
    if "--live" in words and status == 0:
        kinds["%s --live" % words[0]] += 1
    for line in err.decode(errors="replace").splitlines() if status != 2 else []:
        kinds[
            "fault " + re.sub(r"line \d+", "line K", line)
            if not line.startswith("firm")
            else "fault firm"
        ] += 1
    if words and words[0] in ("replay", "live") or not words or words[0] == "alone":
        for said in out.splitlines():
            if "--notes" in words and said.startswith((b"why ", b"trade ")):
                kinds[noted_kind(said)] += 1
                continue
            parts = said.decode(errors="replace").split(" ", 4)
            if parts[0] in ("done", "fault") and "--marks" in words:
                kinds["mark %s, %d words" % (parts[0], len(said.split()))] += 1
            elif len(parts) == 5 and parts[1].isdigit():
                tags = re.findall(r"(?:^|\|)((?:297|300|58|658|694|371|373)=[^|]*)", parts[4])
                kinds["%s %s" % (parts[3], " ".join(tags))] += 1
    return kinds


def has_notes(words: list[str]) -> bool:
    """Whether the command of the words has the flag --notes."""
    return (
        not words or words[0] in ("alone", "live") or (words[0] == "replay" and "--live" in words)
    )


def with_notes(words: list[str]) -> list[str]:
    """The words with --notes."""
    return [*(words or ["alone"]), "--notes"]


def noted_command(words: list[str]) -> str:
    """Which of the commands that have --notes the words are."""
    return "replay --live" if words[0] == "replay" else words[0]


def noted_kind(line: bytes) -> str:
    """A reason, or a trade, by its number."""
    word, _, _, name = line.decode().split(" ")
    return "why %s" % name if word == "why" else "trade %s" % name.rsplit("-", 1)[1]


def compared(
    work: tuple[list[str], int, bool]
) -> tuple[int, Difference | str | None, int, collections.Counter[str]]:
    """The first difference of a seed's inputs, if any; how many there are; the kinds of their answers."""
    program, seed, notes = work
    count, kinds = 0, collections.Counter[str]()
    try:
        for number, (words, data) in enumerate(noted_inputs(seed) if notes else inputs(seed), 1):
            mine, count = model_answer(words, data), count + 1
            kinds += kinds_of(words, mine)
            if notes:
                kinds[NOTED + noted_command(words)] += 1
            other = program_answer(program, words, data)
            if mine != other and b"config: Toml\n" in (mine[2], other[2]):
                kinds[
                    "TOML that one reader takes and the other not: seed %d, input %d"
                    % (seed, number)
                ] += 1
            elif not same(mine, other):
                return seed, (number, words, data, mine, other), count, kinds
    except Exception:
        return seed, traceback.format_exc(), count, kinds
    return seed, None, count, kinds


def report(seed: int, difference: Difference | str) -> str:
    if isinstance(difference, str):
        return "seed %d: the model fails\n%s" % (seed, difference)
    number, words, data, mine, other = difference
    with open("%d-%d.in" % (seed, number), "wb") as file:
        file.write(data)
    text = "seed %d, input %d, written to %d-%d.in: %r\n" % (seed, number, seed, number, words)
    for name, answer in (("model", mine), ("program", other)):
        text += "%s: status %d, %d bytes, standard error %r\n" % (
            name,
            answer[0],
            len(answer[1]),
            answer[2][:300],
        )
    for position, (a, b) in enumerate(zip(mine[1].split(b"\n"), other[1].split(b"\n")), 1):
        if a != b:
            return text + "line %d\n  model   %r\n  program %r" % (position, a, b)
    return text


def write_inputs(seed: int) -> None:
    for number, (words, data) in enumerate(inputs(seed), 1):
        with open("%d-%d.in" % (seed, number), "wb") as file:
            file.write(data)
        print("%d-%d.in: %r" % (seed, number, words))


def main() -> None:
    words = sys.argv[1:]
    notes = words[0] == "--notes"
    words = words[notes:]
    if words[0] == "--write":
        return write_inputs(int(words[1]))
    program, wanted = words_of(words[0]), int(words[1])
    first = int(words[2]) if len(words) > 2 else 1
    processes = int(words[3]) if len(words) > 3 else 1
    total, kinds = 0, collections.Counter[str]()
    with multiprocessing.Pool(processes) as pool:
        seeds = ((program, seed, notes) for seed in range(first, 2**62))
        for seed, difference, count, found in pool.imap(compared, seeds, 16):
            if total // 1000 < (total + count) // 1000:
                print(
                    "%d inputs, up to seed %d" % (total + count, seed), file=sys.stderr, flush=True
                )
            total += count
            kinds += found
            done = min(kinds[NOTED + command] for command in NOTED_COMMANDS) if notes else total
            if difference:
                pool.terminate()
                sys.exit(
                    report(seed, difference) + "\n%d inputs, seeds %d to %d" % (total, first, seed)
                )
            if done >= wanted:
                pool.terminate()
                break
    for kind, count in sorted(kinds.items()):
        print("%8d %s" % (count, kind))
    print("%d inputs, seeds %d to %d: no difference" % (total, first, seed))
    return None


if __name__ == "__main__":
    main()
