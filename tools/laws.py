#!/usr/bin/env python3
"""Makes the tables of laws in docs/PROOFS.md from the comments of the laws' own functions, and those of
definitions from the comments of these.

    tools/laws.py            writes the tables between the page's marks
    tools/laws.py --check    says whether they are not as it would write them, and ends with 1

The comment of a law has its sentence as its first paragraph, then whatever more the law says, then, where
the law does not say something that a reader may take it for, a paragraph `It ends at: ...`. Its links are
paths from the top of the repository. Of a file of definitions the first paragraph at its head is taken, of a
definition in it the comment above.
"""

from __future__ import annotations

import argparse
import re
import sys
from collections.abc import Iterator
from dataclasses import dataclass
from pathlib import Path

from made import filled, write
from promises import DOC, Clause, FileReader, head_of, in_cell
from reading_list import laws_of, lines_to_read

ROOT = Path(__file__).resolve().parent.parent
SCRIPT = "tools/laws.py"
PAGE = "docs/PROOFS.md"
ENDS = "It ends at: "
ONE_PAGE = "in one page"

# The rows of each table, in their order: a function, CRATE::FUNCTION, and others that carry the same sentence.
ROWS = {
    ONE_PAGE: (
        "laws_isolation::dealers_are_silent_to_each_other",
        "laws_isolation::presence_is_not_told_on_live_days",
        "laws_days::price_law",
        "request_room::a_room_ends_once",
        "laws_trades::both_sides_of_a_trade_agree",
        "laws_trades::an_award_is_in_time",
        "step_replay::dealers_are_sent_their_view step_replay::dealers_are_isolated",
        "investor_views::investors_are_isolated",
        "laws_wire::dealers_are_isolated_on_the_wire",
        "laws_trades::a_trade_has_a_time",
        "laws_trades::what_is_withdrawn_is_never_traded",
        "laws_shown::what_is_shown_was_quoted",
        "laws_days::each_message_in_its_turn_is_answered",
        "laws_rooms::each_response_is_answered",
        "laws_rooms::each_accepted_request_is_shown",
        "laws_rooms::a_request_is_shown_to_no_other_dealer",
        "laws_days::a_longer_log_takes_nothing_back",
        "laws_sessions::nothing_without_a_logon",
        "laws_sessions::no_message_is_counted_and_dropped",
        "laws_sessions::a_resend_comes_to_its_end",
        "laws_sessions::recovered_is_the_session",
        "laws_sessions::nothing_is_lost_or_taken_twice",
        "laws_sessions::what_left_stands",
    ),
    "the headline": (
        "step_replay::dealers_are_sent_their_view",
        "step_replay::dealers_are_isolated",
        "day_checks::dealers_are_isolated_on_threads",
        "venue_text::what_was_due_is_read_back",
        "laws_dues::what_is_due_can_be_said laws_dues::messages_have_bytes",
        "laws_dues::alone_prints_what_replay_prints",
        "venue_text::a_dealer_is_printed_what_its_desk_notes",
        "laws_days::words_are_settled_as_the_view_says",
        "laws_days::notices_come_once_after_their_requests",
        "laws_days::each_named_dealer_is_told_once",
        "laws_days::a_hit_notice_names_the_lifted_quote",
        "step_replay::no_quote_is_lifted_and_withdrawn",
        "laws_days::price_law",
        "dealer_desk::no_dealer_verdict_asks_a_price",
        "investor_desk::no_investor_verdict_asks_a_price",
        "request_room::no_step_asks_a_price",
        "laws_isolation::dealers_are_silent_to_each_other",
        "laws_isolation::a_hit_takes_a_message",
        "laws_isolation::presence_is_not_told",
        "laws_isolation::presence_is_not_told_on_live_days",
        "laws_days::settled_words_were_asked",
        "laws_days::actions_that_fail_their_tests_do_nothing",
        "laws_days::steps_meet_their_tests",
        "laws_days::a_dealers_desk_hears_no_unread_bytes",
        "laws_days::an_investors_desk_hears_no_unread_bytes",
    ),
    "investors": (
        "investor_views::investors_are_sent_their_view",
        "investor_views::investors_are_given_their_view",
        "investor_views::investors_are_isolated",
        "investor_views::investors_are_noted_their_view",
        "investor_views::notes_are_isolated",
        "investor_texts::what_was_due_to_an_investor_is_read_back",
        "laws_dues::what_is_due_to_an_investor_can_be_said",
        "laws_isolation::investors_of_a_day_are_sent_their_view",
        "laws_isolation::lists_of_a_replay_fit",
        "investor_views::desks_send_their_view",
        "laws_isolation::investors_are_isolated_on_threads",
        "laws_isolation::investors_are_apart",
    ),
    "trades": (
        "laws_trades::both_sides_of_a_trade_agree",
        "laws_trades::both_sides_of_a_trade_are_sent_it",
        "laws_trades::both_sides_of_a_trade_are_sent_it_on_threads",
        "laws_trades::a_trade_has_one_name",
        "laws_trades::a_trade_is_named_on_both_sides",
        "laws_trades::a_trade_is_printed_to_its_investor",
        "laws_trades::a_trade_is_printed_to_its_dealer",
        "laws_trades::a_trade_is_printed_under_one_name",
        "laws_days::no_duty_is_left_on_a_live_day",
        "laws_shown::what_is_shown_was_quoted",
        "laws_shown::requests_are_shown_as_written",
        "laws_shown::quotes_are_shown_as_written",
        "laws_shown::quotes_are_shown_once",
        "laws_shown::quotes_are_shown_in_order",
    ),
    "answers": (
        "laws_days::each_message_in_its_turn_is_answered",
        "laws_rooms::each_response_is_answered",
        "laws_trades::a_cancel_of_all_is_answered",
        "laws_trades::an_award_is_in_time",
        "laws_trades::an_award_names_the_best_cover",
        "laws_trades::a_trade_has_a_time",
        "laws_days::a_sweep_leaves_nothing_overdue",
        "laws_rooms::no_room_is_left_opening",
        "laws_rooms::each_accepted_request_is_shown",
        "laws_rooms::a_request_is_shown_to_no_other_dealer",
        "laws_rooms::each_answer_takes_effect_in_its_order",
        "laws_rooms::each_answer_takes_effect_on_a_live_day",
        "laws_rooms::each_quote_comes_to_its_investor",
        "laws_rooms::quotes_are_shown_as_they_took_effect",
        "laws_rooms::each_decline_comes_to_its_investor",
        "laws_rooms::answers_are_told_as_they_took_effect",
        "laws_rooms::answers_are_all_told_on_a_live_day",
        "laws_rooms::each_answer_is_told_in_its_turn",
        "laws_rooms::each_answer_is_told_on_a_live_day",
        "laws_rooms::each_quote_that_is_gone_is_reported",
        "laws_rooms::an_ended_room_is_closed_at_its_desk",
        "laws_rooms::a_closed_request_has_an_ended_room",
        "laws_rooms::each_expiry_is_told_once",
        "laws_trades::what_is_withdrawn_is_never_traded",
        "laws_days::a_longer_log_takes_nothing_back",
    ),
    "days on threads": (
        "laws_isolation::words_of_a_day_have_one_settlement",
        "day_checks::checks_decide_what_is_promised",
        "day_checks::dealers_of_a_day_are_sent_their_view",
        "recorded_days::recorded_dealers_are_sent_their_view",
        "day_weaving::orders_keep_what_is_before",
        "day_weaving::orders_are_kept_by_counting",
        "day_weaving::well_formed_days_are_not_malformed",
        "day_weaving::days_with_an_order_are_no_cycle",
    ),
    "each operation": (
        "fix_fields::frames_have_one_reading",
        "fix_fields::frame_of_is_the_reading",
        "fix_fields::moment_of_is_the_reading",
        "fix_fields::envelopes_of_is_the_cutting",
        "fix_fields::pieces_make_no_difference",
        "fix_fields::stream_faults_are_for_ever",
        "dealer_desk::the_same_facts_have_the_same_notes",
        "dealer_desk::each_message_has_its_note investor_desk::each_message_has_its_note",
        "dealer_desk::limits_are_kept",
        "investor_desk::limits_are_kept",
        "dealer_desk::quotes_stand_as_their_words_were_settled",
        "dealer_desk::facts_say_how_words_were_settled",
        "dealer_desk::words_are_asked_event_by_event",
        "dealer_desk::a_settlement_unasked_changes_nothing",
        "request_room::a_room_ends_once",
        "request_room::an_ended_room_changes_no_more",
        "request_room::a_dealer_has_one_quote",
        "request_room::only_an_award_has_a_winner",
        "request_room::an_awarded_word_was_lifted",
        "request_room::the_cover_is_the_best_other_quote",
        "request_room::facts_after_one_event_more",
        "quote_word::an_exchange_adds_one_settlement",
        "quote_word::an_exchange_on_a_board_is_seen_later",
        "quote_word::an_exchange_changes_one_word",
    ),
    "the layers": (
        "step_replay::actions_do_what_comes_by_the_table",
        "step_replay::firms_are_sent_one_list",
        "step_replay::dealers_are_given_their_view",
        "step_replay::sweeps_of_rooms_that_are_not_due_do_nothing",
        "venue_text::a_firm_is_printed_what_live_prints_of_it",
        "venue_text::without_marks_a_day_is_its_messages",
        "venue_text::lines_bring_the_same_however_they_come",
        "command_arguments::these_arguments_are_commands",
        "laws_days::definitions_give_the_worked_days",
        "laws_days::definitions_give_the_priced_days",
        "laws_days::limits_are_as_written",
        "venue_commands::inputs_have_these_limits",
    ),
    "a firm's session": (
        "laws_sessions::nothing_without_a_logon",
        "laws_sessions::each_message_is_taken_once",
        "fix_sessions::a_stream_is_cut_where_messages_stand",
        "laws_sessions::no_message_is_counted_and_dropped",
        "laws_sessions::what_leaves_was_given",
        "laws_sessions::a_resend_comes_to_its_end",
        "laws_sessions::what_is_kept_was_given",
        "laws_sessions::what_leaves_is_what_is_kept",
        "laws_sessions::session_limits_are_as_written fix_sessions_c::lengths_are_as_written",
        "laws_sessions::a_session_is_bounded",
        "laws_sessions::a_restart_changes_nothing",
        "laws_sessions::a_message_is_given_again_as_it_was",
        "fix_sessions_c::sessions_are_read_back",
    ),
    "what a start recovers": (
        "laws_sessions::a_start_is_a_fold",
        "laws_sessions::recovered_is_the_session",
        "laws_sessions::nothing_is_lost_or_taken_twice",
        "laws_sessions::what_left_is_recovered",
        "laws_sessions::what_left_stands",
        "laws_sessions::rejects_stand",
        "laws_sessions::numbers_leave_once",
        "laws_sessions::nothing_is_denied",
        "laws_sessions::times_stand",
    ),
    "between the wire and the venue": (
        "wire_messages::the_wire_reads_back",
        "wire_messages::the_wire_tells_messages_apart",
        "wire_messages::the_rest_is_the_firms",
        "laws_wire::what_is_taken_crosses",
        "laws_wire::what_a_session_takes_is_counted",
        "laws_wire::each_message_is_of_a_type_of_the_venue",
        "laws_wire::each_message_can_be_carried",
        "laws_wire::no_message_has_a_bar",
        "laws_wire::what_is_kept_reads_back",
        "laws_wire::what_is_kept_of_the_venue_reads_back",
        "laws_wire::what_leaves_is_the_venues",
        "laws_wire::dealers_are_read_back",
        "laws_wire::dealers_are_isolated_on_the_wire",
    ),
}

# Tables of definitions: CRATE/FILE, or CRATE/FILE.NAME for a record in it.
DEFINITIONS = {
    "the way down": (
        "venue_commands/Runs",
        "input_lines/DueText",
        "input_lines/VenueParts",
        "input_lines/StepLines",
        "venue_text/MessageLines",
        "step_replay/FirmDays",
        "step_replay/StepFaults",
        "step_replay/AuditTrail",
        "step_replay/Actions",
        "step_replay/DutyEffects",
        "venue_steps/Table",
        "step_replay/Coming",
        "step_replay/VenueFacts",
        "step_replay/DealerTrail",
        "step_replay/DueList",
        "step_replay/DealerView",
        "dealer_desk/DealerOutput",
        "dealer_desk/DealerRules",
        "dealer_desk/DealerFacts",
        "quote_messages/Arrivals",
        "quote_messages/SessionChecks",
        "quote_messages/Written",
        "fix_fields/Frame",
        "fix_fields/UtcTimestamp",
        "bond_prices/Price",
    ),
    "a recorded day": (
        "day_checks/KeptDays.KeepsDay",
        "day_checks/KeptDays.DealerKeeps",
        "day_checks/KeptDays.InvestorKeeps",
        "day_checks/KeptDays.AnswersAgree",
        "day_checks/DayPromises.WasTold",
        "day_checks/ShownRequests",
        "day_checks/RelayedQuotes",
        "day_checks/AnsweredResponses",
        "day_checks/LeftResponses",
        "day_checks/DayActions",
    ),
}

CITED = re.compile(r" \((?:`\w+`(?:, )?)+\)")  # the clauses of a sentence
NAMED = re.compile(r"`(\w+)::(\w+)`")  # a law, by its crate
FUNCTION = re.compile(r"((?:^///.*\n)*)(?:^#\[.*\n)*^pub fn (\w+)\(", re.MULTILINE)


@dataclass(frozen=True)
class Law:
    """A law: its name with its crate, its sentence, what more it says, where it ends, and its clauses."""

    crate: str
    name: str
    sentence: str
    more: str
    ends: str
    clauses: tuple[str, ...]

    def cited(self) -> str:
        """The function with the names of its clauses."""
        named = ", ".join(f"`{clause}`" for clause in self.clauses)
        return f"`{self.crate}::{self.name}`" + (f" ({named})" if named else "")


def paragraphs(comment: str) -> list[str]:
    """The paragraphs of a comment, each in one line."""
    lines = [said[1] for line in comment.split("\n") if (said := DOC.match(line))]
    return [" ".join(each.split()) for each in "\n".join(lines).split("\n\n") if each.strip()]


def law_of(crate: str, name: str, comment: str, clauses: list[Clause]) -> Law:
    """What a law's comment says of it."""
    said = paragraphs(comment)
    ends = said.pop().removeprefix(ENDS) if said and said[-1].startswith(ENDS) else ""
    if not said:
        raise LookupError(f"{crate}::{name} has no sentence")
    named = tuple(each.name for each in clauses if each.name)
    return Law(crate, name, said[0], " ".join(said[1:]), ends.removesuffix("."), named)


class Laws:
    """The laws of a repository: each crate is read once."""

    def __init__(self, root: Path) -> None:
        self.root = root
        self.read: dict[str, dict[str, Law]] = {}

    def of_crate(self, crate: str) -> dict[str, Law]:
        """The public functions of a crate that have a comment and a clause, by their names."""
        if crate in self.read:
            return self.read[crate]
        found: dict[str, Law] = {}
        for file in sorted((self.root / "crates" / crate / "src").rglob("*.rt")):
            text = file.read_text(encoding="utf-8")
            clauses = {each.name: each.clauses for each in FileReader(text.split("\n")).read()}
            for comment, name in FUNCTION.findall(text):
                if comment and clauses.get(name):
                    found[name] = law_of(crate, name, comment, clauses[name])
        self.read[crate] = found
        return found

    def named(self, path: str) -> Law:
        """A law by CRATE::FUNCTION."""
        crate, _, name = path.partition("::")
        law = self.of_crate(crate).get(name)
        if law is None:
            raise LookupError(f"{crate} has no law {name}: {SCRIPT} names it")
        return law


def where_it_stands(root: Path, text: str) -> str:
    """A text that names a law by a crate which is gone, with the crate in which the law stands. A law may
    move while the crate whose comment names it stays as it was proved."""

    def named(found: re.Match[str]) -> str:
        law = laws_of(root).get(found[2])
        if law is None or (root / "crates" / found[1]).is_dir():
            return found[0]
        return f"`{law.file.relative_to(root / 'crates').parts[0]}::{law.name}`"

    return NAMED.sub(named, text)


def on_page(root: Path, text: str) -> str:
    """A text of a comment as a cell of the page: its links lead from the page's folder, and no full stop
    ends it."""
    folder = PAGE.rpartition("/")[0]
    said = in_cell(where_it_stands(root, text)).removesuffix(".")
    return said.replace(f"]({PAGE}#", "](#").replace(f"]({folder}/", "](")


def rounded(lines: int) -> str:
    """About how many lines."""
    return f"{round(lines, -2):,}" if lines >= 1000 else str(round(lines, -1))


def row_in_short(root: Path, laws: list[Law]) -> list[str]:
    """The row of a law in the table of the one page: its sentence alone, and what one reads to judge it."""
    names = tuple(law.name for law in laws)
    cited = ", ".join(f"`{name}`" for name in names)
    sentence = CITED.sub("", laws[0].sentence)
    ends = on_page(root, laws[0].ends)
    return [on_page(root, sentence), cited, ends, rounded(lines_to_read(root, names))]


def row_in_full(root: Path, laws: list[Law]) -> list[str]:
    """The row of a law in the table of its section. A function with arguments has no number of lines."""
    said = f"{laws[0].sentence} {laws[0].more}".strip()
    cited = ", ".join(law.cited() for law in laws)
    names = tuple(law.name for law in laws)
    lines = lines_to_read(root, names) if all(name in laws_of(root) for name in names) else 0
    ends = on_page(root, laws[0].ends)
    return [on_page(root, said), cited, ends, rounded(lines) if lines else ""]


def comment_above(text: str, name: str) -> str:
    """The comment above a record of definitions, in one line."""
    found = re.search(r"((?:^--.*\n)+)pub record %s\b" % name, text, re.MULTILINE)
    if found is None:
        raise LookupError(f"there is no record {name} with a comment")
    return " ".join(line[2:].strip() for line in found[1].splitlines())


def row_of_definition(root: Path, path: str) -> list[str]:
    """A file of definitions, or a record in it, and what its comment says."""
    crate, _, rest = path.partition("/")
    file, _, name = rest.partition(".")
    source = root / "crates" / crate / "specs" / f"{file}.antt"
    if not name:
        return [f"`{file}` of `{crate}`", on_page(root, head_of(source).split("  ")[0])]
    said = comment_above(source.read_text("utf-8"), name)
    return [f"`{name}` of `{file}`", on_page(root, said)]


def definition_lines(root: Path, name: str) -> Iterator[str]:
    """The table of definitions of this name, line by line."""
    yield "| definition | what it says |"
    yield "|---|---|"
    for path in DEFINITIONS[name]:
        yield "| %s |" % " | ".join(row_of_definition(root, path))


def table_lines(laws: Laws, name: str) -> Iterator[str]:
    """The table of this name, line by line."""
    if name in DEFINITIONS:
        yield from definition_lines(laws.root, name)
        return
    if name not in ROWS:
        raise LookupError(f"{SCRIPT} has no table {name}")
    is_short = name == ONE_PAGE
    yield "| sentence | law | where it ends | lines |" if is_short else (
        "| what is promised | what carries it | where it ends | lines |"
    )
    yield "|---|---|---|---|"
    for paths in ROWS[name]:
        row = [laws.named(path) for path in paths.split()]
        cells = (row_in_short if is_short else row_in_full)(laws.root, row)
        yield "| %s |" % " | ".join(cell or "-" for cell in cells)


def made(root: Path) -> dict[str, str]:
    """The page as it has to be."""
    laws = Laws(root)
    text = (root / PAGE).read_text(encoding="utf-8")
    return {PAGE: filled(text, SCRIPT, lambda name: "\n".join(table_lines(laws, name)))}


def main() -> int:
    """Writes the page, or says whether it is another."""
    parser = argparse.ArgumentParser(
        description=__doc__, formatter_class=argparse.RawTextHelpFormatter
    )
    parser.add_argument("--check", action="store_true")
    return write(ROOT, made(ROOT), parser.parse_args().check)


if __name__ == "__main__":
    sys.exit(main())
