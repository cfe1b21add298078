"""The checks find what is wrong, and nothing else.

Run: pytest tests/pages
"""

from __future__ import annotations

import tempfile
import unittest
from pathlib import Path

from promises import FileReader
from reading_list import Declared, cited_by, declared_in, lines_of

from page_checks.clauses import HEAD, check_clauses
from page_checks.commands import check_commands
from page_checks.links import check_links
from page_checks.names import check_names
from page_checks.page import Page
from page_checks.vocabulary import Vocabulary, ends_of, flags_in, names_in
from page_checks.written import check_marks, fault_of_maker

FILES = {
    "crates/desk/src/rules.rt": "pub fn price_for(ask: &Ask) -> bool\n    ensures grid { result ≡ true }\n{}\n",
    "crates/desk/specs/Rules.antt": "abbrev pub quote_checks : ℕ → ℕ\n",
    "tests/run.sh": "rfq_venue --marks\n",
}


def vocabulary() -> Vocabulary:
    """A small repository."""
    paths = [*FILES, "crates", "crates/desk", "docs/MARKET.md"]
    text = "\n".join(FILES.values())
    words = Vocabulary(paths, ends_of(paths), {"desk"}, text, flags_in(text), {"131"}, {}, {})
    for path, text in FILES.items():
        words.of_file[path] = names_in(path, text)
        words.names |= words.of_file[path]
        if path.startswith("crates/"):
            words.crates.setdefault("desk", set()).update(words.of_file[path])
    return words


def faults(text: str) -> list[str]:
    """What the check of names finds in a line of a page."""
    checked = check_names([Page("crates/desk/README.md", [text])], vocabulary())
    return [finding.text for finding in checked.findings]


class Checks(unittest.TestCase):
    """Each check by a thing that holds and one that does not."""

    def test_names(self) -> None:
        held = "`price_for`, `grid`, `quote_checks row`, `desk::price_for`, `131=R1`, `--marks`"
        self.assertEqual(faults(held), [])
        self.assertEqual(faults("`price_of`"), ["nothing is named price_of"])
        self.assertEqual(faults("`quote_check row`"), ["nothing is named quote_check"])
        self.assertEqual(faults("`desk::quote`"), ["there is no desk::quote"])
        self.assertEqual(faults("`130=R1`"), ["no dictionary has tag 130"])
        self.assertEqual(faults("`--mark`"), ["no program has --mark"])
        self.assertEqual(faults("`--sweeps`"), ["no program has --sweeps"])

    def test_files(self) -> None:
        held = "`src/rules.rt`, `specs/Rules`, `tests/run.sh`, `desk/src/*.rt`"
        self.assertEqual(faults(held), [])
        self.assertEqual(faults("`src/rule.rt`"), ["there is no file src/rule.rt"])
        self.assertEqual(faults("`price_for` (`desk/src/rules.rt`)"), [])
        self.assertEqual(
            faults("`quote_checks` (`desk/src/rules.rt`)"),
            ["quote_checks does not stand in desk/src/rules.rt"],
        )

    def test_blocks_have_no_names(self) -> None:
        page = Page("docs/MARKET.md", ["```", "`price_of`", "```", "    `price_of`"])
        self.assertEqual(check_names([page], vocabulary()).findings, [])

    def test_links(self) -> None:
        market = Page("docs/MARKET.md", ["# The rules", "[a](#the-rules) [b](#rules) [c](TOUR.md)"])
        found = [finding.text for finding in check_links([market], vocabulary()).findings]
        self.assertEqual(
            found,
            [
                "docs/MARKET.md has no heading rules",
                "there is no docs/TOUR.md behind the link TOUR.md",
            ],
        )

    def test_commands(self) -> None:
        lines = [
            "```console",
            "$ printf 'a\\nb\\nc\\n'",
            "a",
            "...",
            "$ echo d",
            "e",
            "$ rfq_venue x",
            "x",
            "```",
            "```sh",
            "tests/run.sh",
            "tests/runs.sh",
            "```",
        ]
        page = Page("docs/MARKET.md", lines)
        checked, listed = check_commands([page], Path("."), vocabulary(), "echo")
        self.assertEqual([finding.line for finding in checked.findings], [12, 5])
        self.assertEqual(checked.passed, 3)
        self.assertEqual([shown.command for shown in listed], ["tests/run.sh", "tests/runs.sh"])

    def test_words(self) -> None:
        lines = [
            "| two | words |",
            "|---|---|",
            "",
            "    four words of code",
            "```",
            "x",
            "```",
            "last",
        ]
        self.assertEqual(Page("a.md", lines).words(), 3)

    def test_words_of_scripts(self) -> None:
        """What stands between marks is counted apart."""
        lines = [
            "one",
            "<!-- made by tools/x.py: y -->",
            "two and three",
            "<!-- made end -->",
            "four",
        ]
        self.assertEqual(Page("a.md", lines).count(), (2, 3))

    def test_marks(self) -> None:
        """Each names a script that is asked, and has its end."""
        first, last = "<!-- made by tools/x.py: y -->", "<!-- made end -->"
        for lines, said in (
            ([first, last, first, last], []),
            (
                [first.replace("/x", "/z"), last],
                ["tools/z.py is none of the scripts that are asked"],
            ),
            ([first, first, last], ["a mark within another"]),
            ([first], ["a mark without its end"]),
            ([last], ["an end without a mark"]),
            ([first.replace(": y", ""), "<!-- made  end -->"], ["a mark that is none"] * 2),
        ):
            found = check_marks([Page("a.md", lines)], ["tools/x.py"]).findings
            self.assertEqual([finding.text for finding in found], said)

    def test_makers(self) -> None:
        """What a script says by --check is a finding where it ends with another status than 0."""
        with tempfile.TemporaryDirectory() as folder:
            for status, said in ((0, None), (1, "a.md; b.md")):
                script = Path(folder) / "made.py"
                text = f"import sys\nprint('a.md')\nprint('b.md')\nsys.exit({status})\n"
                script.write_text(text, encoding="utf-8")
                self.assertEqual(fault_of_maker(Path(folder), "made.py"), said)


class Clauses(unittest.TestCase):
    """The table of clauses names what there is."""

    def found(self, *carried: str, head: str = HEAD) -> list[str]:
        """What is found of rows that say what carries them, over a crate of one law and one type."""
        source = (
            "pub fn prices_rise()\n    ensures twice { true }\n{}\n\nimpl Desk {\n"
            "    pub fn ask(&self) -> u32\n        requires open { true }\n    {\n        1\n"
            "    }\n}\n"
        )
        with tempfile.TemporaryDirectory() as folder:
            root = Path(folder)
            for path in ("crates/desk/src", "docs"):
                (root / path).mkdir(parents=True)
            (root / "crates/desk/src/lib.rt").write_text(
                "mod desk;\npub use desk::{Desk, prices_rise};\n", encoding="utf-8"
            )
            (root / "crates/desk/src/desk.rt").write_text(source, encoding="utf-8")
            rows = [f"| prices rise | {words} |" for words in carried]
            page = "\n".join(["# Laws", "", head, "|---|---|", *rows, "", "| no row |", ""])
            (root / "docs/PROOFS.md").write_text(page, encoding="utf-8")
            return [finding.text for finding in check_clauses(root).findings]

    def test_clauses(self) -> None:
        self.assertEqual(
            self.found(
                "`desk::prices_rise` (`twice`)", "`desk::prices_rise`", "by no clause: a test"
            ),
            [],
        )
        self.assertEqual(
            self.found("`desk::prices_rise` (`once`)"), ["desk::prices_rise has no clause once"]
        )
        self.assertEqual(self.found("`desk::prices_fall`"), ["desk gives out no prices_fall"])
        self.assertEqual(self.found("`desk::Desk::ask`"), ["desk::Desk::ask ensures nothing"])
        self.assertEqual(self.found("`room::prices_rise`"), ["there is no crate room"])
        self.assertEqual(self.found(""), ["nothing carries this sentence"])
        self.assertEqual(self.found(" | at days"), ["nothing carries this sentence"])

    def test_all_functions_that_begin_so(self) -> None:
        """A star: each function has the clause, and there is one."""
        self.assertEqual(self.found("`desk::prices_*` (`twice`)"), [])
        self.assertEqual(self.found("`desk::Desk::*`"), ["desk::Desk::ask ensures nothing"])
        self.assertEqual(
            self.found("`desk::prices_*` (`once`)"), ["desk::prices_rise has no clause once"]
        )
        self.assertEqual(self.found("`desk::no*`"), ["desk gives out no no*"])

    def test_functions_in_braces(self) -> None:
        """Each of them has the clause."""
        self.assertEqual(self.found("`desk::{prices_rise, prices_*}` (`twice`)"), [])
        self.assertEqual(
            self.found("`desk::{prices_rise, prices_fall}`"), ["desk gives out no prices_fall"]
        )
        self.assertEqual(self.found("`desk::Desk::{ask}`"), ["desk::Desk::ask ensures nothing"])

    def test_other_tables(self) -> None:
        """A further column, and a table with another head: its clauses are looked at, too."""
        further = HEAD + " where it ends |"
        found = self.found("`desk::prices_rise` | at `desk::x`", head=further)
        self.assertEqual(found, ["desk gives out no x"])
        self.assertEqual(self.found("", head="| file | has |"), [])
        self.assertEqual(
            self.found("`desk::prices_rise` (`once`)", head="| file | has |"),
            ["desk::prices_rise has no clause once"],
        )


class Written(unittest.TestCase):
    """What the scripts read."""

    def test_promises(self) -> None:
        text = (
            "impl Desk {\n    /// The price of [`Ask`].\n    pub fn price(&self) -> u32\n"
            "        requires open { is_open self.now }\n        // Nothing is rounded.\n"
            "        ensures { IfSome result (λ p.\n            p ≡ 1) }\n"
            "    {\n        1\n    }\n\n"
            "    fn hidden(&self)\n        ensures { true }\n    {}\n}\n"
        )
        (promise,) = FileReader(text.split("\n")).read()
        self.assertEqual((promise.name, promise.says), ("Desk::price", "The price of `Ask`."))
        self.assertEqual(
            [(clause.name, clause.text, clause.comment) for clause in promise.clauses],
            [
                ("requires open", "is_open self.now", ""),
                ("", "IfSome result (λ p. p ≡ 1)", "Nothing is rounded."),
            ],
        )

    def test_reading_list(self) -> None:
        text = (
            "ghost use Rattle.low.specs.Rows.{Row, names};\n"
            "ghost use Rattle.low.specs.Text as texts;\n"
        )
        self.assertEqual(
            cited_by(text, "(row : Row) → texts.is_name row"), [("low", "Rows"), ("low", "Text")]
        )
        self.assertEqual(cited_by(text, "(row : ℕ) → row"), [])
        self.assertEqual(lines_of("-- a comment\nuse A.{b}\n\nabbrev pub one : ℕ\none = 1\n"), 2)
        spec = (
            "use Rattle.low.specs.declared.rows.Row.{Row}\n"
            "use Rattle.low.specs.declared.rows.Row.TheVariants as rows\n"
            "use Rattle.low.specs.declared.limits.TheConstants.Rows.{MOST}\n"
        )
        self.assertEqual(
            declared_in([spec]), {Declared("low", "rows", "Row"), Declared("low", "limits", "MOST")}
        )


if __name__ == "__main__":
    unittest.main()
