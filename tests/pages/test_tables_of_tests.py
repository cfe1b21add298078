"""What tools/tables_of_tests.py makes of the options and fixtures of all tests."""

from pathlib import Path

import tables_of_tests

TREE = {
    tables_of_tests.PAGE: "<!-- made by tools/tables_of_tests.py: options -->\n<!-- made end -->\n"
    "<!-- made by tools/tables_of_tests.py: fixtures -->\n<!-- made end -->\n",
    tables_of_tests.OPTIONS: 'group.addoption("--seed", type=int, help="draws by " "it")\n',
    tables_of_tests.FIXTURES: '@pytest.fixture(scope="module")\ndef stage(place):\n'
    '    """A gateway.\n\n    And more."""\n\n\ndef helper():\n    """No fixture."""\n',
}


def test_each_option_and_fixture_has_a_row(tmp_path: Path) -> None:
    for name, text in TREE.items():
        (tmp_path / name).parent.mkdir(parents=True, exist_ok=True)
        (tmp_path / name).write_text(text, encoding="utf-8")
    said = tables_of_tests.made(tmp_path)[tables_of_tests.PAGE]
    rows = [line for line in said.split("\n") if line.startswith("| `")]
    assert rows == ["| `--seed` | draws by it |", "| `stage` | A gateway |"]
