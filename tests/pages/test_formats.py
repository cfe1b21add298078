"""What firms read of the formats is what tools/formats.py makes from their one source."""

import formats
import pytest
from formats import DICTIONARIES, PAGES, made, page, read

from tests.harness.options import ROOT


@pytest.mark.parametrize("file", [*DICTIONARIES.values(), *PAGES])
def test_each_file_is_made_of_the_source(file: str) -> None:
    assert made()[file] == (ROOT / file).read_text(encoding="utf-8"), "tools/formats.py writes it"


def test_a_value_that_changes_reaches_each() -> None:
    source = dict(read())
    source["field"] = [
        {**one, "name": "Renamed"} if one["tag"] == 298 else one for one in source["field"]
    ]
    assert 'name="Renamed"' in formats.dictionary(source, "application")
    text = (ROOT / "docs" / "FORMATS.md").read_text(encoding="utf-8")
    assert "298 QuoteCancelType" in text and "298 Renamed" in page(source, text)


def test_each_field_of_a_message_is_one() -> None:
    source = read()
    known = {one["name"] for one in source["field"]}
    for message in source["message"]:
        assert set(formats.flat(source, message["fields"])) <= known, message["name"]
