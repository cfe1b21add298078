"""The reader of definitions: what it sends, and that it sees what is wrong with what comes."""

import pytest

from tests.conformance.definition import Act, fault_in, filled, line_of, message_of
from tests.gateway.wire import framed

NAMES = {"DEALER": "D1"}
EXPECTED = "8=FIXT.1.1|35=0|49=VENUE|56=<DEALER>|34=3|52=<TIME>|112=x|"


def heard(body: str) -> bytes:
    return framed(body.encode().replace(b"|", b"\x01"))


RIGHT = heard("35=0|49=VENUE|56=D1|34=3|52=20250314-09:00:00.123|112=x|")


def test_lines() -> None:
    said = line_of("a.def:1", "I2,8=FIXT.1.1|35=0|")
    assert (said.act, said.connection, said.text) == (Act.SAY, 2, "8=FIXT.1.1|35=0|")
    ends = line_of("a.def:2", "eDISCONNECT")
    assert (ends.act, ends.connection) == (Act.ENDS, 1)
    joined = line_of("a.def:3", "Ix&")
    assert (joined.text, joined.is_joined, said.is_joined) == ("x", True, False)
    does = line_of("a.def:4", "oresume <DEALER>")
    assert (does.act, does.text) == (Act.OPERATOR, "resume <DEALER>")
    with pytest.raises(AssertionError):
        line_of("a.def:5", "8=FIXT.1.1|35=0|")


def test_length_and_sum_are_added_where_they_are_left_out() -> None:
    whole = b"8=FIXT.1.1\x019=5\x0135=0\x0110=241\x01"
    assert message_of("8=FIXT.1.1|35=0|") == whole
    assert message_of("8=FIXT.1.1|9=7|35=0|10=0|") == b"8=FIXT.1.1\x019=7\x0135=0\x0110=0\x01"
    assert message_of("35=0|8=FIXT.1.1|") == b"35=0\x018=FIXT.1.1\x01"
    within = b"35=0\x0110=000\x0158=x\x01"  # a 10 that is not the last field is no sum
    assert message_of("8=FIXT.1.1|35=0|10=000|58=x|") == framed(within)


def test_letters() -> None:
    assert filled("58=<FILL3>|", NAMES) == "58=xxx|"
    assert fault_in(EXPECTED.replace("112=x", "112=<FILL1>"), NAMES, RIGHT) is None


def test_names_and_moments() -> None:
    assert filled("49=<DEALER>|", NAMES) == "49=D1|"
    moment = filled("<TIME>", NAMES)
    assert len(moment) == len("20250314-09:00:00") and moment <= filled("<TIME+5>", NAMES)


def test_what_is_right() -> None:
    assert fault_in(EXPECTED, NAMES, RIGHT) is None


@pytest.mark.parametrize(
    "wrong",
    [
        RIGHT.replace(b"112=x", b"112=y"),  # its sum is that of another text
        heard("35=0|49=VENUE|56=D1|34=3|52=20250314-09:00:00.123|112=y|"),
        heard("35=0|49=VENUE|56=D1|34=4|52=20250314-09:00:00.123|112=x|"),
        heard("35=0|49=VENUE|56=D1|34=3|52=20250314-09:00:00|112=x|"),
        heard("35=0|49=VENUE|34=3|56=D1|52=20250314-09:00:00.123|112=x|"),
        heard("35=0|49=VENUE|56=D1|34=3|52=20250314-09:00:00.123|"),
        heard("35=0|49=VENUE|56=D1|34=3|52=20250314-09:00:00.123|112=x|58=why|"),
    ],
    ids=["sum", "value", "number", "moment", "order", "a field less", "a field more"],
)
def test_what_is_wrong_is_seen(wrong: bytes) -> None:
    assert fault_in(EXPECTED, NAMES, wrong)
