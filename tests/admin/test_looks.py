"""What an operator looks up: one firm, what a firm may be handed, the next day. And a trade that the operator voids by
agreement.
"""

import csv
import io
import json
import tomllib
from concurrent.futures import ThreadPoolExecutor
from datetime import datetime, timedelta, timezone

from tests.admin.operator import acts, admin, audit, did, rows, wait_open
from tests.gateway.door import today
from tests.gateway.stage import Stage
from tests.gateway.stage import check as check_text
from tests.gateway.wait import LONG, until

REASON = "both firms agreed by phone"


def check(holds: object, seen: object) -> None:
    check_text(holds, seen if isinstance(seen, str) else repr(seen))


def refused(stage: Stage, said: str, *words: str) -> None:
    """A call that is not done, for this reason."""
    answer = admin(stage, *words)
    check(
        answer.status == 1 and said in answer.err,
        "%s: %d %s" % (" ".join(words), answer.status, answer.text),
    )


def firm_values(stage: Stage, name: str) -> dict[str, tuple[object, object]]:
    """What `firm` shows: a value and a limit for each line."""
    return {row["what"]: (row["value"], row["limit"]) for row in rows(stage, "firm", name)}


def test_one_firm(stage: Stage) -> None:
    """`firm` counts what a firm sent and was refused, and says how much of its day is used."""
    stage.door.operators = ""
    stage.open(*stage.firms)
    before = firm_values(stage, "DLR1")
    check(before["messages"][0] == 0 and before["quotes"][0] == 0, before)
    request = stage.ask()
    stage.quote(stage.dealer, request)
    stage.say(stage.dealer, "S", stage.quote_fields(b"R99", b"q99"))
    answer = stage.answer(
        stage.dealer, "that a quote of no request is refused", lambda one: one.value(117) == b"q99"
    )
    check(answer.value(297) == b"5", answer.raw)
    until("two messages are counted", LONG, lambda: firm_values(stage, "DLR1")["messages"][0] == 2)
    after = firm_values(stage, "DLR1")
    check(after["quotes"][0] == 2 and after["refusals"][0] == 1 and after["hits"][0] == 0, after)
    check(str(after["address"][0]).startswith("127.0.0.1:"), after)
    used, most = after["day_bytes"]
    check(isinstance(used, int) and used > 0 and most == 1 << 30, after)
    check(after["messages_per_second"] == ("", 2000), after)
    check(firm_values(stage, "INV1")["requests"][0] == 1, "an investor's request is not counted")
    refused(stage, "the venue has no firm DLR9", "firm", "DLR9")
    refused(stage, "usage: firm FIRM", "firm")
    check(acts(stage) == [], "a look stands in the log")
    stage.door.kill()
    stage.door.start()
    wait_open(stage)
    again = firm_values(stage, "DLR1")["day_bytes"]
    check(again == (used, most), "after a start %r bytes are used, before %r" % (again, used))


def test_what_a_firm_is_handed(stage: Stage) -> None:
    """`hand-out` gives a dealer its own limits and the other dealers' names, and nothing of an investor."""
    stage.door.operators = ""
    stage.open()
    told = tomllib.loads(did(stage, "hand-out", "DLR1"))
    check([bond["id"] for bond in told["bond"]] == ["BONDA0000001"], told)
    own, other = sorted(told["dealer"], key=lambda dealer: str(dealer["name"]))
    check(own["exposure"] == 60000000 and own["traders"] == ["T1"], own)
    check(other == {"name": "DLR2"}, other)
    check("investor" not in told, told)
    told = tomllib.loads(did(stage, "hand-out", "INV1"))
    check([each["name"] for each in told["investor"]] == ["INV1"], told)
    refused(stage, "the venue has no firm INV2", "hand-out", "INV2")


def test_the_next_day(stage: Stage) -> None:
    """`next-day` says when it opens, which firm is new in its files, and what is at fault in them."""
    stage.door.operators = ""
    stage.door.write()
    config, venue = stage.folder / "gateway.toml", stage.folder / "venue.toml"
    config.write_text(config.read_text().replace('"day.db"', '"day-{date}.db"'))
    lines = venue.read_text().splitlines(keepends=True)
    venue.write_text("".join(line for line in lines if not line.startswith("date")))
    right = venue.read_text()
    stage.door.start()
    stage.door.wait_open()
    began = today()
    answer = json.loads(did(stage, "--json", "next-day"))
    row = answer["rows"][0]
    tomorrow = datetime.strptime(began, "%Y%m%d").replace(tzinfo=timezone.utc) + timedelta(days=1)
    check(row["date"] == tomorrow.strftime("%Y%m%d"), row)
    check(row["opens"] == tomorrow.strftime("%Y-%m-%dT00:00:00Z"), row)
    check(row["firms"] == 3 and row["new_firms"] == "" and row["firms_gone"] == "", row)
    check(answer["said"] == "the files are right", answer)
    access = stage.folder / "credentials.toml"
    access.write_text(access.read_text().replace("[DLR2]", "[DLR3]"))
    venue.write_text(right.replace('"DLR2"', '"DLR3"'))
    row = rows(stage, "next-day")[0]
    check(row["new_firms"] == "DLR3" and row["firms_gone"] == "DLR2", row)
    venue.write_text(right.replace("exposure", "exposre"))
    answer = json.loads(did(stage, "--json", "next-day"))
    check("exposre is no key of a dealer; exposure?" in answer["said"], answer)
    check(answer["rows"][0]["new_firms"] == "DLR3", "what was right last is not what opens")


def voids(stage: Stage) -> dict[str, str]:
    """The trades that the audit's confirmations list, and why each is void."""
    said = audit(stage, "trades", "--csv")
    check(said.status == 0, said.text)
    return {row["trade"]: row["void"] for row in csv.DictReader(io.StringIO(said.out))}


def traded(stage: Stage) -> str:
    """The name of a trade that there is now."""
    stage.auction()
    return next(
        message.given(1003).decode()
        for message in stage.dealer.looked()
        if message.value(694) == b"1"
    )


def test_a_trade_that_is_voided(stage_of_log: Stage) -> None:
    """`bust` names a trade of the day and a reason; the record says so, and neither firm is sent a byte."""
    stage = stage_of_log
    stage.door.operators = ""
    stage.open(*stage.firms)
    trade = traded(stage)
    sent = [len(firm.looked()) for firm in stage.firms]
    refused(stage, "say why", "bust", trade)
    refused(stage, "there is no trade", "bust", trade[:-1] + "2", "--because", REASON)
    for wrong in ("R1", trade + "-1", trade[:-1], trade[:-1] + "0"):
        refused(stage, "is no trade's name", "bust", wrong, "--because", REASON)
    refused(stage, "no venue has both", "bust", "20250314-INV9-DLR1-1", "--because", REASON)
    refused(stage, "is of another day", "bust", "20250314-INV1-DLR1-1", "--because", REASON)
    check(acts(stage) == [], "a call that was not done stands in the log")
    check(voids(stage) == {trade: ""}, voids(stage))
    stage.door.kill()
    stage.door.start()
    wait_open(stage)
    did(stage, "bust", trade, "--because", REASON)
    line = acts(stage)[-1].decode()
    check(line.endswith(' bust %s because="%s"' % (trade, REASON)), line)
    check(voids(stage) == {trade: REASON}, voids(stage))
    check(audit(stage, "check").status == 0, audit(stage, "check").text)
    for firm, count in zip(stage.firms, sent):
        kinds = [message.kind for message in firm.looked()[count:]]
        check(not any(kind in (b"S", b"AI", b"AJ", b"AG", b"R") for kind in kinds), kinds)


def test_a_trade_is_voided_once(stage: Stage) -> None:
    """A second `bust` is refused and commits nothing: beside the first, behind it, and after a start."""
    stage.door.operators = ""
    stage.open(*stage.firms)
    trade = traded(stage)
    longest = "x" * 200
    refused(stage, "give a shorter reason", "bust", trade, "--because", longest)
    reasons = ["reason %d" % number for number in range(3)]
    with ThreadPoolExecutor(len(reasons)) as operators:
        answers = list(
            operators.map(lambda reason: admin(stage, "bust", trade, "--because", reason), reasons)
        )
    check(sorted(answer.status for answer in answers) == [0, 1, 1], answers)
    check(all("is void already" in answer.err for answer in answers if answer.status), answers)
    done = next(reason for reason, answer in zip(reasons, answers) if answer.status == 0)
    committed = acts(stage)
    check(len(committed) == 1 and done.encode() in committed[0], committed)
    refused(stage, "is void already", "bust", trade, "--because", REASON)
    stage.door.kill()
    stage.door.start()
    wait_open(stage)
    refused(stage, "is void already", "bust", trade, "--because", REASON)
    check(acts(stage) == committed, "a second act stands in the log")
    check(voids(stage) == {trade: done}, voids(stage))
