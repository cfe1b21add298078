"""Changes by hand what a log says that firms were told beside the venue's messages: the reasons (58) and the
names of trades (1003).
"""

from tests.audit.tamper import Change, Kind, Tamperer

TOLD = "SELECT firm, number, told FROM sent WHERE told IS NOT NULL"
PLAIN = "SELECT firm, number FROM sent WHERE told IS NULL"

# What the report has to have.
NOT_TOLD = r"%s: .*(of its session|its session tells it another reason)"


def told_otherwise(log: Tamperer) -> Change:
    """Another reason or trade in the place of the one that a firm was told, or none."""
    told = log.rows(TOLD)
    firm, number, field = log.draw.choice(told)
    tag = field.partition("=")[0]
    others = {one for _, _, one in told if one.startswith(tag + "=")} - {field}
    if log.draw.random() < 0.5:
        return told_by(log, firm, number, None)
    return told_by(log, firm, number, log.draw.choice(sorted(others) or [field + "0"]))


def told_more(log: Tamperer) -> Change:
    """A reason or a trade beside a message that has none."""
    firm, number = log.draw.choice(log.rows(PLAIN))
    fields = ["58=the request has ended", "58=x", "1003=20261125-FJORD-ALPHA-1", "58=x\x0159=1", ""]
    return told_by(log, firm, number, log.draw.choice(fields))


def told_by(log: Tamperer, firm: str, number: int, field: str | None) -> Change:
    """Another field beside a message."""
    log.do("UPDATE sent SET told = ? WHERE firm = ? AND number = ?", field, firm, number)
    return Change("%r beside %s's message %d" % (field, firm, number), NOT_TOLD % firm)


TOLD_KINDS: list[Kind] = [told_otherwise, told_more]
