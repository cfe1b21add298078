"""Says in which fields two messages differ, so that nobody compares two long lines by eye."""

from collections import defaultdict

from .frame import Fields, fields_of

FRAME = frozenset({8, 9, 10})  # what follows from all other fields
MOST = 6  # fields that are named
LONGEST = 40  # characters of a value


def differing(
    given: bytes, found: bytes, without: frozenset[int] = FRAME, words: str = "%s given, %s found"
) -> str:
    """The tags, each with both values; empty where the messages differ in nothing else."""
    one, other = by_tag(fields_of(given)), by_tag(fields_of(found))
    tags = [tag for tag in {**one, **other} if tag not in without and one[tag] != other[tag]]
    named = [
        "%s: %s" % (tag or "no field", words % (shown(one[tag]), shown(other[tag])))
        for tag in tags[:MOST]
    ]
    if len(tags) > MOST:
        named.append("and %d fields more" % (len(tags) - MOST))
    return "; ".join(named)


def by_tag(fields: Fields) -> defaultdict[int, list[bytes]]:
    """All values of each tag, in their order."""
    found: defaultdict[int, list[bytes]] = defaultdict(list)
    for tag, value in fields:
        found[tag].append(value)
    return found


def shown(values: list[bytes]) -> str:
    text = b", ".join(values).decode("utf-8", "backslashreplace")
    if not values:
        return "nothing"
    return text if len(text) <= LONGEST else text[:LONGEST] + ".."
