"""Lists the items of a report: what is checked for each, and which findings belong to it."""

import textwrap

ENTRIES, TABLES, DOOR = "entries", "tables", "door"
MESSAGES, ALONE = "messages", "each dealer alone"
SESSIONS, REASONS = "sessions", "reasons and trades"
SEALS, CHECKPOINTS = "seals", "checkpoints"
DAY, PROVED = "day asked for", "proved program"
SIGNATURES, CUT, SUPERVISOR = "signatures", "cut-off end", "supervisor's seal"

# What is looked at for an item, as `check --help` and docs/SUPERVISING.md say it.
CHECKS = (
    (
        ENTRIES,
        "numbers without a gap; moments that never fall; each entry's line names that entry's firm "
        "and moment. Each entry has its SHA-256 and that of the entry before: the chain",
    ),
    (
        TABLES,
        "the file or schema has the tables and columns of the log's form, a file also their keys, "
        "and nothing else, such as a trigger, a view, an index or row security, which may change "
        "what is written or read",
    ),
    (
        SEALS,
        "the gateways' own, since form 4, not a supervisor's: numbered without a gap; the last "
        "entry and the last row of the door have one. Only a gateway, which has the secret, can "
        "tell whether such a seal is right",
    ),
    (
        DOOR,
        "the list of connections, since form 3, and its own chain. Each message has to come on a "
        "connection of its firm, between the Logon and the end: the order of rows and entries "
        "decides, no clock. The gateway read a message no later than in the millisecond in which "
        "the venue took it, and read the messages of one connection in their order",
    ),
    (
        MESSAGES,
        "the log's table `sent` has what `rfq_venue live --marks` prints for the entries: each "
        "firm's messages, byte for byte, and the entry of each",
    ),
    (
        ALONE,
        "`rfq_venue dues --live` prints what was due to each dealer. From that list alone, "
        "`rfq_venue alone` has to make what the dealer was really sent. A list of more than "
        "16,777,216 bytes gives status 2",
    ),
    (
        SESSIONS,
        "each message of the venue left once, in order, under a number without a gap, after a "
        "header of 35, 34, 49, 52 and 56, with the body that the gateway makes of it; all others "
        "are of types that a session sends of itself. Since form 6, what left follows from `sent` and "
        "from the session's sealed notes: each note has the number that is due, and the running hash "
        "of the venue's messages up to it",
    ),
    (
        REASONS,
        "if entry 0 has a table of reasons: each message beside which the program prints a reason "
        "or a trade's name has left with those words in 58, or that name in 1003, and no other "
        "message has either from the gateway. A program that does not know `--notes` cannot check "
        "such a day (status 2). If entry 0 has no table, nothing may stand there beside the "
        "venue's own fields",
    ),
)

# By where a finding is; one about a firm is about its messages.
ITEM_OF = {"entries": ENTRIES, "tables": TABLES, "door": DOOR, "day": DAY, "cut": CUT}

# Another day, an end that was cut off or a chain that is broken makes much else differ.
CAUSES_FIRST = (
    DAY,
    CUT,
    SUPERVISOR,
    ENTRIES,
    TABLES,
    CHECKPOINTS,
    SIGNATURES,
    SEALS,
    DOOR,
    MESSAGES,
    ALONE,
    SESSIONS,
    REASONS,
    PROVED,
)


def checks_text() -> str:
    """What is looked at, an item after the other, for a terminal."""
    lines = ["what is looked at, by the lines of the report:"]
    for name, text in CHECKS:
        wrapped = textwrap.wrap(text, 76, break_long_words=False)
        lines += ["", "  " + name, *("    " + line for line in wrapped)]
    return "\n".join(lines)
