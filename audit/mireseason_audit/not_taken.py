"""What a firm sent and the log has no entry of: the gateway refused it (35=j), or the firm's
session did (35=3).
"""

from typing import NamedTuple

from .frame import fields_of, text_of
from .records import Outgoing
from .refusals import KINDS

REJECT, NOT_TAKEN = "3", "j"  # MsgType (35)
CLOCK_SET = "the clock of the venue was set"  # begins what firms are told then (58)
MOST_NOT_TAKEN = 100  # that a page shows of a firm


class NotTaken(NamedTuple):
    """One of them, by what the firm was told."""

    moment: str
    number: str  # of the firm's message (45)
    kind: str  # its MsgType (372)
    name: str  # its QuoteID or QuoteReqID (379)
    reason: str  # 380, or 373 as `373=17`
    words: str  # 58


def not_taken_of(row: Outgoing) -> NotTaken:
    fields = fields_of(row.bytes)
    number, kind, name, reason, words = (text_of(fields, tag) for tag in (45, 372, 379, 380, 58))
    if row.kind == REJECT:
        reason = "373=" + text_of(fields, 373)
    return NotTaken(row.moment or "", number, kind, name, reason, words)


def is_of_an_order(row: Outgoing) -> bool:
    """Whether it refuses what belongs to the record of orders."""
    kinds = (*KINDS, "AJ")
    return row.kind in (REJECT, NOT_TAKEN) and text_of(fields_of(row.bytes), 372) in kinds
