"""Reads the names of fields, types and values from the data dictionary in QuickFIX's format."""

import xml.etree.ElementTree as ElementTree
from dataclasses import dataclass, field
from pathlib import Path

from .faults import Unreadable
from .frame import Fields

MSG_TYPE, TEXT = 35, 58
# The names in Text (58) of a hit or a pass that was refused. The dictionary can't have them as its
# values: a stock engine would refuse the words that 58 has in each other refusal.
REFUSED_HITS = {
    "NotOpen": "request not open",
    "Deadline": "request past its deadline",
    "Gone": "quote replaced or gone",
    "Expired": "quote past its validity",
    "Withdrawn": "quote withdrawn first",
}


@dataclass(frozen=True)
class NamedField:
    """A field of a message, by its names."""

    tag: int
    name: str  # empty where the dictionary has no such tag
    value: str
    meaning: str  # of the value; empty where it says itself


@dataclass
class Dictionary:
    """Names by tag, and the meanings of values."""

    names: dict[int, str] = field(default_factory=dict)
    meanings: dict[tuple[int, str], str] = field(default_factory=dict)
    types: dict[str, str] = field(default_factory=dict)  # 35 to the message's name

    def meaning(self, tag: int, value: str) -> str:
        return self.meanings.get((tag, value), "")

    def type_name(self, kind: str) -> str:
        return self.types.get(kind, "35=" + kind)

    def named(self, fields: Fields) -> list[NamedField]:
        """Each field with its names, in the order of the message."""
        found = []
        for tag, data in fields:
            value = data.decode("utf-8", "backslashreplace")
            found.append(NamedField(tag, self.names.get(tag, ""), value, self.meaning(tag, value)))
        return found


def read_dictionary(path: Path) -> Dictionary:
    """Reads the dictionary; the meanings are written in small letters, with spaces."""
    try:
        root = ElementTree.parse(path).getroot()
    except (OSError, ElementTree.ParseError) as fault:
        raise Unreadable("the dictionary %s: %s" % (path, fault)) from None
    try:
        return named_by(root)
    except ValueError as fault:
        raise Unreadable("the dictionary %s: %s" % (path, fault)) from None


def named_by(root: ElementTree.Element) -> Dictionary:
    """What the dictionary has; ValueError where a tag is no number."""
    found = Dictionary(meanings={(TEXT, name): words for name, words in REFUSED_HITS.items()})
    for message in root.iterfind("messages/message"):
        found.types[message.get("msgtype", "")] = message.get("name", "")
    for one in root.iterfind("fields/field"):
        tag = int(one.get("number", "0"))
        found.names[tag] = one.get("name", "")
        for value in one.iterfind("value"):
            words = value.get("description", "").replace("_", " ").lower()
            found.meanings[tag, value.get("enum", "")] = words
    return found
