"""Says in words on which connection a message came."""

from dataclasses import dataclass, replace

from .findings import Finding
from .log import Log
from .records import ConnectionEvent, Day, Entry


@dataclass(frozen=True)
class CameOn:
    """The connections of one firm, by their numbers."""

    logons: dict[int, ConnectionEvent]

    def words(self, entry: Entry) -> str:
        """Of an entry of the firm: when it was received, on which connection, and who that was."""
        if entry.number is None and entry.connection is None:
            return "made by the gateway %s" % entry.received
        return "received %s on %s" % (entry.received, self.connection_words(entry.connection))

    def connection_words(self, number: int | None) -> str:
        if number is None:
            return "no connection"
        logon = self.logons.get(number)
        if logon is None:
            return "connection %d, on which it had no Logon" % number
        return "connection %d from %s, since %s" % (number, logon.peer, logon.moment)


def connections_of(log: Log, day: Day) -> dict[str, CameOn]:
    """Those of all firms; of none where the log does not say who connected."""
    if not log.has_door:
        return {}
    return {firm.name: CameOn(log.logons(firm.name)) for firm in day.firms}


def with_connections(log: Log, findings: list[Finding]) -> list[Finding]:
    """The findings, each about a message with the connection that it came on, where the log says
    that. They are few: of each firm the first of a kind.
    """
    if not log.has_door:
        return findings
    kept: dict[str, CameOn] = {}
    told = []
    for finding in findings:
        entry = None if not finding.place else log.entry_at(finding.place)
        if entry is not None and entry.firm is not None:
            if entry.firm not in kept:
                kept[entry.firm] = CameOn(log.logons(entry.firm))
            finding = replace(finding, came_on=kept[entry.firm].words(entry))
        told.append(finding)
    return told
