"""Computes the figures of a day a second way: by SQL over its export.

Prices are whole 256ths of a point, so that the numbers of SQL are exact.
"""

import sqlite3
from collections.abc import Iterator
from fractions import Fraction

from tests.supervisor.figures import Figures, Key, Value, ranked, ratio

# Of each group, what its key is in a query over `requests r` and one of the dealer's `d`.
KEYS = {
    "day": "'%s'",
    "dealer": "d",
    "investor": "r.investor",
    "bond": "r.bond",
    "hour": "substr(r.moment, 1, 2)",
}
REQUESTS = """
    SELECT KEY, count(DISTINCT r.request), count(DISTINCT CASE WHEN r.quotes > 0 THEN r.request END),
        count(DISTINCT CASE WHEN r.end = 'awarded' THEN r.request END), count(*),
        sum(a.answer = 'quoted'), sum(a.answer = 'declined'), sum(a.answer = 'silent'),
        sum(a.answer = 'quoted' AND a.notice = 'won'),
        sum(a.answer = 'quoted' AND a.notice = 'cover'),
        sum(a.answer = 'quoted' AND a.notice = 'done away'),
        sum(a.answer = 'quoted' AND a.notice = 'passed'),
        sum(a.answer = 'quoted' AND a.notice = 'expired')
    FROM (SELECT *, dealer AS d FROM asked) a JOIN requests r USING (request) GROUP BY 1"""
RESPONSES = """
    SELECT KEY, response_ms FROM (SELECT *, dealer AS d FROM asked) a
    JOIN requests r USING (request) WHERE response_ms IS NOT NULL"""
TRADES = """
    SELECT KEY, count(*), sum(cover_dealer IS NOT NULL AND NOT cover_lapsed), sum(cover_lapsed),
        sum(CAST(from_best AS REAL) > 0)
    FROM (SELECT *, dealer AS d FROM trades) t JOIN requests r USING (request) GROUP BY 1"""
COVERS = """
    SELECT KEY, (CAST(cover_price AS REAL) - CAST(price AS REAL))
        * CASE r.side WHEN 'buy' THEN 1 ELSE -1 END
    FROM (SELECT *, dealer AS d FROM trades) t JOIN requests r USING (request)
    WHERE cover_price IS NOT NULL AND NOT cover_lapsed"""
# The best of the quotes that stood on the request at the hit, and whose 62 had not passed.
WORSE = """
    SELECT KEY, max((CAST(t.price AS REAL) - CAST(q.price AS REAL))
        * CASE r.side WHEN 'buy' THEN 1 ELSE -1 END) AS worse
    FROM (SELECT *, dealer AS d FROM trades) t JOIN requests r USING (request)
    JOIN quotes q ON q.request = r.request AND q.entry < t.entry
        AND (q.end_entry IS NULL OR q.end_entry >= t.entry)
        AND (q.until IS NULL OR q.until > t.moment)
    GROUP BY 1, t.trade HAVING worse > 0"""
QUOTES = """
    SELECT KEY, count(*), sum(q.end = 'replaced'), sum(q.end = 'withdrawn'),
        sum(q.end = 'withdrawn' AND (q.until IS NULL OR q.until > q.end_moment) AND EXISTS (
            SELECT 1 FROM responses h WHERE h.request = q.request AND h.kind = 'hit'
            AND h.entry > q.end_entry)),
        sum(q.until IS NOT NULL AND q.until <= q.end_moment)
    FROM (SELECT *, dealer AS d FROM quotes) q JOIN requests r USING (request) GROUP BY 1"""
PARTS = (
    "substr({0}, 1, 2) * 3600000 + substr({0}, 4, 2) * 60000 + substr({0}, 7, 2) * 1000"
    " + substr({0} || '.000', 10, 3)"
)
LIVES = """
    SELECT KEY, min({end}, coalesce({until}, 86400000)) - ({start})
    FROM (SELECT *, dealer AS d FROM quotes) q JOIN requests r USING (request)
    WHERE q.end_moment IS NOT NULL""".format(
    end=PARTS.format("q.end_moment"), until=PARTS.format("q.until"), start=PARTS.format("q.moment")
)
AMOUNTS = """
    SELECT KEY, coalesce(r.currency, r.bond), sum(r.quantity)
    FROM (SELECT DISTINCT request, BY_DEALER AS d FROM asked) a
    JOIN requests r USING (request) GROUP BY 1, 2"""
TRADED = """
    SELECT KEY, coalesce(r.currency, r.bond), sum(r.quantity), count(*)
    FROM (SELECT *, dealer AS d FROM trades) t JOIN requests r USING (request) GROUP BY 1, 2"""
REFUSALS = """
    SELECT KEY, what, code, coalesce(name, ''), count(*) FROM messages m
    WHERE way = 'came' AND answer <> 'accepted' AND ALSO GROUP BY 1, 2, 3, 4"""
# Of each group, the key of a message and which messages count.
REFUSED = {
    "day": ("'%s'", "1"),
    "dealer": ("firm", "firm IN (SELECT firm FROM sessions WHERE role = 'dealer')"),
    "investor": ("firm", "firm IN (SELECT firm FROM sessions WHERE role = 'investor')"),
    "bond": ("bond", "bond IN (SELECT bond FROM requests)"),
    "hour": ("substr(moment, 1, 2)", "1"),
}


class SecondWay:
    """Asks the tables of an export."""

    def __init__(self, tables: sqlite3.Connection, date: str) -> None:
        self._tables, self._date = tables, date

    def figures(self) -> Figures:
        found = Figures()
        for group, key in KEYS.items():
            key = key % self._date if group == "day" else key
            self._counts(found, group, key)
            self._spreads(found, group, key)
            self._amounts(found, group, key)
        for group, (key, also) in REFUSED.items():
            key = key % self._date if group == "day" else key
            for row in self._tables.execute(REFUSALS.replace("KEY", key).replace("ALSO", also)):
                name, *names, count = row
                found.refusals[group, str(name), names[0], names[1], names[2]] = count
        return found

    def _ask(self, query: str, key: str) -> Iterator[tuple[str, list[int]]]:
        for name, *values in self._tables.execute(query.replace("KEY", key)):
            yield str(name).rjust(2, "0"), values

    def _counts(self, found: Figures, group: str, key: str) -> None:
        for name, values in self._ask(REQUESTS, key):
            requests, quoted, awarded, asked, answered, declined, silent, *told = values
            won, cover, away, passed, expired = told
            found.figures[group, name] = {
                "requests": requests,
                "asked": asked,
                "answered": answered,
                "declined": declined,
                "silent": silent,
                "won": won,
                "cover": cover,
                "done_away": away,
                "passed": passed,
                "expired": expired,
                "hit_ratio": ratio(won, answered) if group == "dealer" else ratio(awarded, quoted),
                "trades": 0,
                "covers": 0,
                "covers_lapsed": 0,
                "not_best": 0,
                "quotes": 0,
                "replaced": 0,
                "withdrawn": 0,
                "fades": 0,
                "lapsed": 0,
            }
        for name, (trades, covers, lapsed, worse) in self._ask(TRADES, key):
            found.figures[group, name].update(
                trades=trades, covers=covers, covers_lapsed=lapsed, not_best=worse
            )
        for name, (quotes, replaced, withdrawn, fades, lapsed) in self._ask(QUOTES, key):
            found.figures[group, name].update(
                quotes=quotes, replaced=replaced, withdrawn=withdrawn, fades=fades, lapsed=lapsed
            )

    def _spreads(self, found: Figures, group: str, key: str) -> None:
        for query, column in ((RESPONSES, "response_ms"), (LIVES, "life_ms")):
            values = self._values(query, key)
            for (one, name), row in found.figures.items():
                if one == group:
                    mine = values.get(name, [])
                    row[column] = ranked(mine, 50)
                    row[column + "_90"], row[column + "_99"] = ranked(mine, 90), ranked(mine, 99)
        for query, column in ((COVERS, "from_cover"), (WORSE, "from_best")):
            values = self._values(query, key)
            for (one, name), row in found.figures.items():
                if one == group:
                    mine = [Fraction(value) for value in values.get(name, [])]
                    row[column] = ranked(mine, 50)
                    row[column + "_most"] = max(mine, default=None)

    def _values(self, query: str, key: str) -> dict[str, list[int | Fraction]]:
        found: dict[str, list[int | Fraction]] = {}
        for name, (value, *_) in self._ask(query, key):
            found.setdefault(name, []).append(value)
        return found

    def _amounts(self, found: Figures, group: str, key: str) -> None:
        query = AMOUNTS.replace("BY_DEALER", "dealer" if group == "dealer" else "''")
        for name, (unit, asked) in self._ask(query, key):
            found.amounts[group, name, str(unit)] = asked, 0, 0
        for name, (unit, traded, trades) in self._ask(TRADED, key):
            asked = found.amounts[group, name, str(unit)][0]
            found.amounts[group, name, str(unit)] = asked, traded, trades


def differing(one: dict[Key, dict[str, Value]], other: dict[Key, dict[str, Value]]) -> list[str]:
    """Where two differ, in words."""
    return [
        "%s %s %s: %s, %s" % (*key, name, one.get(key, {}).get(name), values.get(name))
        for key, values in other.items()
        for name in values
        if one.get(key, {}).get(name, "none") != values[name]
    ]
