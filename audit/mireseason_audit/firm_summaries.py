"""Makes the first page of a firm: what it did, in figures, and its requests."""

from collections.abc import Sequence
from dataclasses import dataclass, replace
from pathlib import Path

from .page_names import file_name
from .records import Firm
from .requests import Request
from .statistics import Group
from .statistics_page import Grid, amounts, figure_grids, refusals
from .summary import Summary
from .templates import Templates
from .verdict import Verdict


@dataclass(frozen=True)
class FirmSummary:
    """What the page of one firm is made of."""

    verdict: Verdict
    summary: Summary
    firm: Firm

    def write(self, templates: Templates, folder: Path) -> None:
        firm, summary = self.firm, self.summary
        figures = summary.statistics.row(self._group, firm.name)
        text = templates.page(
            "firm_summary.html",
            "../",
            firm=firm,
            findings=self.verdict.of(firm.name),
            has_door=self.verdict.chained.door is not None,
            figures=figures,
            session=summary.sessions[firm.name],
            grids=self._grids(),
            asked=[
                (asked, summary.requests[asked.request.number - 1])
                for asked in summary.asked.get(firm.name, [])
            ],
            requests=self._requests(summary.requests),
            acts=[act for act in summary.seen.acts if act.concerns(firm.name)],
            file_name=file_name,
        )
        (folder / "firms" / (firm.name + ".html")).write_text(text, encoding="utf-8")

    @property
    def _group(self) -> Group:
        return Group.DEALER if self.firm.is_dealer else Group.INVESTOR

    def _grids(self) -> list[Grid]:
        """The rows of the firm in the tables of the statistics, and no table without one."""
        statistics = self.summary.statistics
        grids = [
            *figure_grids(statistics, self._group),
            amounts(statistics, self._group),
            refusals(statistics, self._group),
        ]
        own = [replace(one, rows=rows_of(one, self.firm.name)) for one in grids]
        return [one for one in own if one.rows]

    def _requests(self, requests: Sequence[Request]) -> list[Request]:
        return [one for one in requests if one.investor == self.firm.name]


def rows_of(grid: Grid, key: str) -> list[list[str]]:
    return [row for row in grid.rows if row[0] == key]
