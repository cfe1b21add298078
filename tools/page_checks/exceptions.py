"""Lists names that pages may have though nothing in the repository bears them."""

from __future__ import annotations

import fnmatch

# Names of what the repository stands on: Rust's standard library as the kit has it, and antt.
OF_THE_KIT = {"Abort", "AllocError", "Data", "Display", "refl"}

# A page, and what it alone may name: files that its reader makes, and what other programs print or
# take.
ON_A_PAGE = [
    ("audit/README.md", "--strict"),  # of mypy
    ("desk/README.md", "actual/actual"),  # counts the days of a bond
    ("desk/README.md", "30/360"),  # counts the days of a bond
    ("desk/README.md", "30E/360"),  # counts the days of a bond
    ("desk/README.md", "actual/365"),  # counts the days of a bond
    ("desk/README.md", "actual/360"),  # counts the days of a bond
    ("crates/quote_word/README.md", "Pens"),  # of the kit's logbook
    ("crates/all_cases/README.md", "data/PLACE-subject.cases"),  # a file that a reader writes
    ("gateway/README.md", "192.0.2.0/24"),  # a network
    ("install/hosts/README.md", "NAME_DATE"),  # stands for a schema of a reader's
    ("install/hosts/README.md", "gw2"),  # a second host of a reader's
    ("install/hosts/README.md", "10.77.0.0/24"),  # a network
    ("install/hosts/README.md", "ETCD_*"),  # variables of etcd
    ("install/hosts/README.md", "config.yml"),  # a file of Patroni's
    ("install/hosts/README.md", "--now"),  # of systemctl
    ("install/hosts/README.md", "Leader"),  # of patronictl
    ("install/hosts/README.md", "Replica"),  # of patronictl
    ("docs/SUPERVISING.md", "day-20261124.db"),  # a log of a reader's
    ("docs/SUPERVISING.md", "day_20261124"),  # a schema of a reader's
    ("docs/SUPERVISING.md", "sent.txt"),  # a list of a reader's
    ("docs/SUPERVISING.md", "pages/index.html"),  # a page that the audit writes
    ("docs/SUPERVISING.md", "DIR/now"),  # a link that the audit makes
    ("docs/SUPERVISING.md", "DIR/builds"),  # a folder of its
    ("docs/SUPERVISING.md", "parties.toml"),  # a file of a reader's
    ("docs/SUPERVISING.md", "best-execution.html"),  # a page that the audit writes
    ("CHANGELOG.md", "parties.toml"),  # a file of a reader's
]


def is_excepted(page: str, name: str) -> bool:
    """Whether this page may have the name."""
    if name in OF_THE_KIT:
        return True
    return any(page == where and fnmatch.fnmatch(name, what) for where, what in ON_A_PAGE)
