"""Runs tests on several workers (pytest-xdist, `-n N --dist loadgroup`): says which stay together, and which begin
first.

Tests that share a fixture of their module or class stay on one worker, so that it is made once. So do those with the
same mark `xdist_group`, which share a place of another kind. All others are apart. What takes longest by
`tests/durations` begins first, so that nobody waits for it in the end. What all of them start is compiled before.
"""

import unittest
from collections import defaultdict

import pytest

from tests.harness.build import byte_code
from tests.harness.durations import FILE, read_durations

GROUP = "xdist_group"
UNKNOWN = 1.0  # seconds of a test that the file does not name


def is_worker(config: pytest.Config) -> bool:
    """Whether this process is one of several. (Their environment is also that of a pytest which a test starts.)"""
    return hasattr(config, "workerinput")


def has_own_set_up(cls: type) -> bool:
    """Whether a class of unittest makes something that all its tests share."""
    if not issubclass(cls, unittest.TestCase):
        return False
    return getattr(cls.setUpClass, "__func__") is not getattr(
        unittest.TestCase.setUpClass, "__func__"
    )


def scopes_of(item: pytest.Function) -> set[str]:
    """The scopes of the fixtures of this tree that a test takes, by itself or through another."""
    found = item._fixtureinfo.name2fixturedefs.values()
    every = (definition for definitions in found for definition in definitions)
    return {each.scope for each in every if not each.func.__module__.startswith("_pytest")}


def group_of(item: pytest.Item) -> str | None:
    """The name of the group in which a test has to stay; None where it may be anywhere."""
    mark = item.get_closest_marker(GROUP)
    if mark is not None:
        return str(mark.args[0])
    if not isinstance(item, pytest.Function):
        return None
    if "module" in scopes_of(item):
        return item.path.stem
    return item.cls.__name__ if item.cls and has_own_set_up(item.cls) else None


def longest_first(items: list[pytest.Item], durations: dict[str, float]) -> list[pytest.Item]:
    """Group by group, each in its own order."""
    groups: dict[str, list[pytest.Item]] = defaultdict(list)
    for item in items:
        groups[group_of(item) or item.nodeid].append(item)

    def seconds(group: list[pytest.Item]) -> float:
        return sum(durations.get(item.nodeid, UNKNOWN) for item in group)

    return [item for group in sorted(groups.values(), key=seconds, reverse=True) for item in group]


def pytest_sessionstart(session: pytest.Session) -> None:
    """Once, before there are workers."""
    if not is_worker(session.config):
        byte_code()


@pytest.hookimpl(tryfirst=True)  # type: ignore[misc]
def pytest_collection_modifyitems(config: pytest.Config, items: list[pytest.Item]) -> None:
    """Before the workers' own plugin puts the group's name behind the test's."""
    if not is_worker(config):
        return
    items[:] = longest_first(items, read_durations(FILE.read_text()))
    for item in items:
        group = group_of(item)
        if group is not None and item.get_closest_marker(GROUP) is None:
            item.add_marker(pytest.mark.xdist_group(group))
