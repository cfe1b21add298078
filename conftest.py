"""Options and fixtures of all tests: tests/README.md says how they are used."""

pytest_plugins = (
    "tests.harness.options",
    "tests.harness.side_by_side",
    "tests.harness.fixtures",
)
