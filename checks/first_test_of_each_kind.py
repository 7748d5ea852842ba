"""A plugin of pytest that runs one test of each kind: the first of those of a file that take the
same fixtures, as a venue, its pages in a browser, or a session of FIX.
"""
import pytest
from first_case_of_each_test import keep_firsts


def pytest_collection_modifyitems(config: pytest.Config, items: list[pytest.Item]) -> None:
    """Leaves out the others."""
    keep_firsts(config, items, kind_of)


def kind_of(item: pytest.Item) -> tuple[str, frozenset[str]]:
    """A test's file, and its fixtures without its parameters."""
    assert isinstance(item, pytest.Function)
    parameters = item.callspec.params if hasattr(item, "callspec") else {}
    return item.nodeid.partition("::")[0], frozenset({*item.fixturenames} - parameters.keys())
