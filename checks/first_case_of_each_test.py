"""A plugin of pytest that runs one case of each test: the first of those that differ by their
parameters alone.
"""
from collections.abc import Callable

import pytest


def pytest_collection_modifyitems(config: pytest.Config, items: list[pytest.Item]) -> None:
    """Leaves out the other cases."""
    keep_firsts(config, items, lambda item: item.nodeid.partition("[")[0])


def keep_firsts(
    config: pytest.Config, items: list[pytest.Item], kind_of: Callable[[pytest.Item], object]
) -> None:
    """Leaves out all but the first item of each kind."""
    firsts: dict[object, pytest.Item] = {}
    for item in items:
        firsts.setdefault(kind_of(item), item)
    kept = [*firsts.values()]
    config.hook.pytest_deselected(items=[item for item in items if item not in kept])
    items[:] = kept
