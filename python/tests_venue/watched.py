"""What who watches a venue is told: pages and measures."""
import urllib.error
import urllib.request
from typing import Any

import served
from prometheus_client.parser import text_string_to_metric_families


def looked(url: str) -> tuple[int, str]:
    """The status and the text of a page."""
    try:
        with urllib.request.urlopen(url, timeout=served.SECONDS) as answer:
            return answer.status, answer.read().decode()
    except urllib.error.HTTPError as fault:
        with fault:
            return fault.code, fault.read().decode()


def measured(url: str) -> dict[str, dict[tuple[str, ...], float]]:
    """The samples of /metrics, by their names and the values of their labels."""
    found: dict[str, dict[tuple[str, ...], float]] = {}
    families: Any = text_string_to_metric_families
    for family in families(looked(f"{url}/metrics")[1]):
        for sample in family.samples:
            found.setdefault(sample.name, {})[tuple(sample.labels.values())] = sample.value
    return found
