"""A plugin of pytest that ends what is printed with `N passed, N failed`, as each part of the test
command does.
"""
import pytest


class Counts:
    """How many tests passed and failed. A test that is skipped, or that pytest doesn't come to,
    failed. A try that failed and was made again counts as nothing, and is printed.
    """

    def __init__(self) -> None:
        self.passed = self.failed = 0
        self.again: list[pytest.TestReport] = []

    def pytest_runtest_logreport(self, report: pytest.TestReport) -> None:
        """Counts a test once: where it failed, or at the end of its call."""
        self.passed += report.when == "call" and report.passed
        self.failed += report.failed or report.skipped
        if str(report.outcome) == "rerun":
            self.again.append(report)

    def pytest_collectreport(self, report: pytest.CollectReport) -> None:
        """Counts a file that can't be imported."""
        self.failed += report.failed

    def pytest_sessionfinish(self, exitstatus: int) -> None:
        """Counts a fault of pytest itself, or a run without a test."""
        self.failed += exitstatus != 0 and self.failed == 0

    def pytest_unconfigure(self) -> None:
        """Prints what was tried again and why, and the closing line."""
        for report in self.again:
            print(f"tried again: {report.nodeid}: {report.longreprtext}")
        print(f"{self.passed} passed, {self.failed} failed")
