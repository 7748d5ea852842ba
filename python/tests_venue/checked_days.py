"""Days that `--check` looks at, and what it says of them."""
import pathlib
import subprocess

import served
from callauction.venue import Client
from conftest import FAST


def checked(*words: object) -> tuple[int, str, str]:
    """The status of `--check`, and what it prints."""
    ran = subprocess.run(
        served.words_of("--check", "--port", 0, *words),
        env=served.environment(),
        capture_output=True,
        text=True,
        timeout=served.SECONDS,
    )
    return ran.returncode, ran.stdout, ran.stderr


def contents(folder: pathlib.Path) -> dict[str, bytes]:
    """The files of a folder."""
    return {it.name: it.read_bytes() for it in folder.iterdir()}


def day_before(folder: pathlib.Path) -> list[object]:
    """A day with ten orders, which has ended: the words that go on with it."""
    with served.served(folder, FAST) as venue:
        token = venue.join("Anna")
        venue.do("start")
        with Client(venue.url, token) as me:
            for _ in range(10):
                me.enter("bid", 1, "2.00")
    return ["--day", folder / "day.toml", "--folder", folder / "venue"]
