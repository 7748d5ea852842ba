"""Run in a network of its own (unshare): a venue that listens there, and what each address finds
of it. Its first word is a folder, the others are `ip` commands, `venue` and `ask HOST` between
them. Prints what came of each, as JSON.
"""
import json
import pathlib
import subprocess
import sys
import urllib.error
import urllib.request
from typing import Any
from urllib.parse import urlsplit

sys.path.insert(0, str(pathlib.Path(__file__).resolve().parent))  # also where PYTHONSAFEPATH is set

import served  # noqa: E402

PORT = 8080


def said_of(host: str) -> int | str:
    """The status of the first page by this address, or the fault of the connection."""
    try:
        with urllib.request.urlopen(f"http://{host}:{PORT}/", timeout=served.SECONDS) as answer:
            return int(answer.status)
    except urllib.error.HTTPError as fault:
        with fault:
            return fault.code
    except OSError as fault:
        return str(fault)


def main(folder: pathlib.Path, commands: list[str]) -> None:
    """Does the commands; prints what they came to."""
    hosts = folder / "hosts"
    hosts.write_text("127.0.0.1 localhost\n127.0.1.1 laptop\n10.42.0.1 elsewhere\n")
    for words in (f"mount --bind {hosts} /etc/hosts", "hostname laptop", "ip link set lo up"):
        subprocess.run(words.split(), check=True)
    venue: served.Served | None = None
    found: list[Any] = []
    try:
        for command in commands:
            word, *rest = command.split()
            if word == "venue":
                (folder / "day.toml").write_text("sync = false\n")
                named = ["--day", folder / "day.toml", "--folder", folder / "venue"]
                where = ["--port", PORT, "--listen", rest[0], "--insecure", *rest[1:]]
                venue = served.started(*named, *where)
                found.append({"members": urlsplit(venue.url).hostname, "others": venue.others})
            elif word == "ask":
                found.append(said_of(rest[0]))
            else:
                subprocess.run(["ip", word, *rest], check=True)
    finally:
        if venue is not None:
            venue.end()
    print(json.dumps(found))


if __name__ == "__main__":
    main(pathlib.Path(sys.argv[1]), sys.argv[2:])
