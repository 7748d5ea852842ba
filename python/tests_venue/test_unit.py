"""The unit of systemd, in which a venue may do what it needs alone."""
import pathlib
import re
import signal
import subprocess

import psutil
import pytest
import served
from callauction.venue import process, serving
from callauction.venue.__main__ import arguments
from certificates import certificate
from patience import until

UNIT = served.PACKAGE.parent / "packaging/debian/callboard-venue@.service"
HARDENED = {
    "NoNewPrivileges": "yes",
    "ProtectSystem": "strict",
    "ProtectHome": "yes",
    "PrivateTmp": "yes",
    "CapabilityBoundingSet": "",
    "RestrictAddressFamilies": "AF_INET AF_INET6 AF_UNIX AF_NETLINK",
    "User": "callboard",
    "UMask": "0077",
    "Type": "notify",
    "OOMPolicy": "continue",  # a report that is ended for its memory doesn't end the venue
}


def test_the_unit_runs_a_venue(tmp_path: pathlib.Path) -> None:
    """Its command lines are a venue's, which writes below its own folder alone."""
    lines = [line.partition("=") for line in UNIT.read_text().splitlines() if "=" in line]
    keys = {name: value for name, _, value in lines}
    assert {name: keys[name] for name in HARDENED} == HARDENED
    document = (UNIT.parents[2] / "docs/OPERATIONS.md").read_text()
    options = re.findall("OPTIONS=(--[^'\n]*)", document)
    assert len(options) == 2
    for name in ("ExecStartPre", "ExecStart"):
        python, words = keys[name].split(" -P -m callauction.venue ")
        assert python == "/usr/bin/python3"
        for option in options:
            asked = arguments().parse_args(words.replace("$OPTIONS", option).split())
            assert str(asked.folder).startswith(f"/var/lib/{keys['StateDirectory']}/")
            assert asked.check == (name == "ExecStartPre") and asked.day.suffix == ".toml"
    ends = int(keys["TimeoutStopSec"])
    assert ends > serving.END_SECONDS and int(keys["TimeoutStartSec"]) > process.START_SECONDS


def analyzed(*words: object) -> str:
    """What systemd-analyze prints."""
    command = ["systemd-analyze", *map(str, words)]
    return subprocess.run(command, check=True, capture_output=True, text=True).stdout


def test_systemd_takes_the_unit() -> None:
    analyzed("verify", UNIT)
    analyzed("security", "--offline=true", "--threshold=20", UNIT)  # 2.0 of 10


AS_SYSTEMD = """
mount -t tmpfs tmpfs /run && mkdir -p /run/systemd/system
PATH=$1:$PATH exec sh "$2" "$3" 1.0
"""
"""Runs a script of a package where systemd runs, with its `systemctl` from a folder."""


@pytest.mark.parametrize(
    "script, word, said",
    [
        ("postinst", "configure", ["daemon-reload"]),
        ("prerm", "remove", ["stop callboard-venue@*.service"]),
        ("prerm", "upgrade", []),
    ],
)
def test_what_the_package_does_with_venues_that_run(
    tmp_path: pathlib.Path, script: str, word: str, said: list[str]
) -> None:
    """A new unit is read, a removal ends them, and an upgrade doesn't."""
    systemctl = tmp_path / "systemctl"
    systemctl.write_text(f'#!/bin/sh\necho "$*" >> {tmp_path}/said\n')
    systemctl.chmod(0o700)
    (tmp_path / "said").touch()
    path = UNIT.parent / f"callboard-venue.{script}"
    words = ["unshare", "-rm", "sh", "-ec", AS_SYSTEMD, "sh", tmp_path, path, word]
    subprocess.run([*map(str, words)], check=True)
    assert (tmp_path / "said").read_text().splitlines() == said


def calls_of(name: str) -> set[str]:
    """The calls of the system in a set that systemd names."""
    lines = (line.strip() for line in analyzed("syscall-filter", name).splitlines()[1:])
    words = [line.split()[0] for line in lines if line and not line.startswith("#")]
    sets = [calls_of(word) for word in words if word.startswith("@")]
    return {word for word in words if not word.startswith("@")}.union(*sets)


def test_the_unit_allows_what_a_venue_does(tmp_path: pathlib.Path) -> None:
    (tmp_path / "day.toml").write_text("")
    words = ["--day", tmp_path / "day.toml", "--folder", tmp_path / "venue", "--log", "json"]
    words += [*certificate(tmp_path, "venue"), "--port", served.free_port()]
    words += ["--listen", "0.0.0.0", "--metrics", f"127.0.0.1:{served.free_port()}"]
    trace = ["strace", "-f", "-qq", "-o", tmp_path / "trace"]
    child = subprocess.Popen(
        [*map(str, trace), *served.words_of(*words)],
        env=served.environment(),
        stdout=subprocess.PIPE,
        stderr=subprocess.PIPE,
        text=True,
    )
    served.begun(child)
    [venue] = psutil.Process(child.pid).children()
    venue.send_signal(signal.SIGHUP)
    [program] = venue.children()
    program.kill()
    until(lambda: venue.children() not in ([], [program]))
    venue.terminate()
    child.communicate(timeout=served.SECONDS)
    text = (tmp_path / "trace").read_text()
    asked = {*re.findall(r"^\d+ +(\w+)\(", text, re.M)}
    assert len(asked) > 30 and asked <= calls_of("@system-service") - calls_of("@privileged")
    families = {*re.findall(r"\bsocket\((AF_\w+)", text)}
    assert "AF_INET" in families and families <= {*HARDENED["RestrictAddressFamilies"].split()}
