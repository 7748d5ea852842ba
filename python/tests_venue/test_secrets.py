"""Tokens, and the files that hold them: power cuts, other owners, empty secrets."""
import contextlib
import os
import pathlib
import subprocess
import time
from collections.abc import Iterator

import pytest
import served
from callauction.venue import Client, owned, tokens
from callauction.venue.owned import OwnerError
from callauction.venue.tokens import TokenError
from conftest import FAST
from disk import Disk
from served import ended

FOLDER = pathlib.Path("venue")
OTHER = 65_534
"""The number of another user."""
MEGABYTE = 1 << 20
CUTS = (0.0, 2.5)
"""Seconds after the start at which the power is cut: names are written to the disk each second."""
SYNCED = FAST.replace("sync = false", "")


# ---- power cuts


def secret_on(disk: Disk, monkeypatch: pytest.MonkeyPatch) -> str:
    """The operator's token, as a venue on this disk has it."""
    monkeypatch.setattr(owned, "os", disk)
    return tokens.secret_of(FOLDER, "operator")


def test_no_power_cut_leaves_an_empty_token(monkeypatch: pytest.MonkeyPatch) -> None:
    disk = Disk()
    known = secret_on(disk, monkeypatch)
    assert disk.changes >= 7 and len(disk.states) > 10
    for state in disk.states:
        later = secret_on(disk.after(state), monkeypatch)
        assert tokens.TOKEN_FORM.fullmatch(later)
        if "operator.token" in state:
            assert state["operator.token"] == f"{known}\n".encode()
    for state in disk.crashes():
        assert secret_on(disk.after(state), monkeypatch) == known


def test_the_disk_of_the_test_forgets(monkeypatch: pytest.MonkeyPatch) -> None:
    disk = Disk()
    monkeypatch.setattr(disk, "fsync", lambda number: None)
    secret_on(disk, monkeypatch)
    assert {"operator.token": b""} in [*disk.crashes()]
    assert {} in [*disk.crashes()]


def test_a_token_that_cant_be_written_is_nobodys(monkeypatch: pytest.MonkeyPatch) -> None:
    whole = Disk()
    secret_on(whole, monkeypatch)
    for place in range(1, whole.changes):
        disk = Disk()
        disk.fails = place
        with pytest.raises(OSError):
            secret_on(disk, monkeypatch)
        assert "operator.token" not in disk.names
        disk.fails = 0
        assert tokens.TOKEN_FORM.fullmatch(secret_on(disk, monkeypatch))


DISKS = {"ext4": (32, "-F", "commit=1,noauto_da_alloc"), "xfs": (320, "-f", "nouuid")}
"""The megabytes of a disk, and how it is made and mounted."""


@contextlib.contextmanager
def mounted(kind: str, image: pathlib.Path, folder: pathlib.Path) -> Iterator[pathlib.Path]:
    """The disk of an image, mounted. Raises CalledProcessError where the host doesn't let us."""
    folder.mkdir()
    options = f"loop,{DISKS[kind][2]}"
    words = ["mount", "-t", kind, "-o", options, str(image), str(folder)]
    subprocess.run(words, check=True, capture_output=True)
    try:
        yield folder
    finally:
        subprocess.run(["umount", "--lazy", folder], check=True)


def disk_image(kind: str, path: pathlib.Path) -> None:
    """An empty disk of this file system. Raises CalledProcessError, and OSError."""
    with open(path, "wb") as image:
        image.truncate(DISKS[kind][0] * MEGABYTE)
    words = [f"mkfs.{kind}", "-q", DISKS[kind][1], str(path)]
    subprocess.run(words, check=True, capture_output=True)


@pytest.mark.parametrize("seconds", CUTS)
@pytest.mark.parametrize("kind", DISKS)
def test_a_power_cut(tmp_path: pathlib.Path, kind: str, seconds: float) -> None:
    image, copy = tmp_path / "disk", tmp_path / "copy"
    with contextlib.ExitStack() as stack:
        try:
            disk_image(kind, image)
            place = stack.enter_context(mounted(kind, image, tmp_path / "before"))
        except (subprocess.CalledProcessError, OSError):
            print("this host mounts no disks: the disk in memory is all")
            return
        with served.served(place, SYNCED) as venue:
            member = venue.join("Anna")
            venue.do("start")
            with Client(venue.url, member) as me:
                assert [me.enter("bid", 1, "2.00").entry for _ in range(20)] == [*range(1, 21)]
            time.sleep(seconds)
            subprocess.run(["cp", "--sparse=always", image, copy], check=True)
            after = stack.enter_context(mounted(kind, copy, tmp_path / "after"))
            kept = after / "venue"
            assert (kept / "operator.token").read_text() == f"{venue.operator}\n"
            assert (kept / "beamer.token").read_text() == f"{venue.beamer}\n"
            assert f'"token":"{tokens.digest(member)}"' in (kept / "venue.log").read_text()


# ---- secrets


def test_an_empty_secret_is_nobodys() -> None:
    assert not tokens.is_same_secret("", "")
    assert not tokens.is_same_secret("a", "") and not tokens.is_same_secret("", "a")
    assert tokens.is_same_secret("a", "a") and not tokens.is_same_secret("a", "b")


@pytest.mark.parametrize("content", [b"", b"\n", b"short\n", b"a" * 33, b"\0" * 32, b"\xff" * 32])
def test_a_file_without_a_token(tmp_path: pathlib.Path, content: bytes) -> None:
    path = tmp_path / "operator.token"
    path.write_bytes(content)
    path.chmod(0o600)
    with pytest.raises(TokenError) as found:
        tokens.secret_of(tmp_path, "operator")
    assert str(found.value) == f"{path} holds no token: remove it, and the next start makes one"
    path.unlink()
    made = tokens.secret_of(tmp_path, "operator")
    assert tokens.secret_of(tmp_path, "operator") == made
    assert path.stat().st_mode & 0o777 == 0o600
    assert [*tmp_path.iterdir()] == [path]


def test_a_venue_with_an_empty_token(tmp_path: pathlib.Path) -> None:
    folder = tmp_path / "venue"
    folder.mkdir(mode=0o700)
    (folder / "operator.token").touch(mode=0o600)
    text = f"{folder}/operator.token holds no token: remove it, and the next start makes one"
    assert ended("--folder", folder, "--port", 0) == (1, f"venue: {text}\n")


# ---- other owners


FILES = ("operator.token", "beamer.token", "venue.log", "XYZ.journal.csv")
WHAT = ("owned", "written") if os.geteuid() == 0 else ("written",)
"""Only root gives files away."""


def test_a_token_of_another_user(monkeypatch: pytest.MonkeyPatch) -> None:
    disk = Disk()
    secret_on(disk, monkeypatch)
    disk.names["operator.token"].owner = OTHER
    with pytest.raises(OwnerError, match="venue/operator.token belongs to another user"):
        secret_on(disk, monkeypatch)


@pytest.mark.parametrize("name", ["", *FILES])
@pytest.mark.parametrize("what", WHAT)
def test_what_others_own_or_may_write_is_refused(
    tmp_path: pathlib.Path, name: str, what: str
) -> None:
    with served.served(tmp_path, FAST) as venue:
        venue.join("Anna")
    path = tmp_path / "venue" / name
    before = {it.name: it.read_bytes() for it in (tmp_path / "venue").iterdir()}
    if what == "owned":
        os.chown(path, OTHER, OTHER)
        text = f"venue: {path} belongs to another user: find out who, then chown\n"
    else:
        path.chmod(path.stat().st_mode | 0o020)
        text = f"venue: {path} may be written by other users: chmod go-w\n"
    assert ended("--day", tmp_path / "day.toml", "--folder", tmp_path / "venue", "--port", 0) == (
        2, text
    )
    assert {it.name: it.read_bytes() for it in (tmp_path / "venue").iterdir()} == before


def test_a_secret_that_others_may_read(tmp_path: pathlib.Path) -> None:
    tokens.secret_of(tmp_path, "operator")
    (tmp_path / "operator.token").chmod(0o644)
    with pytest.raises(OwnerError, match="may be read by other users: chmod go-rwx"):
        tokens.secret_of(tmp_path, "operator")


def test_a_link_in_the_place_of_a_token(tmp_path: pathlib.Path) -> None:
    (tmp_path / "mine").write_text("a" * 32)
    (tmp_path / "operator.token").symlink_to(tmp_path / "mine")
    with pytest.raises(OwnerError, match="operator.token is a link: put the file itself there"):
        tokens.secret_of(tmp_path, "operator")


@pytest.mark.parametrize("name", ["venue.log", "operator.token", "XYZ.journal.csv"])
@pytest.mark.parametrize("is_there", [False, True])
def test_a_link_in_the_place_of_a_file(tmp_path: pathlib.Path, name: str, is_there: bool) -> None:
    """A start and --check say the same, by a status after which systemd doesn't try again."""
    with served.served(tmp_path, FAST):
        pass
    path, folder = tmp_path / "venue" / name, tmp_path / "venue"
    path.rename(tmp_path / "own")
    path.symlink_to(tmp_path / ("own" if is_there else "gone"))
    told = f"venue: {path} is a link: put the file itself there\n"
    for more in ("--hide-tokens", "--check"):
        words = [more, "--day", tmp_path / "day.toml", "--folder", folder, "--port", 0]
        assert ended(*words) == (2, told)


@pytest.mark.skipif("owned" not in WHAT, reason="only root gives links away")
def test_a_link_of_another_user_in_the_place_of_the_folder(tmp_path: pathlib.Path) -> None:
    (tmp_path / "mine").mkdir(mode=0o700)
    link = tmp_path / "venue"
    link.symlink_to(tmp_path / "mine")
    owned.make_folder(link)
    os.chown(link, OTHER, OTHER, follow_symlinks=False)
    with pytest.raises(OwnerError, match="is a link of another user"):
        owned.make_folder(link)


def test_all_that_a_venue_makes_is_its_users_alone(tmp_path: pathlib.Path) -> None:
    before = os.umask(0o022)
    try:
        with served.served(tmp_path, FAST) as venue:
            venue.join("Anna")
            venue.do("start")
    finally:
        os.umask(before)
    folder = tmp_path / "venue"
    modes = {it.name: it.stat().st_mode & 0o777 for it in folder.iterdir()}
    assert modes == dict.fromkeys([*FILES, "XYZ.members.csv", "results.csv"], 0o600)
    assert folder.stat().st_mode & 0o777 == 0o700
