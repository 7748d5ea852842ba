"""What others install: by ./install, by the packages of ./release, by pip, by a tarball.

Each is installed, used without the toolchain on the path, and removed without a rest. The packages
of Debian are installed in a fresh root that mmdebstrap makes, where this runs as root and Debian's
packages can be fetched; elsewhere, and in a short run, they are unpacked to a folder of their own.
A table at the end says which. Takes the built program (--program) and what library/build wrote
(--library).
"""
import contextlib
import json
import os
import pathlib
import re
import shutil
import signal
import subprocess
import sys
import tarfile
import textwrap
from collections.abc import Iterator
from hashlib import sha256
from typing import Any

import pytest

from checks.built import TOP

sys.path[:0] = [str(TOP / "checks"), str(TOP / "build")]

import installed_files  # noqa: E402
import proved_binaries  # noqa: E402
import runner  # noqa: E402
import version  # noqa: E402
from proved_binaries import ARCHIVE, SONAME  # noqa: E402

Ran = subprocess.CompletedProcess[str]
OF_A_USER = {"./etc/shadow-", "./etc/gshadow-"}
"""What is left of a user whom a package has made, as such users stay."""
PATH = "/usr/local/sbin:/usr/local/bin:/usr/sbin:/usr/bin:/sbin:/bin"
"""A path without the toolchain."""
ORDERS, ANSWERS = ((TOP / f"examples/opening.{it}").read_text() for it in ("csv", "txt"))
PYTHON = """
from callauction import Auction, Side

with Auction(low=1, high=1000, reference=200, max_open=4096, max_calls=65536) as auction:
    auction.enter(1, Side.BID, 500, limit=200)
    auction.enter(2, Side.ASK, 300)
    print(auction.indicate(1).volume, auction.uncross().price.tick, len(auction.trades()))
"""
PRINTED = "300 200 1\n"
README = re.compile(r"^(    from callauction import .*\n(?:    .*\n)+)", re.MULTILINE)
"""README's lines of Python."""
C = """
#include <callauction.h>
#include <stdio.h>

int main(void) {
    callauction_handle auction = {0};
    callauction_config config = {.low = 1, .high = 9, .reference = 5, .max_open = 9};
    config.max_calls = 9;
    uint32_t opened = callauction_open(&auction, &config);
    uint32_t closed = callauction_close(&auction);
    printf("%u %u\\n", (unsigned)opened, (unsigned)closed);
    return 0;
}
"""
CMAKE = """
cmake_minimum_required(VERSION 3.20)
project(user C)
find_package(callauction 2026 REQUIRED)
add_executable(shared user.c)
target_link_libraries(shared callauction::callauction)
add_executable(static user.c)
target_link_libraries(static callauction::static)
"""
VERSIONS = """
cmake_minimum_required(VERSION 3.20)
project(user C)
foreach(wanted IN LISTS WANTED)
    unset(callauction_DIR CACHE)
    find_package(callauction ${wanted} QUIET)
    message("${wanted} ${callauction_FOUND}")
endforeach()
"""
CRATES = TOP / "crates.txt"
FILES = [
    "bin/callboard",
    "include/callauction.h",
    "include/callauction.hpp",
    "lib/cmake/callauction/callauctionConfig.cmake",
    "lib/cmake/callauction/callauctionConfigVersion.cmake",
    "lib/libcallauction.a",
    "lib/libcallauction.so",
    "lib/libcallauction.so.1",
    "lib/pkgconfig/callauction.pc",
    "share/bash-completion/completions/callboard",
    "share/callauction/installed",
    "share/man/man1/callboard.1",
]


@pytest.fixture(scope="session")
def built(pytestconfig: pytest.Config, program: str) -> dict[str, str]:
    """The environment that names the built program and the built library."""
    library = pytestconfig.option.library
    assert library, "--library names no folder that library/build wrote"
    return {"CALLBOARD_PROGRAM": program, "CALLBOARD_LIBRARY": str(pathlib.Path(library).resolve())}


@pytest.fixture(scope="session")
def is_short(pytestconfig: pytest.Config) -> bool:
    """Whether this is a short run."""
    return bool(pytestconfig.pluginmanager.has_plugin("checks.first_case_of_each_test"))


def run(
    *words: object,
    env: dict[str, str] | None = None,
    cwd: pathlib.Path | None = None,
    input: str = "",
) -> Ran:
    """A command without the toolchain on the path, and what it prints."""
    return subprocess.run(
        list(map(str, words)),
        env={"PATH": PATH, "HOME": "/nonexistent", "LC_ALL": "C.UTF-8", **(env or {})},
        cwd=cwd,
        input=input,
        capture_output=True,
        text=True,
    )


def done(
    *words: object,
    env: dict[str, str] | None = None,
    cwd: pathlib.Path | None = None,
    input: str = "",
) -> str:
    """What a command prints that has to end with status 0."""
    ran = run(*words, env=env, cwd=cwd, input=input)
    assert ran.returncode == 0, f"{words} ended with {ran.returncode}: {ran.stdout}{ran.stderr}"
    return ran.stdout


def is_whole(prefix: pathlib.Path) -> bool:
    """Whether a package that is installed below a prefix has all its files."""
    return done(TOP / "checks/package.py", prefix).endswith(" passed, 0 failed\n")


def files_below(folder: pathlib.Path) -> list[str]:
    """The files and links below a folder, by their paths in it, but for those of Python."""
    found = (it for it in folder.rglob("*") if it.is_symlink() or it.is_file())
    places = (str(it.relative_to(folder)) for it in found)
    return sorted(place for place in places if "dist-packages" not in place)


# ---- ./callboard


def test_a_file_that_is_too_long_is_no_signal(tmp_path: pathlib.Path) -> None:
    shutil.copy(TOP / "callboard", tmp_path)
    program = tmp_path / "crates/callboard/out/callboard"
    program.parent.mkdir(parents=True)
    program.write_text("#!/bin/sh\ngrep SigIgn /proc/$$/status\n")
    program.chmod(0o755)
    ignored = int(done(tmp_path / "callboard").split()[1], 16)
    assert ignored >> (signal.SIGXFSZ - 1) & 1


# ---- ./install


@pytest.mark.parametrize("is_staged", [True, False], ids=["with a stage", "without a stage"])
def test_what_is_installed_is_whole_and_taken_away_whole(
    built: dict[str, str], tmp_path: pathlib.Path, is_staged: bool
) -> None:
    room = tmp_path / "a room"
    prefix = "/usr" if is_staged else str(room / "own")
    env = built | ({"DESTDIR": str(room)} if is_staged else {})
    place = pathlib.Path(str(room) + prefix) if is_staged else room / "own"
    done(TOP / "install", prefix, env=env)
    assert files_below(place) == FILES and is_whole(place)
    assert done(place / "bin/callboard", input=ORDERS) == ANSWERS
    version = done(TOP / "build/version.py").strip()
    assert f'"callboard {version}"' in (place / "share/man/man1/callboard.1").read_text()
    done(TOP / "install", prefix, env=env)  # over itself
    (place / "share/other").write_text("stays\n")
    done(TOP / "install", "--remove", prefix, env=env)
    assert [it for it in place.rglob("*") if it.is_file()] == [place / "share/other"]
    os.remove(place / "share/other")
    assert [*place.rglob("*")] == [place / "share"]


def test_all_may_use_what_is_installed_under_any_umask(
    built: dict[str, str], tmp_path: pathlib.Path
) -> None:
    place = tmp_path / "own"
    words = [TOP / "install", "--without-python", place]
    done("sh", "-c", 'umask 077; exec "$@"', "", *words, env=built)
    modes = {it: it.stat().st_mode & 0o777 for it in (place, *place.rglob("*"))}
    assert {mode for it, mode in modes.items() if it.is_dir()} == {0o755}
    assert {mode for it, mode in modes.items() if it.is_file()} == {0o755, 0o644}


def test_what_is_installed_works_in_python_and_in_c(
    built: dict[str, str], tmp_path: pathlib.Path
) -> None:
    place = tmp_path / "a place"
    installed = run(TOP / "install", place, env=built)
    assert installed.returncode == 0 and f"LD_LIBRARY_PATH={place}/lib" in installed.stderr
    (packages,) = place.glob("lib/python3*/dist-packages")
    assert f"PYTHONPATH={packages}" in installed.stderr
    assert done("/usr/bin/python3", "-c", PYTHON, env={"PYTHONPATH": str(packages)}) == PRINTED
    user = tmp_path / "user.c"
    user.write_text(C)
    env = {"PKG_CONFIG_PATH": f"{place}/lib/pkgconfig", "LD_LIBRARY_PATH": f"{place}/lib"}
    compile_it = 'eval cc -o "$1" "$2" $(pkg-config --cflags --libs callauction)'
    (tmp_path / "with").mkdir()
    done("bash", "-c", compile_it, "", "with/user", "user.c", env=env, cwd=tmp_path)
    assert done(tmp_path / "with/user", env=env) == "0 0\n"
    version = done(TOP / "build/version.py")
    assert done("pkg-config", "--modversion", "callauction", env=env) == version
    use_by_cmake(place, tmp_path)
    done(TOP / "install", "--remove", place, env=built)
    assert not place.exists()


def use_by_cmake(prefix: pathlib.Path, folder: pathlib.Path) -> None:
    """Builds two programs by CMake with the library below a prefix, and runs them."""
    (folder / "user.c").write_text(C)
    (folder / "CMakeLists.txt").write_text(CMAKE)
    done("cmake", "-S", folder, "-B", folder / "cmake", f"-DCMAKE_PREFIX_PATH={prefix}")
    done("cmake", "--build", folder / "cmake")
    for name in ("shared", "static"):
        assert done(folder / "cmake" / name) == "0 0\n"


def test_cmake_finds_a_version_that_is_asked_for(tmp_path: pathlib.Path) -> None:
    """From the first one on, and no later than the end of a range."""
    for item in installed_files.library_texts("lib"):
        place = tmp_path / "own" / item.place
        place.parent.mkdir(parents=True, exist_ok=True)
        place.write_bytes(item.content)
    own = version.version()
    wanted = {"2026": 1, own: 1, "9999": 0, "2025...9999": 1, "2025...2026.1": 0}
    wanted |= {f"2025...{own}": 1, f"2025...<{own}": 0, "9998...9999": 0}
    (tmp_path / "CMakeLists.txt").write_text(VERSIONS)
    words = ["cmake", "-S", tmp_path, "-B", tmp_path / "made", f"-DWANTED={';'.join(wanted)}"]
    ran = run(*words, f"-DCMAKE_PREFIX_PATH={tmp_path / 'own'}")
    assert ran.returncode == 0
    found = dict(line.split() for line in ran.stderr.splitlines())
    assert found == {name: str(is_found) for name, is_found in wanted.items()}


def snapshot(folder: pathlib.Path) -> dict[str, str]:
    """What is below a folder: each path with its target or its text."""
    found = {}
    for path in folder.rglob("*"):
        target = os.readlink(path) if path.is_symlink() else ""
        found[str(path)] = target or (path.read_text() if path.is_file() else "")
    return found


HINDRANCES = {
    "a link to a folder": ("lib/libcallauction.so", "link"),
    "a folder": ("bin/callboard", "folder"),
    "somebody's own file": ("bin/callboard", "file"),
    "a link in place of a folder": ("include", "link"),
    "a file in place of a folder": ("share", "file"),
    "a link in place of the list": ("share/callauction", "link"),
}


@pytest.mark.parametrize("what", HINDRANCES)
def test_what_is_in_the_way_stays(
    what: str, built: dict[str, str], tmp_path: pathlib.Path
) -> None:
    place, other = tmp_path / "own", tmp_path / "other"
    other.mkdir()
    name, kind = HINDRANCES[what]
    path = place / name
    path.parent.mkdir(parents=True)
    if kind == "link":
        path.symlink_to(other)
    elif kind == "folder":
        path.mkdir()
    else:
        path.write_text("somebody's\n")
    before = snapshot(tmp_path)
    ran = run(TOP / "install", "--without-python", place, env=built)
    assert ran.returncode == 1 and str(path) in ran.stderr
    assert snapshot(tmp_path) == before
    assert run(TOP / "install", "--remove", place, env=built).returncode == 1
    assert snapshot(tmp_path) == before


def test_what_was_changed_stays(built: dict[str, str], tmp_path: pathlib.Path) -> None:
    done(TOP / "install", "--without-python", tmp_path, env=built)
    (tmp_path / "include/callauction.h").write_text("mine\n")
    ran = run(TOP / "install", "--without-python", tmp_path, env=built)
    assert ran.returncode == 1 and "callauction.h is there and was changed since" in ran.stderr
    ran = run(TOP / "install", "--remove", tmp_path, env=built)
    assert ran.returncode == 1 and "callauction.h" in ran.stderr
    assert files_below(tmp_path) == ["include/callauction.h"]


@pytest.mark.parametrize("words", [["here"], [], ["/a", "/b"], ["--other", "/a"]])
def test_wrong_words_are_refused(words: list[str]) -> None:
    ran = run(TOP / "install", *words)
    assert ran.returncode == 2
    assert words != ["here"] or "'here' doesn't begin with /" in ran.stderr


def test_the_help_names_what_it_reads() -> None:
    said = done(TOP / "install", "--help")
    assert all(name in said for name in ("CALLBOARD_PROGRAM", "CALLBOARD_LIBRARY", "DESTDIR"))


@pytest.mark.parametrize("variable", ["CALLBOARD_PROGRAM", "CALLBOARD_LIBRARY"])
def test_a_wrong_path_is_named_with_its_variable(variable: str, tmp_path: pathlib.Path) -> None:
    env = {"CALLBOARD_PROGRAM": "/bin/true", variable: "/nowhere"}
    ran = run(TOP / "install", tmp_path / "own", env=env)
    what = variable.removeprefix("CALLBOARD_").lower()
    assert ran.returncode == 1 and not (tmp_path / "own").exists()
    assert ran.stderr == f"install: {variable} names no {what}: /nowhere\n"


OTHERS = {
    "a text": "cambridge\n",
    "another program": "#!/bin/sh\necho some tool\n",
    "another version": "#!/bin/sh\necho callboard 2020.1.1\n",
    "a program that fails": "#!/bin/sh\necho callboard VERSION\nexit 1\n",
}
"""What is named as the program, and isn't the library's; VERSION is that of the library."""


@pytest.mark.parametrize("what", OTHERS)
def test_a_program_that_is_not_the_librarys_is_refused(
    what: str, built: dict[str, str], tmp_path: pathlib.Path
) -> None:
    own = version.version()
    other = tmp_path / "other"
    other.write_text(OTHERS[what].replace("VERSION", own))
    other.chmod(0o644 if what == "a text" else 0o755)
    env = built | {"CALLBOARD_PROGRAM": str(other)}
    ran = run(TOP / "install", "--without-python", tmp_path / "own", env=env)
    assert ran.returncode == 1 and not (tmp_path / "own").exists()
    named = f"CALLBOARD_PROGRAM names no program of the library's version, {own}"
    assert ran.stderr == f"install: {named}: {other}\n"


def test_the_library_can_be_installed_alone(built: dict[str, str], tmp_path: pathlib.Path) -> None:
    """No program is asked for or built, nor is one that is named put there."""
    env = built | {"CALLBOARD_PROGRAM": "/nowhere"}
    words = [TOP / "install", "--without-program", "--without-python", tmp_path]
    done(*words, env=env)
    of_program = ("bin/", "share/man/", "share/bash-completion/")
    assert files_below(tmp_path) == [it for it in FILES if not it.startswith(of_program)]
    done(TOP / "install", "--remove", tmp_path, env=env)
    assert files_below(tmp_path) == []


def test_a_second_run_says_what_it_takes_away(
    built: dict[str, str], tmp_path: pathlib.Path
) -> None:
    done(TOP / "install", tmp_path, env=built)
    before = [it for it in tmp_path.rglob("*") if it.is_file()]
    ran = run(TOP / "install", "--without-python", tmp_path, env=built)
    gone = [str(it.relative_to(tmp_path)) for it in before if not it.exists()]
    said = [line for line in ran.stderr.splitlines() if "taken away" in line]
    assert ran.returncode == 0 and len(gone) > 10
    assert sorted(said) == [
        f"install: {place}: taken away, as this run doesn't install it" for place in sorted(gone)
    ]


# ---- pip


@pytest.fixture
def venv(tmp_path: pathlib.Path) -> pathlib.Path:
    """A fresh environment that sees Debian's packages; nothing is fetched."""
    folder = tmp_path / "venv"
    done("/usr/bin/python3", "-m", "venv", "--system-site-packages", folder)
    return folder


def test_pip_installs_from_the_sources_by_a_named_library(
    built: dict[str, str], venv: pathlib.Path, tmp_path: pathlib.Path
) -> None:
    words = [venv / "bin/pip", "install", "--no-index", "--no-build-isolation", TOP / "python"]
    ran = run(*words, env={"PKG_CONFIG_PATH": "/none"}, cwd=tmp_path)
    assert ran.returncode != 0
    assert "library/build FOLDER" in ran.stdout + ran.stderr
    done(*words, env={"CALLAUCTION_LIBRARY": built["CALLBOARD_LIBRARY"]}, cwd=tmp_path)
    assert done(venv / "bin/python", "-c", PYTHON, cwd=tmp_path) == PRINTED
    done(venv / "bin/pip", "uninstall", "-y", "callauction")
    assert [*venv.rglob("*callauction*")] == []


def test_pip_installs_from_the_sources_by_an_installed_library(
    built: dict[str, str], venv: pathlib.Path, tmp_path: pathlib.Path
) -> None:
    place = tmp_path / "a place"
    done(TOP / "install", "--without-python", place, env=built)
    words = [venv / "bin/pip", "install", "--no-index", "--no-build-isolation", TOP / "python"]
    done(*words, env={"PKG_CONFIG_PATH": f"{place}/lib/pkgconfig"}, cwd=tmp_path)
    assert done(venv / "bin/python", "-c", PYTHON, cwd=tmp_path) == PRINTED


# ---- ./release


RESULT, KIT = "1234 passed, 0 failed", "a kit"


@pytest.fixture(scope="session")
def gate(built: dict[str, str], tmp_path_factory: pytest.TempPathFactory) -> dict[str, Any]:
    """What the test command would have written of a gate over the binaries of these tests."""
    library = pathlib.Path(built["CALLBOARD_LIBRARY"])
    files = {name: library / name for name in (SONAME, ARCHIVE)}
    files["callboard"] = pathlib.Path(built["CALLBOARD_PROGRAM"])
    return {
        "commit": done("git", "rev-parse", "HEAD", cwd=TOP).strip(),
        "tree": proved_binaries.tree_of_files(),
        "files": {name: sha256(path.read_bytes()).hexdigest() for name, path in files.items()},
        "result": RESULT,
        "kit": KIT,
        "parts": [part.name for part in runner.PARTS],
    }


@pytest.fixture(scope="session")
def words(gate: dict[str, Any], tmp_path_factory: pytest.TempPathFactory) -> list[str]:
    """The options of ./release: that gate, and a key."""
    folder = tmp_path_factory.mktemp("gate")
    (folder / "gate.json").write_text(json.dumps(gate))
    done("openssl", "genpkey", "-algorithm", "ed25519", "-out", folder / "key.pem")
    done("openssl", "pkey", "-in", folder / "key.pem", "-pubout", "-out", folder / "public.pem")
    return ["--gate", str(folder / "gate.json"), "--sign", str(folder / "key.pem")]


@pytest.fixture(scope="session")
def release(
    built: dict[str, str], words: list[str], tmp_path_factory: pytest.TempPathFactory
) -> pathlib.Path:
    """What ./release makes."""
    folder = tmp_path_factory.mktemp("release") / "made"
    made(folder, built, *words)
    return folder


def made(folder: pathlib.Path, built: dict[str, str], *words: str, umask: int = 0o022) -> None:
    """Makes a release."""
    env = {**os.environ, **built}
    command = ["sh", "-c", f'umask {umask:o}; exec "$@"', "", TOP / "release", *words, folder]
    subprocess.run(command, env=env, check=True, stdout=subprocess.DEVNULL)


def test_the_same_commit_gives_the_same_bytes(
    release: pathlib.Path, built: dict[str, str], words: list[str], tmp_path: pathlib.Path
) -> None:
    version = done(TOP / "build/version.py", "--release", cwd=TOP).strip()
    assert re.fullmatch(r"\d{4}\.\d+\.\d+\+g[0-9a-f]{7,}(\.changed)?", version)
    names = {
        "PROVED.txt",
        "SHA256SUMS",
        "SHA256SUMS.sig",
        "sbom.spdx.json",
        f"callauction-{version}-cp311-cp311-linux_x86_64.whl",
        f"callboard-{version}-linux-x86_64.tar.gz",
        *(f"{name}_{version}_amd64.deb" for name in DEBIAN),
    }
    assert {path.name for path in release.iterdir()} == names
    done("sha256sum", "--check", "--strict", "SHA256SUMS", cwd=release)
    made(tmp_path / "again", built, *words, umask=0o077)
    for name in names:
        assert (tmp_path / "again" / name).read_bytes() == (release / name).read_bytes(), name


def test_another_commit_is_another_version(tmp_path: pathlib.Path) -> None:
    for place in ("build/version.py", "crates/settings/src/options.rt"):
        (tmp_path / place).parent.mkdir(parents=True)
        shutil.copy(TOP / place, tmp_path / place)
    git = ["git", "-c", "user.name=a", "-c", "user.email=a@b.example"]
    versions = []
    done(*git, "init", "-q", cwd=tmp_path)
    done(*git, "add", ".", cwd=tmp_path)
    for _ in range(2):
        done(*git, "commit", "-q", "--allow-empty", "-m", "a change", cwd=tmp_path)
        versions.append(done(tmp_path / "build/version.py", "--release", cwd=tmp_path).strip())
    assert len({*versions}) == 2 and not any(it.endswith(".changed") for it in versions)
    (tmp_path / "another").touch()
    last = done(tmp_path / "build/version.py", "--release", cwd=tmp_path).strip()
    assert last == f"{versions[1]}.changed"


def test_proved_txt_says_what_was_proved_of_which_files(
    release: pathlib.Path, gate: dict[str, Any]
) -> None:
    lines = (release / "PROVED.txt").read_text().splitlines()
    heads = [line.partition(":")[0] for line in lines]
    assert heads[:4] == ["version", "commit", "kit", "gate"]
    assert re.match(r"commit: [0-9a-f]{40}\b", lines[1])
    assert lines[2:4] == [f"kit: {KIT}", f"gate: {RESULT}"]
    for name in ("callboard", SONAME):
        assert f"{name} as built: SHA-256 {gate['files'][name]}" in lines


def test_the_sums_are_signed(
    release: pathlib.Path, words: list[str], tmp_path: pathlib.Path
) -> None:
    public = pathlib.Path(words[-1]).with_name("public.pem")
    verify = ["openssl", "pkeyutl", "-verify", "-pubin", "-inkey", public, "-rawin"]
    signature = ["-sigfile", release / "SHA256SUMS.sig"]
    assert "Verified" in done(*verify, "-in", release / "SHA256SUMS", *signature)
    changed = tmp_path / "SHA256SUMS"
    changed.write_text((release / "SHA256SUMS").read_text().replace("a", "b"))
    assert run(*verify, "-in", changed, *signature).returncode != 0


def test_the_bill_of_materials_names_what_it_is_made_of(
    release: pathlib.Path, gate: dict[str, Any]
) -> None:
    found = json.loads((release / "sbom.spdx.json").read_text())
    assert (found["spdxVersion"], found["SPDXID"]) == ("SPDX-2.3", "SPDXRef-DOCUMENT")
    packages = {it["name"]: it for it in found["packages"]}
    crates = {path.name for path in (TOP / "crates").iterdir()}
    named = {line.partition(":")[0].split()[0] for line in CRATES.read_text().splitlines() if line}
    assert crates & named <= packages.keys() and {"csv", "clap", "memchr"} <= packages.keys()
    assert packages["rattle-kit"]["versionInfo"] == packages["csv"]["versionInfo"] == KIT
    assert {"python3-numpy", "libc6", "python3-aiohttp", "gcc"} <= packages.keys()
    assert re.fullmatch(r"[0-9].*", packages["gcc"]["versionInfo"])
    proved = (release / "PROVED.txt").read_text()
    [checksum] = packages[SONAME]["checksums"]
    assert f"{SONAME} without symbols, as given: SHA-256 {checksum['checksumValue']}" in proved
    ids = {it["SPDXID"] for it in found["packages"]} | {"SPDXRef-DOCUMENT"}
    assert len(ids) == len(found["packages"]) + 1
    for it in found["relationships"]:
        assert {it["spdxElementId"], it["relatedSpdxElement"]} <= ids


def refused(words: list[object], built: dict[str, str], folder: pathlib.Path) -> str:
    """What ./release says that makes nothing."""
    env = {**os.environ, **built}
    command = [str(TOP / "release"), *map(str, words), str(folder / "made")]
    ran = subprocess.run(command, env=env, capture_output=True, text=True)
    assert ran.returncode == 1 and not (folder / "made").exists()
    assert not [*folder.glob(".release-*")]
    return ran.stderr


GATES: dict[str, tuple[dict[str, Any], str]] = {
    "that failed": ({"result": "7 passed, 1 failed"}, "the gate failed: 7 passed, 1 failed"),
    "of one part": ({"parts": ["ci"]}, "the gate didn't run layout"),
    "of another tree": ({"tree": "0" * 40}, "the gate was run on another tree, of "),
    "over another program": ({"callboard": "0" * 64}, "is not the callboard over which"),
    "over another library": ({"libcallauction.so.1": "0" * 64}, "is not the libcallauction.so.1"),
    "over another archive": ({"libcallauction.a": "0" * 64}, "is not the libcallauction.a"),
}


@pytest.mark.parametrize("what", GATES)
def test_a_gate_that_failed_or_is_of_other_files_is_refused(
    what: str, gate: dict[str, Any], built: dict[str, str], tmp_path: pathlib.Path
) -> None:
    change, text = GATES[what]
    path = tmp_path / "gate.json"
    files = gate["files"] | {name: it for name, it in change.items() if name in gate["files"]}
    others = {name: it for name, it in change.items() if name in gate}
    path.write_text(json.dumps(gate | {"files": files} | others))
    assert text in refused(["--gate", path], built, tmp_path)


def test_without_a_gate_there_is_no_release(
    built: dict[str, str], gate: dict[str, Any], tmp_path: pathlib.Path
) -> None:
    path = tmp_path / "gate.json"
    text = refused(["--gate", path], built, tmp_path)
    assert text == "release: the gate was not run on this tree: ./check\n"
    path.write_text("1234 passed, 0 failed\n")
    text = refused(["--gate", path], built, tmp_path)
    assert text == f"release: {path} isn't what ./check writes\n"
    path.write_text(json.dumps(gate))
    other = built | {"CALLBOARD_PROGRAM": "/bin/true"}
    text = refused(["--gate", path], other, tmp_path)
    assert text == "release: /bin/true is not the callboard over which the gate was run\n"


def test_the_test_command_writes_which_binaries_passed(
    tmp_path: pathlib.Path, monkeypatch: pytest.MonkeyPatch
) -> None:
    (tmp_path / "callboard").write_bytes(b"program")
    files = {"callboard": tmp_path / "callboard", SONAME: tmp_path / "nothing"}
    monkeypatch.setattr(proved_binaries, "binaries", lambda: files)
    path = tmp_path / "binaries.json"
    assert not proved_binaries.write("1 passed, 0 failed", ["layout"], path)
    assert not path.exists()
    assert proved_binaries.write("9 passed, 0 failed", ["layout", "ci"], path)
    found = proved_binaries.Gate.read(path)
    assert found.files == {"callboard": sha256(b"program").hexdigest()}
    assert (found.result, found.parts) == ("9 passed, 0 failed", ("layout", "ci"))
    assert found.commit == done("git", "rev-parse", "HEAD", cwd=TOP).strip()
    found.check(found.tree, {"callboard": tmp_path / "callboard"}, ["ci"])


def test_a_folder_that_is_there_is_refused(built: dict[str, str], tmp_path: pathlib.Path) -> None:
    env = {**os.environ, **built}
    words = [str(TOP / "release"), "--without-gate", str(tmp_path)]
    ran = subprocess.run(words, env=env, capture_output=True, text=True)
    assert ran.returncode == 1 and "is there" in ran.stderr
    assert [*tmp_path.iterdir()] == []


def test_the_tarballs_program_runs_where_it_is_unpacked(
    release: pathlib.Path, tmp_path: pathlib.Path
) -> None:
    (tarball,) = release.glob("*.tar.gz")
    with tarfile.open(tarball) as archive:
        archive.extractall(tmp_path)
    (program,) = tmp_path.glob("callboard-*/callboard")
    assert done(program, input=ORDERS) == ANSWERS and is_whole(program.parent)
    wanted = done("readelf", "--version-info", program)
    versions = {tuple(map(int, it.split("."))) for it in re.findall(r"GLIBC_([0-9.]+)", wanted)}
    assert versions and max(versions) <= (2, 34)
    assert re.findall(r"NEEDED.*\[(.*)\]", done("readelf", "--dynamic", program)) == ["libc.so.6"]


def test_the_wheel_is_whole_and_passes_the_packages_tests(
    release: pathlib.Path, venv: pathlib.Path, is_short: bool, tmp_path: pathlib.Path
) -> None:
    (wheel,) = release.glob("*.whl")
    done(venv / "bin/pip", "install", "--no-index", "--no-deps", wheel)
    python = venv / "bin/python"
    assert done(python, "-c", PYTHON, cwd=tmp_path) == PRINTED and is_whole(venv)
    lines = README.search((TOP / "README.md").read_text())
    assert lines
    printed = done(python, "-c", textwrap.dedent(lines[1]), cwd=tmp_path)
    assert printed.startswith("Price(tick=200, volume=300, ")
    path = "import callauction.finder as it; print(it.program_path())"
    found = done(python, "-c", path, cwd=tmp_path)
    assert str(venv) in found and done(found.strip(), input=ORDERS) == ANSWERS
    words = [python, "-P", "-m", "pytest", "-q", "-x", "-c", TOP / "python/pyproject.toml"]
    words += [TOP / "python/tests", "-k", "not notebook and not lesson"]
    words += ["-p", "first_test_of_each_kind"] if is_short else []
    env = {"HYPOTHESIS_STORAGE_DIRECTORY": str(tmp_path / "hypothesis"), "MPLBACKEND": "Agg"}
    env |= {"PYTHONDONTWRITEBYTECODE": "1", "HOME": str(tmp_path)}
    env |= {"PYTHONPATH": str(TOP / "checks")} if is_short else {}
    printed = done(*words, env=env, cwd=tmp_path)
    assert re.search(r"\b\d{2,} passed", printed), printed
    done(venv / "bin/pip", "uninstall", "-y", "callauction")
    assert [*venv.rglob("*callauction*")] == []


DEBIAN = (
    *("callboard", "libcallauction1", "libcallauction-dev"),
    *("python3-callauction", "callboard-venue", "callboard-fix"),
)


def test_lintian_has_no_error(release: pathlib.Path) -> None:
    printed = done("lintian", "--allow-root", "--fail-on", "error", *release.glob("*.deb"))
    assert "E:" not in printed


def test_the_packages_have_all_files(release: pathlib.Path, tmp_path: pathlib.Path) -> None:
    for deb in release.glob("*.deb"):
        done("dpkg-deb", "--extract", deb, tmp_path)
    assert is_whole(tmp_path / "usr")


def test_cmake_finds_the_library_of_the_packages(
    release: pathlib.Path, tmp_path: pathlib.Path
) -> None:
    for name in ("libcallauction1", "libcallauction-dev"):
        (deb,) = release.glob(f"{name}_*.deb")
        done("dpkg-deb", "--extract", deb, tmp_path / "a root")
    use_by_cmake(tmp_path / "a root/usr", tmp_path)


WITH_PROC = 'mount --rbind /proc "$0/proc" && exec chroot "$0" "$@"'
"""Runs a command in a root that has /proc, without which no journal is opened."""


@contextlib.contextmanager
def fresh_root(folder: pathlib.Path, packages: str) -> Iterator[pathlib.Path | None]:
    """A fresh root of Debian 12 with these packages; None where there can be none."""
    if os.geteuid() != 0:
        yield None
        return
    root = folder / "root"
    words = ["mmdebstrap", "--quiet", "--variant=minbase", f"--include={packages}", "bookworm"]
    ran = run(*words, root, env={"HOME": str(folder), "TMPDIR": str(folder)})
    yield root if ran.returncode == 0 else None
    shutil.rmtree(root, ignore_errors=True)


def files_of(root: pathlib.Path) -> set[str]:
    """The files of a root that are compared: without caches, logs and the lists of packages."""
    left = ("proc", "sys", "dev", "tmp", "run", "var/cache", "var/log", "etc/ld.so.cache")
    words = ["find", ".", "-xdev"]
    for place in left:
        words += ["-path", f"./{place}", "-prune", "-o"]
    return set(done(*words, "-print", cwd=root).splitlines())


def test_debians_packages_install_work_and_go_away(
    release: pathlib.Path,
    tables: dict[str, list[str]],
    is_short: bool,
    tmp_path: pathlib.Path,
) -> None:
    debs = [path for name in DEBIAN for path in release.glob(f"{name}_*.deb")]
    wanted = "gcc,libc6-dev,pkgconf,python3,python3-numpy,python3-cffi-backend"
    wanted += ",python3-aiohttp,python3-psutil,systemd-standalone-sysusers,libquickfix17"
    with fresh_root(tmp_path, wanted) if not is_short else contextlib.nullcontext() as root:
        where = "in a fresh root" if root else "in a folder, as no root was made"
        tables["| packages of Debian |"] = [f"| {where} |"]
        if root is None:
            unpacked(debs, tmp_path / "unpacked")
            return
        in_root = ("chroot", root)
        before = files_of(root)
        for deb in debs:
            shutil.copy(deb, root / "tmp")
        done(*in_root, "dpkg", "--install", *(f"/tmp/{deb.name}" for deb in debs))
        assert done(*in_root, "callboard", input=ORDERS) == ANSWERS
        assert done(*in_root, "python3", "-c", PYTHON) == PRINTED
        (root / "tmp/user.c").write_text(C)
        compile_it = "cc -o /tmp/user /tmp/user.c $(pkg-config --cflags --libs callauction)"
        done(*in_root, "sh", "-c", compile_it)
        assert done(*in_root, "/tmp/user") == "0 0\n"
        assert "libcallauction.so.1" in done(*in_root, "ldd", "/tmp/user")
        assert (root / "usr/share/man/man1").is_dir()
        assert "callboard:" in (root / "etc/passwd").read_text()
        with_proc = ("unshare", "--mount", "sh", "-c", WITH_PROC, root)
        checked = ("python3", "-P", "-m", "callauction.venue", "--check", "--folder", "/tmp/venue")
        assert "/tmp/venue: not there yet\n" in done(*with_proc, *checked)
        (root / "tmp/fix.toml").write_text('[fix]\n[fix.sessions]\nALICE = "Alice"\n')
        assert ", 1 sessions\n" in done(*with_proc, *checked, "--day", "/tmp/fix.toml")
        done(*in_root, "dpkg", "--purge", *reversed(DEBIAN))
        assert files_of(root) - before <= OF_A_USER


def unpacked(debs: list[pathlib.Path], folder: pathlib.Path) -> None:
    """Looks at the packages in a folder of their own, where there can be no root."""
    for deb in debs:
        done("dpkg-deb", "--extract", deb, folder)
    assert done(folder / "usr/bin/callboard", input=ORDERS) == ANSWERS
    packages = folder / "usr/lib/python3/dist-packages"
    assert done("/usr/bin/python3", "-c", PYTHON, env={"PYTHONPATH": str(packages)}) == PRINTED
