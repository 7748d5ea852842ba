"""The module of QuickFIX under the sanitizers of addresses and of undefined behaviour."""
import pathlib
import subprocess
import sys

import served

LIBRARIES = ("libasan.so", "libstdc++.so")
MESSAGES, LEAST_TAKEN = 10_000, 100
MALLOC = {"PYTHONMALLOC": "malloc"}
FOLDER = served.PACKAGE.parent / "out/fix/sanitized"


def environment() -> dict[str, str]:
    """The environment in which the sanitized module is built and run."""
    return served.environment(CALLAUCTION_FIX=str(FOLDER))


def libraries() -> str:
    """What is loaded before Python, which isn't sanitized itself."""
    words = (["g++", f"-print-file-name={it}"] for it in LIBRARIES)
    return " ".join(subprocess.check_output(it, text=True).strip() for it in words)


def test_no_memory_is_misused(tmp_path: pathlib.Path, seed: int) -> None:
    build = [sys.executable, "-P", "-m", "callauction.fix.build", "--sanitized"]
    subprocess.run(build, env=environment(), check=True, stdout=subprocess.DEVNULL)
    words = [sys.executable, str(served.HERE / "hammer.py"), str(tmp_path), str(seed)]
    more = {"LD_PRELOAD": libraries(), "ASAN_OPTIONS": "detect_leaks=0"} | MALLOC
    ran = subprocess.run(
        [*words, str(MESSAGES)], env=environment() | more, capture_output=True, text=True
    )
    assert ran.returncode == 0, ran.stderr[-4000:]
    sent, taken = map(int, ran.stdout.split())
    assert sent == MESSAGES and taken >= LEAST_TAKEN


def test_misused_memory_is_seen() -> None:
    """The sanitizers do see: bytes behind the end of a buffer are read."""
    code = "import ctypes; ctypes.string_at(ctypes.create_string_buffer(1), 64)"
    more = {"LD_PRELOAD": libraries(), "ASAN_OPTIONS": "detect_leaks=0"} | MALLOC
    words = [sys.executable, "-c", code]
    ran = subprocess.run(words, env=environment() | more, capture_output=True, text=True)
    assert ran.returncode != 0 and "AddressSanitizer" in ran.stderr
