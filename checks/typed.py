"""The types of a part of the package and of its tests."""
import os
import subprocess
import sys
import tempfile


def types_hold(*paths: str) -> bool:
    """Whether mypy finds no fault of types in these folders of python/, which is the current one.
    MYPY_CACHE_DIR may name a folder that keeps what it found.
    """
    with tempfile.TemporaryDirectory() as folder:
        cache = os.environ.get("MYPY_CACHE_DIR", folder)
        words = ["mypy", "--strict", "--cache-dir", cache, *paths]
        return subprocess.run([sys.executable, "-m", *words], check=False).returncode == 0
