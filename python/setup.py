"""Builds the package by pip or python3-build, on a built library: see pyproject.toml and native.py.

With CALLBOARD_PROGRAM the package holds that program too; CALLAUCTION_VERSION is its version, where
it is a release's.
"""
import os
import pathlib
import shutil
import sys

from setuptools import setup
from setuptools.command.build_py import build_py

HERE = pathlib.Path(__file__).resolve().parent
sys.path.insert(0, str(HERE.parent / "build"))
PROGRAM = "CALLBOARD_PROGRAM"


class BuildWithProgram(build_py):
    """Copies the sources, and the program that is named."""

    def run(self) -> None:
        super().run()
        if named := os.environ.get(PROGRAM):
            to = pathlib.Path(self.build_lib, "callauction/bin/callboard")
            to.parent.mkdir(parents=True, exist_ok=True)
            shutil.copyfile(named, to)
            to.chmod(0o755)


if __name__ == "__main__":
    from version import version

    (HERE / "out").mkdir(exist_ok=True)
    setup(
        version=os.environ.get("CALLAUCTION_VERSION") or version(),
        options={
            "build": {"build_base": "out/build"},
            "bdist_wheel": {"bdist_dir": "out/wheel"},
            "egg_info": {"egg_base": "out"},
        },
        cffi_modules=["native.py:found_module"],
        cmdclass={"build_py": BuildWithProgram},
    )
