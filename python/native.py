"""The module `callauction._native`, which holds the library for C: python/build compiles it, and
setup.py for pip. What it declares is taken from the library's header and from
callauction/_native_calls.h and _native_board.h.
"""
import os
import pathlib
import re
import shutil
import subprocess
from typing import TYPE_CHECKING, Any

if TYPE_CHECKING:
    import cffi

SOURCES = pathlib.Path(__file__).resolve().parent / "callauction"
VARIABLE = "CALLAUCTION_LIBRARY"
ARCHIVE, HEADER = "libcallauction.a", "callauction.h"
DECLARED = re.compile(
    r'#ifdef __cplusplus\nextern "C" \{\n#endif\n(.*?)#ifdef __cplusplus\n\}', re.S
)
"""What the header declares for C and C++, which has no lines of a preprocessor in it."""
NO_LIBRARY = f"""there is no library callauction to build on.
Build it with `library/build FOLDER`, and set {VARIABLE}=FOLDER; or install the package
libcallauction-dev, or by ./install PREFIX, so that pkg-config finds it
(PKG_CONFIG_PATH=PREFIX/lib/pkgconfig)."""


class CannotBuild(Exception):
    """Why the package can't be built."""


def variable(name: str) -> str:
    """A variable of callauction.pc, empty where pkg-config has none."""
    words = ["pkg-config", f"--variable={name}", "callauction"]
    if shutil.which(words[0]) is None:
        return ""
    ran = subprocess.run(words, stdout=subprocess.PIPE, stderr=subprocess.DEVNULL, text=True)
    return ran.stdout.strip().replace("\\ ", " ")


def folders() -> tuple[pathlib.Path, pathlib.Path]:
    """The folders of the header and of the library: what the variable CALLAUCTION_LIBRARY names, or
    else what pkg-config finds. Raises CannotBuild where there is none.
    """
    named = os.environ.get(VARIABLE)
    include, lib = (named, named) if named else map(variable, ("includedir", "libdir"))
    found = pathlib.Path(include or "."), pathlib.Path(lib or ".")
    if not include or not (found[0] / HEADER).is_file() or not (found[1] / ARCHIVE).is_file():
        raise CannotBuild(f"{VARIABLE} names no library: {named}" if named else NO_LIBRARY)
    return found[0].resolve(), found[1].resolve()


def declarations(include: pathlib.Path) -> str:
    """The numbers, structs and calls of the library's header and of the package's own. Raises
    OSError or CannotBuild.
    """
    found = DECLARED.search((include / HEADER).read_text(encoding="utf-8"))
    if not found:
        raise CannotBuild("callauction.h has another form than expected")
    own = ("_native_calls.h", "_native_board.h")
    plain = found[1].replace("CALLAUCTION_RESULT ", "")
    return plain + "".join((SOURCES / name).read_text(encoding="utf-8") for name in own)


def module_of(
    include: pathlib.Path, lib: pathlib.Path | None = None, **more: Any
) -> "cffi.FFI":
    """The module, still to be compiled, with the header of one folder and the library of the other,
    or of the same, and more options of an Extension. Raises OSError or CannotBuild.
    """
    import cffi

    ffi = cffi.FFI()
    ffi.cdef(declarations(include))
    ffi.set_source(
        "callauction._native",
        '#include "_native_calls.c"\n#include "_native_board.c"',
        include_dirs=[str(include), str(SOURCES)],
        extra_objects=[str((lib or include) / ARCHIVE)],
        extra_compile_args=[
            *("-Wall", "-Wextra", "-Wno-unused-parameter", "-Wno-sign-compare", "-g0"),
        ],
        extra_link_args=["-Wl,-s"],
        **more,
    )
    return ffi


def found_module() -> "cffi.FFI":
    """The module on the library that is found here. Raises SystemExit, with what to do, where there
    is none.
    """
    try:
        return module_of(*folders(), py_limited_api=False)
    except (CannotBuild, OSError) as fault:
        raise SystemExit(f"callauction: {fault}") from None
