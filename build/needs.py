"""What the parts of the test command need of Debian's packages beside python3 itself: their tools,
and their modules and headers of Python. The scripts that run one part ask for the same.
"""
import shutil
from collections.abc import Iterable

PACKAGES = {
    "ar": "binutils",
    "bash": "bash",
    "cc": "gcc and libc6-dev",
    "chromedriver": "chromium-driver",
    "chromium": "chromium",
    "clang": "clang",
    "cmake": "cmake",
    "dh": "debhelper",
    "dh_python3": "dh-python",
    "dpkg-buildpackage": "dpkg-dev",
    "g++": "g++",
    "gcc": "gcc and libc6-dev",
    "git": "git",
    "install": "coreutils",
    "ip": "iproute2",
    "lintian": "lintian",
    "mmdebstrap": "mmdebstrap",
    "nsenter": "util-linux",
    "openssl": "openssl",
    "parallel": "parallel",
    "pkg-config": "pkgconf",
    "prlimit": "util-linux",
    "readelf": "binutils",
    "setpriv": "util-linux",
    "setsid": "util-linux",
    "strace": "strace",
    "systemd-analyze": "systemd",
    "time": "time",
    "unshare": "util-linux",
    "valgrind": "valgrind",
    "xargs": "findutils",
}
"""Debian's package of a tool; the toolchain has others."""
OF_BROWSERS = "chromedriver chromium g++ ip nsenter openssl unshare"
"""The tools of a venue's tests, the compiler for the module of QuickFIX."""
TOOLS = {
    "fix": OF_BROWSERS,
    "floods": OF_BROWSERS,
    "market": "openssl prlimit setpriv",
    "venue": f"{OF_BROWSERS} strace systemd-analyze",
}
"""The tools of parts that have a script of their own."""
OF_VENUES = (
    "aiohttp hypothesis jsonschema mypy prometheus_client psutil pytest pytest_aiohttp "
    "pytest_rerunfailures pytest_timeout segno selenium"
)
MODULES = {
    "bench": "aiohttp cffi numpy Python.h pandas pytest tqdm",
    "fix": OF_VENUES,
    "floods": OF_VENUES,
    "market": "dask distributed hypothesis mypy pandas psutil pytest pytest_timeout tqdm",
    "python": "cffi numpy Python.h pytest hypothesis mypy aiohttp prometheus_client pandas "
    "matplotlib tqdm nbclient ipykernel",
    "release": "build cffi numpy Python.h setuptools wheel pytest hypothesis pandas matplotlib "
    "tqdm",
    "report": "cffi numpy Python.h pandas matplotlib tqdm",
    "venue": OF_VENUES,
}
"""The modules and headers of Python of these parts; of others pytest alone, or none."""


def lacking_tools(names: Iterable[str]) -> list[str]:
    """What to say of each of these tools that isn't there."""
    lacking = [name for name in names if shutil.which(name) is None]
    packages = {name: f"Debian has it in {package}" for name, package in PACKAGES.items()}
    return [f"there is no {name}: {packages.get(name, 'the toolchain has it')}" for name in lacking]
