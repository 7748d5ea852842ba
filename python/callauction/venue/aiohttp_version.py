"""With which aiohttp the venue was tried: `frames` stands on what that has inside."""
import sys

import aiohttp

from callauction.statuses import FAILED

AIOHTTP_VERSION = "3.8"


def check_tried() -> None:
    """Raises ImportError where it is another aiohttp."""
    if not aiohttp.__version__.startswith(f"{AIOHTTP_VERSION}."):
        text = f"aiohttp {aiohttp.__version__} is installed, and the venue needs {AIOHTTP_VERSION}"
        wanted = f"pip install 'aiohttp=={AIOHTTP_VERSION}.*'"
        raise ImportError(f"{text}: Debian 12 has it, or {wanted}")


def check_start() -> None:
    """Ends this process by a line and its status where it is another aiohttp."""
    try:
        check_tried()
    except ImportError as fault:
        print(f"venue: {fault}", file=sys.stderr)
        sys.exit(FAILED)
