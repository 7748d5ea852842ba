"""Copies a day, also one that runs: `python3 -m callauction.venue.backup FOLDER COPY`."""
import argparse
import pathlib
import sys

from callauction.statuses import DONE
from callauction.venue import copies


def main() -> int:
    """Copies a day; answers the status."""
    parser = argparse.ArgumentParser(
        prog="python3 -P -m callauction.venue.backup",
        description="Copies the folder of a venue, which may run meanwhile, as it was at a moment.",
        epilog="statuses: 0 copied; 1 a journal and the log don't fit, or the copy is there "
        "already; 3 a read or a write failed",
    )
    parser.add_argument("folder", type=pathlib.Path, metavar="FOLDER", help="of the venue")
    parser.add_argument("copy", type=pathlib.Path, metavar="COPY", help="a new folder")
    asked = parser.parse_args()
    try:
        print(copies.summary(copies.backup(asked.folder, asked.copy)))
        return DONE
    except copies.COPY_FAULTS as fault:
        return copies.say_copy_fault("backup", fault)


if __name__ == "__main__":
    sys.exit(main())
