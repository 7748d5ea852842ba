"""Checks a copy of a day and puts it to a new folder: `python3 -m callauction.venue.restore COPY
FOLDER`.
"""
import argparse
import pathlib
import sys

from callauction import finder
from callauction.statuses import DONE
from callauction.venue import copies


def main() -> int:
    """Restores a day; answers the status."""
    parser = argparse.ArgumentParser(
        prog="python3 -P -m callauction.venue.restore",
        description="Puts a copy of a venue's folder to a new folder, once all of it is checked.",
        epilog="statuses: 0 restored; 1 the copy isn't whole, or has an unlawful reply, or the new "
        "folder is there already; 2 others own it or may write to it; 3 no program, or a read or a "
        "write failed",
    )
    parser.add_argument("copy", type=pathlib.Path, metavar="COPY", help="what backup has made")
    parser.add_argument("folder", type=pathlib.Path, metavar="FOLDER", help="a new folder")
    asked = parser.parse_args()
    try:
        print(copies.summary(copies.restore(asked.copy, asked.folder, finder.program_path())))
        return DONE
    except copies.COPY_FAULTS as fault:
        return copies.say_copy_fault("restore", fault)


if __name__ == "__main__":
    sys.exit(main())
