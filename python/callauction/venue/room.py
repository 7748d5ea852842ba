"""How much of the disk a day may take yet, by the limits of its file, and how much there is."""
import os
import pathlib

from callauction.venue import config

BYTES_OF_COMMAND = 640
"""About what a command takes at most, but for names of many strange letters: an entry of the
journal; in the log its own line, a mark, and a point of the indicative price.
"""
BYTES_OF_FIX = 1024
"""About what it takes beside that by FIX: what the log notes of it, and its reports."""
LOW_BYTES = 64 << 20
"""From how many bytes on that are left a venue warns of a disk that gets full."""
MIB = 1 << 20
DISK_TOO_SMALL = (
    "{}: its disk has {} MiB left, and by the day's limits {} commands may take {} MiB more: make "
    "room, or lessen `calls`"
)
DISK_NEARLY_FULL = (
    "the disk of {} has {} MiB left: make room before it is full, which halts the day"
)


def commands_of(day: config.DayTerms) -> int:
    """How many commands a day allows in all its instruments, groups and rounds."""
    groups = -(-day.members.most // day.group)
    traders = min(day.group, config.MOST_TRADERS)
    count = 0
    for it in day.instruments:
        bound = day.bounds.of(it.open, it.calls, it.grid.tick_size)
        allowed = traders * (bound.calls + bound.orders) + day.reserve
        count += min(it.calls, allowed)
    return count * groups * len(day.rounds)


def allowed(day: config.DayTerms) -> int:
    """About the bytes that a day may take by its limits."""
    return commands_of(day) * (BYTES_OF_COMMAND + (BYTES_OF_FIX if day.fix else 0))


def taken(folder: pathlib.Path) -> int:
    """The bytes that the files of a folder have. Raises OSError."""
    return sum(it.lstat().st_size for it in folder.iterdir()) if folder.is_dir() else 0


def free(folder: pathlib.Path) -> int:
    """The bytes that the disk of a folder has left for its user. Raises OSError."""
    disk = os.statvfs(folder)
    return disk.f_bavail * disk.f_frsize


def too_small(day: config.DayTerms, folder: pathlib.Path) -> str:
    """What is said of a disk that hasn't as much as a day may take yet, else nothing. Raises
    OSError.
    """
    has = free(folder if folder.is_dir() else folder.parent)
    needed = allowed(day) - taken(folder)
    if needed <= has:
        return ""
    return DISK_TOO_SMALL.format(folder, has // MIB, commands_of(day), -(-needed // MIB))
