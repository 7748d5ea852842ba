#!/usr/bin/env python3
"""Runs a command and writes what it took to a file: `measured.py FILE COMMAND..`.

The file gets three numbers: its seconds, the processor's seconds for it, and its peak memory in
KiB. The status is that of the command. A process of its own, since a child begins with the peak
memory of the process that starts it.
"""
import os
import sys
import time


def main() -> int:
    """Runs a command and writes what it took; answers its status."""
    begin = time.perf_counter()
    child = os.spawnv(os.P_NOWAIT, sys.argv[2], sys.argv[2:])
    _, status, usage = os.wait4(child, 0)
    seconds = time.perf_counter() - begin
    with open(sys.argv[1], "w", encoding="ascii") as out:
        out.write(f"{seconds} {usage.ru_utime + usage.ru_stime} {usage.ru_maxrss}")
    return os.waitstatus_to_exitcode(status) & 0xFF


if __name__ == "__main__":
    sys.exit(main())
