"""Who may have the last quarter of an instrument's commands, where the day's file says nothing of
it: so that neither a few members nor many names of one code can use all of them.

Of that quarter each code has an equal part: each name of the day's file that has a code or a CompID
of its own, no more than a name may have, and the class, whose names share one code. What a code
hasn't used of its part is kept for it. Of the rest a name has at most a sixteenth, so that the next
name finds some too, however many came before it; of little LITTLE, and at most a quarter.
"""
from collections.abc import Mapping

CLASS_CODE = ""
"""The code that all names share who have none of their own."""
LAST_PART = 4
"""The last part of a day's commands is a quarter."""
NAME_PART, LITTLE = 16, 20
"""A name has a sixteenth of what is left; or so many, where that is at most a quarter of it."""


def room_of_name(left: int) -> int:
    """How many commands one name may have had that has one more of these that are left."""
    return max(left // NAME_PART, min(LITTLE, -(-left // LAST_PART)))


def most_commands(
    member: str, used: Mapping[str, int], left: int, last: int, of_name: int
) -> int:
    """How many commands a member may have had that has one more of those that are left of the last
    ones, and is never to have more than `of_name` then; under each code as many were `used`.
    """
    equal = last // max(1, len(used))
    parts = {code: equal if code == CLASS_CODE else min(equal, of_name) for code in used}
    code = member if member in used else CLASS_CODE
    kept = sum(max(0, parts[it] - used[it]) for it in used if it != code)
    rest = min(of_name, room_of_name(max(0, left - kept)))
    return rest if code == CLASS_CODE else max(rest, parts[code])
