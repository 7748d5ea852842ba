"""What may be printed of members who call at once (--floor), by the rules of docs/FORMATS.md:
which member's call comes next is open, and all else isn't.

It shares no code with the program.
"""
import re

from checks.model.day import Call, opened
from checks.model.files import FileFault, Given, journal
from checks.model.tables import journal_text

ENTRY = re.compile(r"[0-9]+: member ([0-9]+) ")


def tally_text(given: Given) -> str:
    """What is printed before the history."""
    counts = (
        f"member {number} calls {sum(call[0] == number for call in given.calls)}\n"
        for number in range(given.options["members"])
    )
    return f"entries {len(given.calls)}\n{''.join(counts)}audit legal\n"


def ordered(members: list[int], given: Given) -> list[Call] | None:
    """The calls in an order in which these members come, each with its own calls in turn; None
    where that isn't all of them.
    """
    left: dict[int, list[Call]] = {number: [] for number in range(given.options["members"])}
    for call in reversed(given.calls):
        left[call[0]].append(call)
    found: list[Call] = []
    for member in members:
        if not left.get(member):
            return None
        found.append(left[member].pop())
    return None if any(left.values()) else found


def story_text(lines: list[str], given: Given) -> str | None:
    """The history by the rules, where the members call in the order of these lines; None
    where they can't.
    """
    said = [ENTRY.match(line) for line in lines]
    calls = ordered([int(match[1]) if match else -1 for match in said], given)
    if calls is None:
        return None
    day = opened(given.options)
    entries = ((place, call[0], day.apply(*call)) for place, call in enumerate(calls, 1))
    return "".join(f"{place}: member {member} {reply}\n" for place, member, reply in entries)


def may_be_tally(text: str, given: Given, with_history: bool) -> bool:
    """Whether this may be printed: the tally, and with its history a line for each entry."""
    head = tally_text(given)
    rest = text.removeprefix(head)
    return text.startswith(head) and rest == (
        story_text(rest.splitlines(), given) if with_history else ""
    )


def may_be_journal(text: str, given: Given) -> bool:
    """Whether this may be printed as the journal: that of the same day, with the lawful replies
    and each member's commands in their order.
    """
    try:
        found = journal(text)
    except FileFault:
        return False
    calls = ordered([member for member, _ in found.calls], given)
    return calls is not None and text == journal_text(Given(given.options, calls, []))
