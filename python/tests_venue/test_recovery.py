"""What became of messages: by all ways in which a program can be ended among them."""
import dataclasses

import pytest
from callauction.venue.recovery import Entry, MemberMessage, RecoveryError, Run, matched, settled
from hypothesis import given, settings
from hypothesis import strategies as st

RECORDS = ("1,delete,1", "1,delete,2", "2,delete,1", "0,uncross")
Fates = list[tuple[str, bool]]


@dataclasses.dataclass
class PlayedRuns:
    """Runs of a program that refuses members once `most` entries are there, and ends in each run
    after some of its messages; and what truly became of each message.
    """

    runs: list[Run]
    entries: list[Entry]
    truth: list[tuple[MemberMessage, int | None]]


@st.composite
def played(draw: st.DrawFn) -> PlayedRuns:
    most = draw(st.integers(0, 12))
    number = 0
    found = PlayedRuns([], [], [])
    for _ in range(draw(st.integers(1, 4))):
        run = Run(len(found.entries))
        records = draw(st.lists(st.sampled_from(RECORDS), max_size=8))
        taken = draw(st.integers(0, len(records)))
        for place, record in enumerate(records):
            number += 1
            message = MemberMessage(record[0], number, record)
            run.messages.append(message)
            is_member = not record.startswith("0")
            is_refused = is_member and len(found.entries) >= most
            if place >= taken or is_refused:
                found.truth.append((message, None))
                continue
            found.entries.append(Entry(len(found.entries) + 1, record, "deleted"))
            found.truth.append((message, len(found.entries)))
        found.runs.append(run)
    return found


@settings(max_examples=500, deadline=None)
@given(played())
def test_each_message_is_found_as_it_was(day: PlayedRuns) -> None:
    found = settled(day.runs, day.entries)
    assert [(message, entry and entry.place) for message, entry in found] == day.truth


def test_an_entry_that_nobody_asked_for() -> None:
    entry = Entry(1, "1,delete,1", "deleted")
    message = MemberMessage("Anna", 1, "1,delete,2")
    with pytest.raises(RecoveryError, match="longer one: it has 1 entries, and the log knows of 0"):
        matched([message], [entry])
    with pytest.raises(RecoveryError, match="entry 1 of the journal is no message of the log"):
        settled([Run(0, [message]), Run(1)], [entry])
    with pytest.raises(RecoveryError):
        settled([], [entry])
    assert settled([], []) == []


def test_what_an_entry_says() -> None:
    entered = Entry(7, "12,enter,bid,5,200", "entered 3")
    assert (entered.member, entered.order) == (12, 3)
    assert Entry(8, "0,uncross", "opening no price").order is None
