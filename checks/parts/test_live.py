"""Answers as records come (`--live`): over pipes and at a pseudo-terminal, where the next record is
sent once the one before it is answered.

The order files of examples/, records that come byte by byte, in quotes, with other line ends, bad
ones among good ones, and the ends that a session has. Random order files with bad records among
theirs come record by record, at once and in pieces; the lines are those of the model. What a long
session takes in memory, devices that fail or don't wait, and options that exclude --live.
"""
import os
import random
import subprocess
import sys
import tempfile
import time

import pytest

from checks import built
from checks.parts import live_cases
from checks.parts.live_cases import Run
from checks.parts.sessions import MOST_SECONDS, STILL_SECONDS, Session, Talk, hold

SEEDS = range(1, 151)
MOST_KIB_MORE = 2_048  # of memory that a long session takes beside a short one
MEASURED = built.TOP / "checks/measured.py"

AT_TERMINALS = [*live_cases.example_talks(), *live_cases.bad_talks()]
TALKS = [*AT_TERMINALS, *live_cases.spelled_talks(), *live_cases.long_talks()]
RUNS = [*live_cases.run_table()]


@pytest.mark.parametrize("talk", TALKS, ids=[talk.name for talk in TALKS])
def test_a_session_over_pipes_answers_each_turn(program: str, talk: Talk) -> None:
    hold(program, talk)


@pytest.mark.parametrize("talk", AT_TERMINALS, ids=[talk.name for talk in AT_TERMINALS])
def test_a_session_at_a_terminal_answers_each_turn(program: str, talk: Talk) -> None:
    hold(program, talk, at_terminal=True)


@pytest.mark.parametrize("seed", SEEDS)
def test_a_random_session_is_answered_record_by_record(program: str, seed: int) -> None:
    found = live_cases.random_session(seed)
    hold(program, Talk("", found.words, found.turns, status=found.status))


@pytest.mark.parametrize("seed", SEEDS)
def test_a_random_session_that_is_sent_at_once_is_answered_alike(program: str, seed: int) -> None:
    found = live_cases.random_session(seed)
    whole = [live_cases.at_once(found.turns)]
    hold(program, Talk("", found.words, whole, status=found.status))


@pytest.mark.parametrize("seed", SEEDS)
def test_a_random_session_that_is_sent_in_pieces_is_answered_alike(program: str, seed: int) -> None:
    found = live_cases.random_session(seed)
    dice = random.Random(seed)
    whole = live_cases.at_once(found.turns)
    session = Session([program, "--live", *found.words], False)
    data = whole.sent
    try:
        while data:
            count = dice.randint(1, 40)
            session.send(data[:count])
            data = data[count:]
            session.take_in(0.0)
        session.end_input()
        session.hears(whole.out, whole.err)
        session.ends(found.status)
    finally:
        session.close()


@pytest.mark.parametrize("run", RUNS, ids=[run[0] for run in RUNS])
def test_devices_that_fail_and_wrong_options_end_a_session(program: str, run: Run) -> None:
    _, words, ends, status, out, err = run
    child = subprocess.run(
        ["bash", "-c", f'"$0" "$@" {ends}', program, *words],
        cwd=built.TOP,
        stdin=subprocess.DEVNULL,
        capture_output=True,
        text=True,
        timeout=MOST_SECONDS,
    )
    assert (child.returncode, child.stdout) == (status, out)
    assert err in ("*", child.stderr)


def memory_of(program: str, count: int) -> int:
    """The peak memory of a session of `count` records, in KiB."""
    with tempfile.NamedTemporaryFile("r") as figures:
        subprocess.run(
            [sys.executable, str(MEASURED), figures.name, program, "--live"],
            input=b"1,ask\n1,sell\n" * (count // 2),
            stdout=subprocess.DEVNULL,
            stderr=subprocess.DEVNULL,
            check=False,
        )
        return int(figures.read().split()[2])


def test_ends_of_pipes_that_do_not_wait_lose_nothing(program: str) -> None:
    reading, sending = os.pipe()
    answering, writing = os.pipe()
    for end in (reading, writing):
        os.set_blocking(end, False)
    count = 10_000  # whose records a pipe takes, and whose answers it doesn't
    with subprocess.Popen([program, "--live"], stdin=reading, stdout=writing) as child:
        os.close(reading)
        os.close(writing)
        time.sleep(STILL_SECONDS)  # in which there is nothing to read
        os.write(sending, b"1,ask\n" * count)
        os.close(sending)
        time.sleep(STILL_SECONDS)  # in which there is no room for more answers
        with os.fdopen(answering) as answers:
            said = answers.readlines()
        assert child.wait(timeout=MOST_SECONDS) == 0
    assert said == [f"{place}: no price bid - ask -\n" for place in range(1, count + 1)]


def test_memory_does_not_grow_with_the_records(program: str) -> None:
    assert memory_of(program, 3_000_000) - memory_of(program, 10_000) <= MOST_KIB_MORE
