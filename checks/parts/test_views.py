"""The views of a session (`--live`), among its records: worked ones, bad ones, and random ones by
the model.
"""
import dataclasses

import pytest

from checks.parts import view_cases
from checks.parts.live_cases import at_once
from checks.parts.sessions import Talk, hold
from checks.parts.view_cases import random_talk

SEEDS = range(1, 101)
TALKS = [*view_cases.view_talks()]


@pytest.mark.parametrize("talk", TALKS, ids=[talk.name for talk in TALKS])
def test_each_worked_view_is_shown(program: str, talk: Talk) -> None:
    hold(program, talk)


@pytest.mark.parametrize("seed", SEEDS)
def test_random_views_are_the_models(program: str, seed: int) -> None:
    talk = random_talk(seed)
    hold(program, dataclasses.replace(talk, turns=[at_once(talk.turns)]))


def test_bad_views_are_the_models() -> None:
    assert [found for _, _, found in view_cases.faults_by_the_model()] == [
        fault for _, fault in view_cases.BAD_VIEWS
    ]
