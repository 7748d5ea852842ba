"""The examples for learning and for agents: what they promise to their users."""
import importlib.util
import re
import subprocess
import sys
import types
from pathlib import Path
from typing import Any
from unittest import mock

import numpy
import pytest
from callauction import Auction, Entered, Price, Side
from printed import TOP

EXAMPLES = TOP / "examples"


def loaded(name: str) -> Any:
    """An example as a module of its own."""
    spec = importlib.util.spec_from_file_location(name, EXAMPLES / f"{name}.py")
    assert spec is not None and spec.loader is not None
    module = importlib.util.module_from_spec(spec)
    with mock.patch.dict(sys.modules, {name: module}):
        spec.loader.exec_module(module)
    return module


@pytest.fixture(scope="module", name="gym")
def _gym() -> Any:
    return loaded("gym_auction")


def episode(env: Any, seed: int, actions: list[int]) -> list[Any]:
    """What an environment answers to these actions after a seed."""
    answers = [env.reset(seed=seed)]
    answers += [env.step(action) for action in actions]
    return answers


def test_a_thousand_agents_share_a_board(capsys: pytest.CaptureFixture[str]) -> None:
    loaded("board_agents").main()
    entered, price, _ = capsys.readouterr().out.splitlines()
    assert entered == "1000 agents entered an order each"
    found = re.fullmatch(r"price \d+: bought (\d+), sold (\d+), volume (\d+)", price)
    assert found is not None and int(found[1]) > 10_000 and len({*found.groups()}) == 1


def test_an_episode_ends_after_its_steps(gym: Any) -> None:
    env = gym.AuctionEnv()
    env.action_space.seed(1)
    actions = [env.action_space.sample() for _ in range(gym.STEPS)]
    (first, info), *steps = episode(env, 1, actions)
    assert info == {} and first.tolist() == [1, 0, 0, 0, 0, 0, 0]
    for observation, *_ in [(first,), *steps]:
        assert env.observation_space.contains(observation)
    assert [terminated for _, _, terminated, *_ in steps] == [*[False] * (gym.STEPS - 1), True]
    assert not any(truncated for *_, truncated, _ in steps)
    assert not any(reward for _, reward, *_ in steps[:-1])
    with pytest.raises(ValueError, match="the call phase is over"):
        env.step(0)
    env.close()


@pytest.mark.parametrize("action", [-1, 13, 1.5])
def test_what_is_no_action_is_refused(gym: Any, action: Any) -> None:
    env = gym.AuctionEnv()
    env.reset(seed=1)
    with pytest.raises(ValueError, match="^action must be from 0 to 12, not "):
        env.step(action)


def test_a_seed_decides_a_day(gym: Any) -> None:
    env, other = gym.AuctionEnv(), gym.AuctionEnv()
    actions = [12, *[0] * (gym.STEPS - 1)]
    first, second = episode(env, 5, actions), episode(other, 5, actions)
    third = episode(env, 6, actions)
    for (one, *rest), (two, *more) in zip(first, second):
        assert numpy.array_equal(one, two) and rest == more
    assert any(not numpy.array_equal(one[0], two[0]) for one, two in zip(first, third))


def test_the_reward_is_what_the_auction_gave(gym: Any) -> None:
    """The same orders in an auction of our own: the price, the shares, the gain."""
    for seed in range(20):
        env = gym.AuctionEnv()
        answers = episode(env, seed, [12, *[0] * (gym.STEPS - 1)])
        _, reward, _, _, info = answers[-1]
        with Auction(gym.LOW, gym.HIGH, gym.WORTH) as auction:
            entered = auction.enter(1, Side.BID, gym.SHARES, gym.VALUE, check=True)
            assert isinstance(entered, Entered)
            auction.apply_many(env._others)
            price = auction.display()
            assert isinstance(price, Price) and info["price"] == price.tick
            auction.uncross()
            trades = auction.trades()
            shares = trades["quantity"][trades["bid"] == entered.id].sum()
        assert info["shares"] == shares
        assert reward == shares * (gym.VALUE - price.tick) / (gym.SHARES * gym.SCALE)


def test_who_stays_out_gains_nothing(gym: Any) -> None:
    env = gym.AuctionEnv()
    keep, withdraw = gym.KEEP, gym.WITHDRAW
    for actions in ([keep] * gym.STEPS, [12, withdraw, *[keep] * (gym.STEPS - 2)]):
        _, reward, terminated, _, info = episode(env, 1, actions)[-1]
        assert (reward, terminated, info["shares"]) == (0, True, 0)
    assert env.render().startswith(f"step {gym.STEPS} of {gym.STEPS}: ")


def test_where_gymnasium_is_installed_its_classes_are_taken() -> None:
    class Env:
        def reset(self, *, seed: int | None = None, options: Any = None) -> None:
            self.np_random = numpy.random.default_rng(seed)

    class Space:
        def __init__(self, *given: Any) -> None:
            self.given = given

    spaces = types.ModuleType("gymnasium.spaces")
    stub = types.ModuleType("gymnasium")
    vars(spaces).update(Box=Space, Discrete=Space)
    vars(stub).update(Env=Env, spaces=spaces)
    with mock.patch.dict(sys.modules, {"gymnasium": stub, "gymnasium.spaces": spaces}):
        gym = loaded("gym_auction")
    assert issubclass(gym.AuctionEnv, Env)
    env: Any = gym.AuctionEnv()
    assert env.action_space.given == (13,)
    assert env.reset(seed=1)[0].shape == env.observation_space.given[2]


def test_the_steps_are_measured(gym: Any) -> None:
    assert gym.measured(rounds=3, steps=64) > 1_000


def test_the_example_of_a_thousand_agents_runs(tmp_path: Path) -> None:
    words = [sys.executable, str(EXAMPLES / "agents.py"), str(tmp_path / "agents.png")]
    ran = subprocess.run(words, capture_output=True, text=True, check=True, timeout=100)
    days, prices = ran.stdout.splitlines()
    assert re.fullmatch(r"100 days of 1,000 agents in \d+\.\d s", days)
    low, high, *shares = map(int, re.findall(r"\d+", prices))
    assert 180 <= low <= high <= 220
    assert 20 <= shares[0] < shares[1] < shares[2] <= 100
    assert (tmp_path / "agents.png").stat().st_size > 20_000


def test_the_gains_of_agents_are_those_of_their_trades() -> None:
    """Where each limit is the value, the opening makes all gains at a price between them."""
    agents = loaded("agents")
    agents.limits_of = lambda values, *_: values
    values = numpy.resize([220, 180, 190, 210], agents.AGENTS)
    assert agents.most_possible(values) == (agents.AGENTS // 4) * 40 * agents.SHARES
    with Auction(agents.LOW, agents.HIGH, agents.REFERENCE) as auction:
        day = agents.Day(auction, values, numpy.random.default_rng(1))
    assert day.prices[0] == 200 and day.gains[0] == agents.most_possible(values)
    curves = day.curves
    assert curves.demand[0] == curves.supply[-1] == agents.AGENTS // 2 * agents.SHARES
