"""A call auction as an environment for learning, with gymnasium's interface. It needs numpy and the
package alone; where gymnasium is installed, its Env and its spaces are taken.

    env = AuctionEnv()
    observation, info = env.reset(seed=1)
    observation, reward, terminated, truncated, info = env.step(env.action_space.sample())

The agent wants to buy SHARES shares, each worth VALUE to it, in one call phase of STEPS steps. In a
step it may put its order at another limit, and then 40 orders of others come in, by one array. The
last step uncrosses, and its reward is what the agent gained, as a share of SHARES * SCALE.

    PYTHONPATH=/tmp/python /usr/bin/python3 examples/gym_auction.py

measures the steps a second of an agent that acts at random.
"""
import time
from typing import Any

import numpy
from callauction import REPLY, Auction, Entered, Price, Side, Uncrossed, commands

try:
    from gymnasium import Env
    from gymnasium.spaces import Box, Discrete
except ImportError:

    class Env:  # type: ignore[no-redef]
        """What gymnasium's Env is to a user of an environment."""

        render_mode = spec = None

        def reset(self, *, seed: int | None = None, options: Any = None) -> Any:
            if seed is not None or not hasattr(self, "np_random"):
                self.np_random = numpy.random.default_rng(seed)

        @property
        def unwrapped(self) -> "Env":
            return self

    class _Space:
        """What the spaces share: dice of their own."""

        def __init__(self) -> None:
            self._dice = numpy.random.default_rng()

        def seed(self, seed: int | None = None) -> None:
            self._dice = numpy.random.default_rng(seed)

    class Discrete(_Space):  # type: ignore[no-redef]
        """The actions 0 to n - 1."""

        def __init__(self, n: int) -> None:
            super().__init__()
            self.n, self.shape, self.dtype = n, (), numpy.dtype(numpy.int64)

        def sample(self) -> int:
            return int(self._dice.integers(self.n))

        def contains(self, action: Any) -> bool:
            return not isinstance(action, float) and 0 <= action < self.n

    class Box(_Space):  # type: ignore[no-redef]
        """Vectors between two bounds."""

        def __init__(self, low: float, high: float, shape: tuple[int, ...], dtype: Any) -> None:
            super().__init__()
            self.low, self.high = numpy.full(shape, low, dtype), numpy.full(shape, high, dtype)
            self.shape, self.dtype = shape, numpy.dtype(dtype)

        def sample(self) -> Any:
            return self._dice.uniform(self.low, self.high).astype(self.dtype)

        def contains(self, vector: Any) -> bool:
            is_alike = vector.shape == self.shape and vector.dtype == self.dtype
            return bool(is_alike and (self.low <= vector).all() and (vector <= self.high).all())


STEPS, OTHERS, DRAWN = 16, 40, 32
"""The steps of a call phase, the orders of others in each, and how many days are drawn at once."""
SHARES, VALUE, SCALE = 500, 210, 10
"""What the agent wants, what a share is worth to it in ticks, and the deviation of other limits."""
LOW, HIGH, WORTH = 1, 1000, 200
"""The bounds, and what others' limits lie around: WORTH on average, another one on each day."""
LIMITS = tuple(range(VALUE - 20, VALUE + 1, 2))
"""The limits that the agent may choose."""
KEEP, WITHDRAW = 0, 1
"""The actions before those: the order stays as it is, or is taken out."""
AGENT, OTHER = 1, 2
"""The members' numbers."""


def drawn_days(dice: numpy.random.Generator) -> list[Any]:
    """The orders of the others of DRAWN days, an array of COMMAND each: drawn together, as that is
    faster.
    """
    count = STEPS * OTHERS
    worths = dice.normal(WORTH, SCALE / 2, DRAWN).repeat(count)
    orders = commands(
        member=OTHER,
        side=dice.integers(Side.BID, Side.ASK, DRAWN * count, endpoint=True),
        quantity=dice.integers(1, 50, DRAWN * count),
        limit=dice.normal(worths, SCALE).round().clip(LOW, HIGH),
    )
    return [orders[begin : begin + count] for begin in range(0, DRAWN * count, count)]


class AuctionEnv(Env):
    """One buyer in a call auction: see above.

    An action is KEEP, WITHDRAW, or 2 and more for one of LIMITS. An observation has, each from -1
    to 1: the steps that are left, whether there is an indicative price, its distance from VALUE,
    the volume, the surplus (asks below 0), the own limit's distance from VALUE, and whether an own
    order is open. `info` has the price and the own shares after the last step.

    """

    metadata: dict[str, Any] = {"render_modes": ["ansi"]}

    def __init__(self, render_mode: str | None = None) -> None:
        self.render_mode = render_mode
        self.action_space = Discrete(2 + len(LIMITS))
        self.observation_space = Box(-1.0, 1.0, (7,), numpy.float32)
        self._auction, self._replies = Auction(LOW, HIGH, WORTH), numpy.zeros(OTHERS, REPLY)
        self._step, self._order, self._limit = STEPS, 0, VALUE
        self._days: list[Any] = []

    def reset(self, *, seed: int | None = None, options: Any = None) -> tuple[Any, dict[str, Any]]:
        """A new day, on which none of the others' orders has come in yet."""
        super().reset(seed=seed)
        if seed is not None or not self._days:
            self._days = drawn_days(self.np_random)
        self._others = self._days.pop()
        self._auction.reset()
        self._step, self._order, self._limit = 0, 0, VALUE
        return self._observed(), {}

    def step(self, action: int) -> tuple[Any, float, bool, bool, dict[str, Any]]:
        """The agent's action, then the orders of the others; the last step uncrosses. Raises
        ValueError for no action, and after the last step.
        """
        if self._step == STEPS:
            raise ValueError("the call phase is over: reset the environment")
        if not self.action_space.contains(action):
            raise ValueError(f"action must be from 0 to {self.action_space.n - 1}, not {action}")
        self._act(int(action))
        begin = self._step * OTHERS
        self._auction.apply_many(self._others[begin : begin + OTHERS], self._replies)
        self._step += 1
        if self._step < STEPS:
            return self._observed(), 0.0, False, False, {}
        reward, info = self._end()
        return self._observed(), reward, True, False, info

    def render(self) -> str:
        """What is shown of the auction, as a text."""
        return f"step {self._step} of {STEPS}: {self._auction.display()}"

    def close(self) -> None:
        """Gives the auction up."""
        self._auction.close()

    def _act(self, action: int) -> None:
        """Enters, changes or takes out the agent's order."""
        if action == KEEP or (action == WITHDRAW and not self._order):
            return
        if action == WITHDRAW:
            self._auction.delete(AGENT, self._order)
            self._order = 0
            return
        self._limit = LIMITS[action - 2]
        if self._order:
            self._auction.change(AGENT, self._order, SHARES, self._limit)
            return
        reply = self._auction.enter(AGENT, Side.BID, SHARES, self._limit)
        self._order = reply.id if isinstance(reply, Entered) else 0

    def _end(self) -> tuple[float, dict[str, Any]]:
        """The reward of the uncross, and what it did."""
        reply = self._auction.uncross()
        if not isinstance(reply, Uncrossed) or reply.price is None:
            return 0.0, {"price": None, "shares": 0}
        trades = self._auction.trades()
        shares = int(trades["quantity"][trades["bid"] == self._order].sum()) if self._order else 0
        tick = reply.price.tick
        return shares * (VALUE - tick) / (SHARES * SCALE), {"price": tick, "shares": shares}

    def _observed(self) -> Any:
        """The observation now."""
        left, shown = 1 - self._step / STEPS, self._auction.display()
        own = (self._limit - VALUE) / 20 if self._order else 0.0
        if not isinstance(shown, Price):
            return numpy.array((left, 0, 0, 0, 0, own, self._order > 0), numpy.float32)
        distance = max(-1.0, min(1.0, (shown.tick - VALUE) / (4 * SCALE)))
        volume, surplus = shown.volume / 20_000, min(1.0, shown.surplus / 2_000)
        sign = -1 if shown.side is Side.ASK else 1
        seen = (left, 1, distance, min(1.0, volume), sign * surplus, own, self._order > 0)
        return numpy.array(seen, numpy.float32)


def measured(rounds: int, steps: int = 1_024) -> float:
    """The steps a second of an agent that acts at random, in the fastest of these rounds."""
    env = AuctionEnv()
    env.reset(seed=1)
    actions = numpy.random.default_rng(1).integers(env.action_space.n, size=steps).tolist()
    seconds = []
    for _ in range(rounds):
        begin = time.perf_counter()
        for action in actions:
            if env.step(action)[2]:
                env.reset()
        seconds.append(time.perf_counter() - begin)
    return steps / min(seconds)


if __name__ == "__main__":
    rate = measured(rounds=100)
    print(f"{rate:,.0f} steps a second, with {OTHERS} orders of others in each, best of 100 rounds")
