"""Hammers the module of QuickFIX with messages that are right, cut, spoiled or none, from a seed:
`hammer.py FOLDER SEED COUNT`. Prints how many were sent and taken. Whether it errs with memory is
seen by the sanitizers of the module; what it says is of no matter.
"""
import contextlib
import pathlib
import random
import sys

sys.path.insert(0, str(pathlib.Path(__file__).resolve().parent))  # also where PYTHONSAFEPATH is set

import fixing  # noqa: E402
from callauction.fix._quickfix import Engine  # noqa: E402
from callauction.fix.settings import settings_of  # noqa: E402
from callauction.fix.tags import FIX44  # noqa: E402

SESSION = "FIX.4.4:VENUE->ALICE"
KINDS = [*"0123456789ADFGHVWXYEjqrghxy", "AF", "AE"]
TAGS = [*range(1, 160), *range(262, 280), *(336, 530, 552, 554, 8013, 1 << 31, 1 << 63)]
DATA = [(354, 355), (93, 89), (95, 96), (348, 349)]
VALUES = ["", "0", "1", "-1", "Y", "2.00", "XYZ", "1" * 400, "\xff", "20261126-09:00:00", "9" * 19]
ROW = [(269, "Q"), (270, "2.00")]


def message(chance: random.Random, number: int) -> bytes:
    """A message, perhaps right."""
    count = chance.randint(0, 12)
    pairs = [(chance.choice(TAGS), chance.choice(VALUES)) for _ in range(count)]
    kind = chance.choice(KINDS)
    if chance.random() < 0.4:
        order = [(11, "a"), (55, "XYZ"), (54, "1"), (60, fixing.stamp()), (38, "5"), (40, "1")]
        kind, pairs = "D", order + pairs[: chance.choice((0, 0, 1))]
    if chance.random() < 0.2:
        (length, data), value = chance.choice(DATA), chance.choice([*VALUES, "\x01", "a\x0158=b"])
        pairs += [(length, str(chance.choice((len(value), 1, -1, 1 << 40)))), (data, value)]
    head = [(43, "Y"), (122, chance.choice(VALUES))][: chance.choice((0, 0, 0, 1, 2))]
    text = fixing.written(kind, number, "ALICE", pairs, head)
    if chance.random() < 0.1:
        return altered(chance, text)
    if chance.random() < 0.3:
        place = chance.randrange(len(text))
        text = text[:place] + bytes([chance.randrange(256)]) + text[place + chance.randint(0, 2) :]
    return text[: chance.randrange(len(text))] if chance.random() < 0.1 else text


def altered(chance: random.Random, text: bytes) -> bytes:
    """A message whose head lacks a tag or has another value; its length and its sum are right."""
    tag, value = chance.choice((b"34=", b"49=", b"52=", b"56=")), chance.choice(["", *VALUES])
    other = [tag + value.encode("latin-1")] if value else []
    parts = [[it] if not it.startswith(tag) else other for it in text.split(fixing.SOH)[2:-2]]
    body = b"".join(it + fixing.SOH for part in parts for it in part)
    text = b"8=FIX.4.4" + fixing.SOH + b"9=%d" % len(body) + fixing.SOH + body
    return text + b"10=%03d" % (sum(text) % 256) + fixing.SOH


def logged_on(engine: Engine) -> int:
    """A connection whose Logon was sent, with the number that is expected."""
    found = engine.connect()
    logon = [(98, "0"), (108, "30"), (554, "right"), (8013, "Y")]
    engine.feed(found, fixing.written("A", engine.expected(SESSION), "ALICE", logon))
    return found


def step(engine: Engine, number: int, chance: random.Random) -> tuple[int, int]:
    """Sends one message, or does something else: the connection from then on, and how many
    messages were taken.
    """
    what = chance.random()
    if what < 0.02:
        engine.lost(number)
        with contextlib.suppress(RuntimeError):
            engine.begin_anew(SESSION)
        return logged_on(engine), 0
    if what < 0.1:
        rows = [ROW] * chance.randint(0, 3)
        engine.send(SESSION, "W", [(262, "q"), (55, "XYZ")], [(268, 269, rows)])
    elif what < 0.13:
        engine.tick()
        engine.sent(SESSION)
    else:
        expected = engine.expected(SESSION) + chance.choice((0, 0, 0, 1, -1, 7))
        engine.feed(number, message(chance, max(0, expected)))
        if engine.is_leaving(number) and chance.random() < 0.9:
            engine.log_off(number)
    is_over = any(closes for it, *_, closes in engine.outgoing() if it == number)
    engine.events()
    engine.stored()
    taken = len(engine.said())
    if is_over:
        engine.lost(number)
        return logged_on(engine), taken
    return number, taken


def main() -> None:
    folder, seed, count = pathlib.Path(sys.argv[1]), int(sys.argv[2]), int(sys.argv[3])
    chance = random.Random(seed)
    settings = settings_of(folder, {"ALICE": FIX44})
    engine = Engine(settings, lambda session, password: password == b"right")
    number, taken = logged_on(engine), 0
    for _ in range(count):
        number, more = step(engine, number, chance)
        taken += more
    print(count, taken)


if __name__ == "__main__":
    main()
