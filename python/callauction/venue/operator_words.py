"""What the operator asks for, by words: POST /api/operator with {"do": WORD, ...}.

- start, end, uncross, freeze, thaw, extend (seconds): the auction of all groups of `instrument`;
  `phase` is the one that was seen, and nothing is done in another.
- next (round, the number of the next one; perhaps treatment, with the keys of [[round]] in
  day.toml, `file` being the text of the list; anyway, where it isn't known what a board of this
  round has, as it has halted): the next round. treat (treatment): this round,
  before its first call; its reference stays, and its values where it has handed them out.
- give (to: all, new, or named with members; how: chance with low, high, quantity; schedule with
  demand, supply, quantity; shuffle; list with values or file; replace): values; answers how many
  were given, and the names of a list that are absent: their values wait until they join. An error
  has_values has who would have another value (gets), and who would keep its own (keeps).
- message (text): said to all. show (shows): what the screen shows. payoffs (shows: none, own,
  ranking): what members see of them.
- code (member, or none for the day's), door (open), readmit (member), rename (member, name). remove
  (member or members): answers which orders were deleted, before anything else was taken, and which
  instruments have halted, where that is done as they go on.
- robots (count, kind: zero, truthful or shading): that many more; all are removed where count is 0.
- resume (perhaps instrument: all groups of it alone): tries again what had halted, and answers what
  had (resumed); an error says what halts again. reset (session): a session by FIX begins anew.
"""
import contextlib
import dataclasses
import logging
from collections.abc import Awaitable, Callable, Container, Iterator
from typing import Any

from callauction.limits import MOST_QUANTITY
from callauction.venue.auctions import Auctions
from callauction.venue.fields import SENTENCE, ConfigError, Fields, flaw_of
from callauction.venue.handing import (
    HANDING_WAYS, HandError, ListedValue, Rule, rows_of, rows_of_members,
)
from callauction.venue.instrument_board import InstrumentBoard
from callauction.venue.json_types import Json
from callauction.venue.log import SOURCE
from callauction.venue.logger import NOTICES
from callauction.venue.members import VenueMember
from callauction.venue.messages import MessageError, number_of, text_of
from callauction.venue.phases import PhaseError
from callauction.venue.robots import MOST_ROBOTS, ROBOT_KINDS
from callauction.venue.tokens import new_code
from callauction.venue.treatments import MOST_CALL_SECONDS, Treatment, treatment_from
from callauction.venue.venue import Venue
from callauction.words import SIDES

MOST_ROUNDS = 10_000
STEPS = {
    "start": Auctions.start_call,
    "end": Auctions.end_call,
    "freeze": Auctions.freeze,
    "thaw": Auctions.thaw,
}
Actions = dict[str, Callable[[Venue, dict[str, Any]], Awaitable[Json]]]


async def done(venue: Venue, message: dict[str, Any]) -> Json:
    """Does what is asked for. Raises MessageError and PhaseError."""
    word = text_of(message, "do")
    try:
        with refusing():
            act = ACTS.get(word)
            found = await (act(venue, message) if act else step(venue, word, message))
    except (MessageError, PhaseError) as fault:
        say(logging.WARNING if word == "resume" else logging.INFO, message, f" isn't done: {fault}")
        raise
    await venue.halts.noted()
    say(logging.INFO, message, told(found))
    return {"done": word} | found


@contextlib.contextmanager
def refusing() -> Iterator[None]:
    """Raises MessageError where a round, or values, can't be as a message wants them."""
    try:
        yield
    except (ConfigError, HandError) as fault:
        raise MessageError("bad_message", str(fault)) from None


def told(found: Json) -> str:
    """What became of the orders of members who were removed, or the name of one who was renamed;
    else empty.
    """
    if "name" in found:
        return f" is {found['name']} now"
    if "deleted" not in found:
        return ""
    later = f", and those of {', '.join(found['halted'])} later" if "halted" in found else ""
    return f": {len(found['deleted'])} orders deleted{later}"


def say(level: int, message: dict[str, Any], outcome: str = "") -> None:
    """Says what the operator has asked for, of which instrument or members, and what came of it."""
    whose = f" of {message['instrument']}" if "instrument" in message else ""
    names = message.get("members", [message["member"]] if "member" in message else [])
    listed = f": {', '.join(map(str, names))}" if isinstance(names, list) and names else ""
    asked = f"the operator: {message['do']}{whose}, from {SOURCE.get()}{listed}{outcome}"
    about = {"member": str(message["member"])} if message.get("member") else {}
    NOTICES.log(level, "%s", asked, extra={"is_once": True} | about)


# ---- the auctions


async def step(venue: Venue, word: str, message: dict[str, Any]) -> Json:
    """Goes on with the auction of all groups of an instrument in which that can be done. Raises
    MessageError and PhaseError.
    """
    if word not in (*STEPS, "uncross", "extend"):
        raise MessageError("bad_message", f"the operator can't {word}")
    boards = venue.rounds.named_boards(message.get("instrument"))
    venue.halts.check_running()
    seconds = number_of(message, "seconds", 1, MOST_CALL_SECONDS) if word == "extend" else 0
    seen = message.get("phase")
    if word == "start":
        await venue.values.begin_call(boards)
    faults: list[PhaseError] = []
    replies: dict[str, str] = {}
    for board in boards:
        try:
            check_seen(board, seen)
            if word == "uncross":
                replies[board.terms.name] = await board.auctions.uncross()
            elif word == "extend":
                board.auctions.extend(seconds)
            else:
                STEPS[word](board.auctions)
        except PhaseError as fault:
            faults.append(fault)
    if len(faults) == len(boards):
        raise faults[0]
    venue.audience.round_view.show()
    if not replies:
        return {}
    return {"reply": next(iter(replies.values())), "replies": replies}


def check_seen(board: InstrumentBoard, seen: object) -> None:
    """Raises PhaseError where the phase isn't the one that the operator has seen."""
    if seen is not None and seen != str(board.auctions.state.phase):
        raise PhaseError(f"the phase is {board.auctions.state.phase} and no longer {seen}")


# ---- the rounds


async def begin_round(venue: Venue, message: dict[str, Any]) -> Json:
    """Begins the next round: that of the day, or one that the message says. Raises MessageError,
    PhaseError, ConfigError, HandError.
    """
    venue.halts.check_running()
    number = number_of(message, "round", 2, MOST_ROUNDS)
    treatment = venue.day.treatment(number)
    if "treatment" in message:
        treatment = treatment_of_message(message["treatment"])
    venue.day.check(treatment)
    await venue.groups.next_round(number, treatment, message.get("anyway") is True)
    return {"round": number}


async def treat(venue: Venue, message: dict[str, Any]) -> Json:
    """Makes this round another one, before its first call; its reference stays, and its values
    where the round has handed them out. Raises what `begin_round` raises.
    """
    now = venue.rounds.now.treatment
    treatment = treatment_of_message(message.get("treatment"))
    treatment = dataclasses.replace(treatment, reference=now.reference)
    if venue.values.are_dealt:
        treatment = dataclasses.replace(treatment, rule=now.rule)
    venue.day.check(treatment)
    venue.rounds.treat(treatment)
    venue.audience.show_all()
    return {}


def treatment_of_message(table: object) -> Treatment:
    """The round of a message, whose file is its text. Raises MessageError, ConfigError."""
    if not isinstance(table, dict):
        raise MessageError("bad_message", "treatment is no object")
    return treatment_from(Fields("round", table), None)


async def announce(venue: Venue, message: dict[str, Any]) -> Json:
    """Says something to all. Raises MessageError."""
    text = text_of(message, "text")
    if not SENTENCE.fullmatch(text):
        raise MessageError("bad_message", f"text {flaw_of(text, SENTENCE)}")
    venue.rounds.announce(text)
    venue.audience.round_view.show()
    return {}


# ---- what is shown


async def show(venue: Venue, message: dict[str, Any]) -> Json:
    """Chooses what the screen shows. Raises MessageError."""
    venue.audience.show_on_beamer(text_of(message, "shows"))
    return {}


async def show_payoffs(venue: Venue, message: dict[str, Any]) -> Json:
    """Chooses what members see of payoffs. Raises MessageError."""
    venue.audience.show_paid(text_of(message, "shows"))
    return {}


async def resume(venue: Venue, message: dict[str, Any]) -> Json:
    """Tries again what had halted, of one instrument where the message names it, and says what had.
    Raises MessageError where it halts again.
    """
    name = message.get("instrument")
    instrument = None if name is None else venue.rounds.named_boards(name)[0].identity.instrument
    return {"resumed": await venue.starts.resume(instrument)}


# ---- members


async def new_code_of(venue: Venue, message: dict[str, Any]) -> Json:
    """A code by which a member can come again, from another telephone; or another code of the day,
    where the message names no member. Raises MessageError.
    """
    title = text_of(message, "member", "")
    name = title
    if title and title not in venue.members.codes.by_name:
        name = venue.members.called(title).name
    code = venue.members.codes.give(name, new_code())
    venue.audience.show_members()
    return {"code": code}


async def open_door(venue: Venue, message: dict[str, Any]) -> Json:
    """Lets new members join, or no more. Raises MessageError."""
    is_open = message.get("open")
    if not isinstance(is_open, bool):
        raise MessageError("bad_message", "open is neither true nor false")
    venue.members.codes.open(is_open)
    venue.audience.show_members()
    return {}


async def remove(venue: Venue, message: dict[str, Any]) -> Json:
    """Removes a member, or some, with their open orders. Raises MessageError."""
    venue.halts.check_running()
    titles = texts_of(message, "members") if "members" in message else [message.get("member")]
    members = [venue.members.called(it) for it in titles]
    for member in members:
        if member.is_removed:
            raise MessageError("bad_name", f"{member.title} is removed already")
    return await removed(venue, members)


async def removed(venue: Venue, members: list[VenueMember]) -> Json:
    """Removes members: how many, and their orders that were deleted; the instruments that have
    halted, where they are once these go on.
    """
    found = await venue.remove(members)
    deleted = [
        {"member": it.member.title, "instrument": it.board, "order": it.order}
        for it in found.deleted
    ]
    halted = {"halted": found.halted} if found.halted else {}
    return {"removed": len(members), "deleted": deleted} | halted


async def readmit(venue: Venue, message: dict[str, Any]) -> Json:
    """Lets a member that was removed come again by a new code: the code. Raises MessageError."""
    member = venue.members.called(message.get("member"))
    if not member.is_removed:
        raise MessageError("bad_name", f"{member.title} isn't removed")
    return {"code": await venue.readmit(member)}


async def rename(venue: Venue, message: dict[str, Any]) -> Json:
    """Gives a member another name. Raises MessageError."""
    member = venue.members.called(message.get("member"))
    venue.members.rename(member, text_of(message, "name"))
    venue.values.give_listed([member])
    venue.audience.show_all()
    return {"name": member.title}


async def change_robots(venue: Venue, message: dict[str, Any]) -> Json:
    """Adds robots, or removes all of them where their count is 0. Raises MessageError."""
    count = number_of(message, "count", 0, MOST_ROBOTS)
    if count == 0:
        return await removed(venue, [it for it in venue.members.all if it.robot])
    kind = text_of(message, "kind")
    if kind not in ROBOT_KINDS:
        raise MessageError("bad_message", f"kind is one of {', '.join(ROBOT_KINDS)}")
    return {"names": await venue.add_robots(kind, count)}


# ---- values


async def give(venue: Venue, message: dict[str, Any]) -> Json:
    """Hands out values: to all (`to` is "all"), to those who have none ("new"), or to those that a
    list or `members` names ("named"); answers which names of a list nobody has, whose values are
    kept until somebody has them. Who would lose a value needs `replace`. Raises MessageError, and
    HandError where they can't be handed out so.
    """
    rule = rule_of(message)
    instrument = venue.rounds.named_boards(message.get("instrument"))[0].identity.instrument
    rows, absent = rows_of_members(rule.rows, {it.title: it.name for it in venue.members.all})
    rule = dataclasses.replace(rule, rows=rows)
    held = venue.rounds.now.values(instrument)
    whom = text_of(message, "to", "named" if rule.how == "list" else "all")
    members = receivers(venue, rule, message, whom, held)
    losing = held if whom == "all" else {it.name for it in members} & held.keys()
    if losing and message.get("replace") is not True:
        raise losing_values(venue, members, held, len(losing))
    venue.values.check_listed(instrument, absent)
    given = 0
    if rows or not absent:
        given = await venue.values.give(instrument, rule, members, held, whom == "all")
    if rule.how == "list" or whom == "all":
        venue.values.keep_listed(instrument, absent, whom == "all")
        venue.values.give_listed(venue.members.all)  # who joined meanwhile
    return {"given": given, "absent": [it.member for it in absent]}


def losing_values(
    venue: Venue, members: list[VenueMember], held: Container[str], count: int
) -> MessageError:
    """What is said where as many members would lose a value: who would have a new one, and who
    would keep its own.
    """
    names = {it.name for it in members}
    kept = [it.title for it in venue.members.all if it.name in held and it.name not in names]
    text = f"{count} member{'s' * (count != 1)} would lose a value"
    return MessageError("has_values", text, gets=[it.title for it in members], keeps=kept)


def receivers(
    venue: Venue, rule: Rule, message: dict[str, Any], whom: str, held: Container[str]
) -> list[VenueMember]:
    """Who is handed out a value. Raises MessageError."""
    if whom == "named" and rule.how == "list":
        names = {row.member for row in rule.rows}
        return [it for it in venue.members.all if it.name in names]
    if whom == "named":
        return [venue.members.called(it) for it in texts_of(message, "members")]
    if whom not in ("all", "new"):
        raise MessageError("bad_message", "to is all, new or named")
    return [it for it in venue.members.all if whom == "all" or it.name not in held]


def rule_of(message: dict[str, Any]) -> Rule:
    """How a message wants values to be handed out. Raises MessageError, HandError."""
    default = "list" if {"values", "file"} & {*message} else "chance"
    how = text_of(message, "how", default)
    if how not in HANDING_WAYS[2:]:
        raise MessageError("bad_message", f"how is one of {', '.join(HANDING_WAYS[2:])}")
    if how == "shuffle":
        return Rule(how)
    if how == "list":
        return Rule(how, rows=rows_of_message(message))
    quantity = number_of(message, "quantity", 1, MOST_QUANTITY)
    if how == "chance":
        return Rule(how, text_of(message, "low"), text_of(message, "high"), quantity)
    demand, supply = (texts_of(message, name) for name in ("demand", "supply"))
    return Rule(how, quantity=quantity, demand=demand, supply=supply)


def texts_of(message: dict[str, Any], name: str) -> tuple[str, ...]:
    """A list of texts of a message. Raises MessageError."""
    found = message.get(name)
    if not isinstance(found, list) or not all(isinstance(it, str) for it in found):
        raise MessageError("bad_message", f"{name} is no list of texts")
    return tuple(found)


def rows_of_message(message: dict[str, Any]) -> tuple[ListedValue, ...]:
    """The rows of a message's file, or of its list of values. Raises MessageError, HandError."""
    if "file" in message:
        return rows_of(text_of(message, "file"))
    values = message.get("values")
    if not isinstance(values, list) or not all(isinstance(it, dict) for it in values):
        raise MessageError("bad_message", "values is no list of objects")
    found = []
    for it in values:
        side = text_of(it, "side")
        if side not in SIDES:
            raise MessageError("bad_message", "a value has a member, and a side of bid or ask")
        quantity = number_of(it, "quantity", 1, MOST_QUANTITY)
        found.append(ListedValue(None, text_of(it, "member"), side, text_of(it, "price"), quantity))
    return tuple(found)


async def reset(venue: Venue, message: dict[str, Any]) -> Json:
    """Begins a session by FIX anew, whose client has lost its numbers. Raises MessageError."""
    await venue.reset_session(text_of(message, "session"))
    return {}


ACTS: Actions = {
    "reset": reset,
    "next": begin_round,
    "treat": treat,
    "message": announce,
    "show": show,
    "payoffs": show_payoffs,
    "resume": resume,
    "code": new_code_of,
    "door": open_door,
    "remove": remove,
    "readmit": readmit,
    "rename": rename,
    "robots": change_robots,
    "give": give,
}
"""What the operator may ask for beside the steps of an auction."""
