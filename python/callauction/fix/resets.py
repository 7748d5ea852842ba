"""Sessions that begin anew, for a client that has lost its numbers: both numbers are 1 again, and
all that the journals gave so far is sent anew as PossResend.
"""
import asyncio
import functools

from callauction.fix._quickfix import Engine
from callauction.fix.connections import Connections
from callauction.fix.epochs import Epoch
from callauction.fix.reports import Reports
from callauction.fix.seats import Seat
from callauction.fix.tags import Tag, body_of, pairs_of
from callauction.venue.log import Line
from callauction.venue.messages import MessageError

RESET_SECONDS, RESET_PAUSE = 10.0, 0.02
"""How long the reset of a session waits for the answers to what that has said."""
LEAVE_SECONDS = 4.0
"""How long a session that is reset may take to answer its Logout."""
NO_ANSWER = f"its Logout wasn't answered for {LEAVE_SECONDS:g} s"
RESET = "the operator resets this session: begin at 1 with an empty store"
NOT_READY = "sessions by FIX haven't begun: an instrument hasn't answered since the start"
UNANSWERED = "{} isn't reset: {} hasn't answered all that it said: resume what has halted first"
ENDS = "the venue ends: what was answered stays"
"""Why a session ends, in its Logout."""


async def reset(connections: Connections, reports: Reports, comp_id: str) -> None:
    """Ends a session, and begins it anew with what its journals gave so far. Raises MessageError.
    """
    outbound, seat = connections.outbound, await seat_to_reset(connections, comp_id)
    connections.resetting.add(seat)
    try:
        await asyncio.wait_for(answered(reports, seat), RESET_SECONDS)
        if (wire := connections.on.get(seat)) is not None:
            outbound.engine.log_out(wire.number, RESET)
            connections.drain()
            asyncio.get_running_loop().call_later(LEAVE_SECONDS, wire.cut, NO_ANSWER)
        await asyncio.wait_for(ended(connections, reports, seat), RESET_SECONDS)
        outbound.beginning.add(seat)
        anew = functools.partial(begin_anew, outbound.engine, seat, connections.venue.rounds.mark)
        await outbound.sent.begin_anew(outbound.engine, seat.session, anew)
    except TimeoutError:
        raise MessageError("halted", unanswered(reports, seat)) from None
    finally:
        connections.resetting.discard(seat)
        outbound.beginning.discard(seat)


async def seat_to_reset(connections: Connections, comp_id: str) -> Seat:
    """The seat of a session that can be reset now. Raises MessageError where it can't."""
    seat = next((it for it in connections.seats.values() if it.comp_id == comp_id), None)
    if seat is None:
        raise MessageError("bad_message", f"there is no session {comp_id}")
    try:
        await asyncio.wait_for(connections.has_begun.wait(), RESET_SECONDS)
    except TimeoutError:
        raise MessageError("halted", NOT_READY) from None
    if not connections.is_ready:
        raise MessageError("halted", ENDS)
    if seat in connections.resetting:
        raise MessageError("bad_phase", f"{comp_id} is being reset")
    return seat


async def answered(reports: Reports, seat: Seat) -> None:
    """Waits until all that a session has said is answered, but for what waits for its turn, which
    goes on waiting; and all entries so far were sent, which a start does again. Raises MessageError
    where an instrument has halted that is to answer.
    """
    seat.inbound.is_held = True
    try:
        while seat.epoch.owed or seat.inbound.is_taking or seat.commands.unanswered:
            if any(it.engine.halted is not None for it in seat.commands.unanswered.values()):
                raise MessageError("halted", unanswered(reports, seat))
            await asyncio.sleep(RESET_PAUSE)
        await reports.until_now()
    finally:
        seat.inbound.is_held = False


def unanswered(reports: Reports, seat: Seat) -> str:
    """Why a session isn't reset: which instruments haven't answered."""
    late = {it.identity.instrument for it in seat.commands.unanswered.values()}
    late |= {it.identity.instrument for it in reports.late()}
    return UNANSWERED.format(seat.comp_id, ", ".join(sorted(late)) or "an instrument")


async def ended(connections: Connections, reports: Reports, seat: Seat) -> None:
    """Waits until a session is off, and what it said last is answered or dropped."""
    while seat in connections.on:
        await asyncio.sleep(RESET_PAUSE)
    seat.inbound.drop()
    await seat.idle()
    await reports.until_now()


def begin_anew(engine: Engine, seat: Seat, mark: str) -> Line:
    """Begins a session anew that is off, in a day whose last restore has this mark: what is written
    down of it. No message of its member has been of the epoch that begins, also none by another
    CompID. Raises RuntimeError where it isn't off.
    """
    texts, before = engine.sent(seat.session), seat.epoch
    engine.begin_anew(seat.session)
    seat.epoch = Epoch(seat.comp_id, max(before.number, seat.latest) + 1, mark)
    for pairs in map(pairs_of, texts):
        event = before.event_in(dict(pairs))
        is_own = event.startswith(before.refusal_of(""))
        if event and not is_own and event not in seat.epoch.told:
            body, groups = body_of(pairs)
            body.append((Tag.POSS_RESEND, "Y"))
            kind = dict(pairs)[Tag.MSG_TYPE]
            seat.epoch.told[event] = engine.send(seat.session, kind, body, groups)
    return {"epoch": seat.epoch.number, "mark": mark}
