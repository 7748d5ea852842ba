"""The venue by HTTP: the pages, joining, looks, what the operator does, downloads; and who may ask
at all.
"""
import asyncio
import contextlib
import dataclasses
import pathlib
from collections.abc import Awaitable, Callable
from typing import Any
from urllib.parse import urlsplit

from aiohttp import ClientPayloadError, hdrs, web
from aiohttp.http_exceptions import HttpProcessingError

from callauction.venue import (
    addresses, answer_heads, downloads, fields, messages, replay, sheets, shown,
)
from callauction.venue import operator_words
from callauction.venue.arrivals import JOIN_SECONDS
from callauction.venue.connection import connect, packed
from callauction.venue.gates import BODY_SECONDS, Gates
from callauction.venue.guessing import Guesses
from callauction.venue.instrument_board import InstrumentBoard
from callauction.venue.json_types import Json
from callauction.venue.log import SOURCE
from callauction.venue.logger import NOTICES
from callauction.venue.members import VenueMember
from callauction.venue.messages import MessageError
from callauction.venue.phases import PhaseError
from callauction.venue.venue import Venue
from callauction.venue.wrong_codes import WrongCodes

Handler = Callable[[web.Request], Awaitable[web.StreamResponse]]
VENUE_FOLDER = pathlib.Path(__file__).resolve().parent
CONTENT_TYPES = {
    ".html": "text/html",
    ".css": "text/css",
    ".js": "text/javascript",
    ".svg": "image/svg+xml",
    ".json": "application/json",
}
PAGES = {"/": "member.html", "/teacher": "teacher.html", "/beamer": "beamer.html"}
MOST_BODY_BYTES = 65_536
ERROR_STATUSES = {
    "bad_token": 401,
    "bad_code": 403,
    "not_allowed": 403,
    "too_fast": 429,
    "halted": 503,
    "not_made": 503,
    "name_taken": 409,
    "bad_phase": 409,
    "venue_full": 409,
    "has_values": 409,
    "not_known": 409,
    "joining_closed": 403,
    "join_later": 429,
}
AGAIN = ("join_later", "not_made")
"""What may be asked for once more, after JOIN_SECONDS."""
SOCKET_PATH = "/api/socket"
MOST_NAME_LETTERS = 40
"""How much is written down of a name that came with a wrong code."""
CODES_GUESSED = (
    "codes are guessed, lastly from %s: each waits for its turn, also a right one; "
    "Close joining on the teacher's page once all have joined"
)


@dataclasses.dataclass
class AllowedHosts:
    """Who may ask: those whose address bar has one of these hosts, or the address of this machine
    that they have reached, whenever it came.
    """

    hosts: frozenset[str]

    def check(self, request: web.Request) -> None:
        """Raises HTTPForbidden where a page of elsewhere asks, or under a name that isn't ours."""
        host = request.headers.get("Host", "")
        if name_of(host) not in self.hosts and not is_reached_by(request, name_of(host)):
            raise web.HTTPForbidden(text="this venue doesn't go by this name")
        origin = request.headers.get("Origin")
        if origin is not None and place_of(origin) != host:
            raise web.HTTPForbidden(text="a page of another origin may not ask")


def place_of(origin: str) -> str | None:
    """The host and the port of an origin, None where it is none."""
    with contextlib.suppress(ValueError):
        return urlsplit(origin).netloc
    return None


def name_of(host: str) -> str:
    """A host without its port, in lower case."""
    with contextlib.suppress(ValueError):
        return urlsplit(f"//{host}").hostname or ""
    return ""


def is_reached_by(request: web.Request, host: str) -> bool:
    """Whether a host is the address of this machine at which a request has come."""
    own = request.transport.get_extra_info("sockname") if request.transport else None
    return own is not None and addresses.is_same_address(host, own[0].partition("%")[0])


class Site:
    """The venue's pages and interfaces."""

    def __init__(
        self, venue: Venue, program: str, hosts: frozenset[str], gates: Gates | None = None
    ) -> None:
        self._venue, self._program, self._doors = venue, program, AllowedHosts(hosts)
        self._files = {path.name: path for path in (VENUE_FOLDER / "pages").iterdir()}
        self._gates = Gates() if gates is None else gates
        self._guesses, self._wrong_codes = Guesses(), WrongCodes(venue.log)

    def application(self) -> web.Application:
        """What aiohttp serves."""
        found = web.Application(middlewares=[self._guarded], client_max_size=MOST_BODY_BYTES)
        found.on_response_prepare.append(answer_heads.mark)
        found.on_shutdown.append(self._wrong_codes.end)
        for path, name in PAGES.items():
            found.router.add_get(path, self._page(name))
            if path != "/":
                found.router.add_get(f"{path}/", self._page(name))
        found.router.add_get("/pages/{name}", self._file)
        found.router.add_get("/api/schema", self._schema)
        found.router.add_get("/api/day", self._day)
        found.router.add_post("/api/join", self._join)
        found.router.add_get("/api/look/{what}", self._look)
        found.router.add_get(SOCKET_PATH, self._socket)
        found.router.add_post("/api/operator", self._operator)
        for path in ("/api/download/{kind}", "/api/download/{kind}/{instrument}"):
            found.router.add_get(path, self._download)
        found.router.add_get("/api/replay/{instrument}", self._replay)
        return found

    @web.middleware
    async def _guarded(self, request: web.Request, handler: Handler) -> web.StreamResponse:
        """Checks who asks, and makes an answer of what is wrong with a request."""
        SOURCE.set(request.remote or "")
        try:
            return await self._served(request, handler)
        except MessageError as fault:
            body = {"error": fault.code, "text": fault.text} | fault.more
            later = {"Retry-After": f"{JOIN_SECONDS:.0f}"} if fault.code in AGAIN else {}
            status = ERROR_STATUSES.get(fault.code, 400)
            return web.json_response(body, status=status, headers=later)
        except web.HTTPException:
            raise
        except ConnectionError:
            return web.Response(status=400)  # which nobody takes any more
        except Exception:
            NOTICES.exception("a request failed")
            return web.Response(status=500, text="the venue failed at this request")

    async def _served(self, request: web.Request, handler: Handler) -> web.StreamResponse:
        """What answers a request once all of it has come in time. Raises MessageError and
        HTTPException.
        """
        self._doors.check(request)
        if request.transport is None:
            raise ConnectionResetError
        gate = self._gates.of(request.transport)
        gate.speaker = self._speaker_of(request)
        if request.path == SOCKET_PATH:
            return await handler(request)
        if hdrs.TRANSFER_ENCODING in request.headers:
            gate.end_request()
            raise web.HTTPLengthRequired(text="a body has its length in the head")
        try:
            async with asyncio.timeout(BODY_SECONDS):
                await request.read()
        except TimeoutError:
            raise web.HTTPRequestTimeout(text="the request takes too long") from None
        except web.HTTPRequestEntityTooLarge:
            most = MOST_BODY_BYTES
            text = f"a body has at most {most} bytes"
            raise web.HTTPRequestEntityTooLarge(most, most, text=text) from None
        except (ClientPayloadError, HttpProcessingError):
            raise MessageError("bad_message", "the body isn't what its head says") from None
        with self._gates.served(request.transport):
            return await handler(request)

    def _speaker_of(self, request: web.Request) -> str:
        """Whose token a request has: a role, and a member's name; empty where it is nobody's."""
        with contextlib.suppress(MessageError):
            role, member = self._venue.role_of(token_of(request))
            return role if member is None else f"{role} {member.name}"
        return ""

    # ---- pages

    def _page(self, name: str) -> Handler:
        """What gives a page."""

        async def page(request: web.Request) -> web.StreamResponse:
            return self._content(name)

        return page

    async def _file(self, request: web.Request) -> web.StreamResponse:
        """A file beside the pages."""
        return self._content(request.match_info["name"])

    def _content(self, name: str) -> web.Response:
        """A file. Raises HTTPNotFound."""
        path = self._files.get(name)
        if path is None:
            raise web.HTTPNotFound
        kind = CONTENT_TYPES.get(path.suffix, "application/octet-stream")
        return web.Response(body=path.read_bytes(), content_type=kind, charset="utf-8")

    async def _schema(self, request: web.Request) -> web.Response:
        """What the messages are."""
        return web.json_response(body=(VENUE_FOLDER / "schema.json").read_bytes())

    # ---- who may be anybody

    async def _day(self, request: web.Request) -> web.Response:
        """What the day is, for those who haven't joined."""
        venue = self._venue
        return answered(
            {
                "title": venue.day.title,
                "language": venue.day.language,
                "instruments": [shown.terms_of(it) for it in venue.rounds.boards_of(None).values()],
            }
        )

    async def _join(self, request: web.Request) -> web.Response:
        """Makes a member."""
        body = await body_of(request)
        for other in body.keys() - {"code", "name"}:
            raise MessageError("bad_message", f"there is no {fields.shown(other)} in a join")
        code, name = messages.text_of(body, "code"), messages.text_of(body, "name", "")
        who = request.remote or "", connection_of(request)
        if not await self._guesses.turn(*who):
            raise MessageError("too_fast")
        try:
            member, token = await self._venue.join(code, name, request.remote or "")
        except MessageError as fault:
            if fault.code == "bad_code":
                are_many = self._guesses.wrong(*who)
                self._wrong_codes.note(name[:MOST_NAME_LETTERS], are_many)
                NOTICES.info("a wrong code, from %s", request.remote, extra={"of": "codes"})
                if are_many:
                    NOTICES.warning(CODES_GUESSED, request.remote, extra={"of": "guesses"})
            raise
        NOTICES.info("a member joined, from %s", request.remote, extra={"member": member.name})
        again = member.devices > 1
        return answered({"name": member.title, "token": token, "again": again})

    async def _socket(self, request: web.Request) -> web.StreamResponse:
        """A connection of a member, of the operator or of the screen."""
        return await connect(request, self._venue, self._gates)

    # ---- looks

    def _member_of(self, request: web.Request) -> VenueMember | None:
        """The member who asks, None where the operator looks at a state. Raises MessageError."""
        role, member = self._venue.role_of(token_of(request))
        if member is None:
            if role == "operator" and request.match_info["what"] == "state":
                return None
            raise MessageError("not_allowed", f"this look is a member's, and not the {role}'s")
        if not member.bucket.takes():
            raise MessageError("too_fast")
        return member

    async def _look(self, request: web.Request) -> web.Response:
        """What a member, or the operator, may see of an instrument."""
        member = self._member_of(request)
        board = self._venue.rounds.named_board(request.query.get("instrument"), member)
        what = request.match_info["what"]
        if what == "state" or member is None:
            return answered(self._venue.audience.state_of(board))
        board.looks.check_seen()
        if what == "orders":
            await board.looks.see_orders_of(member.name)
            return answered(shown.orders_of(board, member.name))
        if what in ("fills", "trades"):
            await board.looks.see_trades()
        if what == "fills":
            return answered(shown.fills_of(board, member.name))
        if what == "trades":
            first = request.query.get("first", "1")
            if not first.isdecimal() or len(first) > 10:
                raise MessageError("bad_message", "first is no number of a trade")
            begin = max(0, int(first) - 1)
            page = board.looks.trades[begin : begin + shown.MOST_TRADES]
            return answered(shown.trades_of(board, page))
        if what == "ladder":
            if not self._venue.rounds.now.is_open_book:
                raise MessageError("not_allowed", "the book is closed in this round")
            await board.looks.refresh(has_ladder=True)
            return answered(shown.ladder_of(board))
        raise web.HTTPNotFound

    # ---- the operator

    def _check_operator(self, request: web.Request) -> None:
        """Raises MessageError where somebody else asks."""
        try:
            role, _ = self._venue.role_of(token_of(request))
            if role != "operator":
                raise MessageError("not_allowed")
        except MessageError:
            source = {"of": request.remote or ""}
            text = "a token that isn't the operator's, from %s"
            NOTICES.warning(text, request.remote, extra=source)
            raise

    async def _operator(self, request: web.Request) -> web.Response:
        """Does what the operator asks for."""
        self._check_operator(request)
        body = await body_of(request)
        try:
            return answered(await operator_words.done(self._venue, body))
        except PhaseError as fault:
            raise MessageError("bad_phase", str(fault)) from None

    def _board_of(self, request: web.Request) -> InstrumentBoard:
        """The board that a download is asked of: of this round, or of an earlier one; where it
        names none, the only one, or any where it is of all. Raises MessageError.
        """
        number = request.query.get("round", str(self._venue.rounds.now.number))
        is_number = number.isdecimal() and len(number) < 10
        if not is_number or not 1 <= int(number) <= self._venue.rounds.now.number:
            raise MessageError("bad_message", "there is no such round")
        round_ = self._venue.rounds.all[int(number) - 1]
        name = request.match_info.get("instrument", "")
        if found := round_.boards.get(name):
            return found
        first, kind = next(iter(round_.boards.values())), request.match_info.get("kind")
        if not name and (len(round_.boards) == 1 or kind in downloads.OF_ALL):
            return first
        if name:
            raise MessageError("unknown_instrument")
        path = f"/api/download/{kind}/{first.identity.name}"
        raise MessageError(
            "unknown_instrument", f"name one of {len(round_.boards)} instruments: {path}"
        )

    async def _replay(self, request: web.Request) -> web.Response:
        """An auction that ended, book by book, for the operator and the screen."""
        _, member = self._venue.role_of(token_of(request))
        if member is not None:
            raise MessageError("not_allowed")
        number = request.query.get("auction")
        if number is not None and not (number.isdecimal() and len(number) < 10):
            raise MessageError("bad_message", "auction is no number")
        asked = None if number is None else int(number)
        try:
            return answered(await replay.replay_of(self._board_of(request), self._program, asked))
        except downloads.DownloadError as fault:
            raise not_made("the replay", fault) from None

    async def _download(self, request: web.Request) -> web.Response:
        """A file for the operator."""
        self._check_operator(request)
        kind = request.match_info["kind"]
        if kind not in downloads.DOWNLOADS:
            names = ", ".join(downloads.DOWNLOADS)
            text = f"there is no download {fields.shown(kind)}, but {names}"
            raise MessageError("bad_message", text)
        board = self._board_of(request)
        if kind in downloads.OF_ALL:
            self._venue.rounds.check_seen()
            for each in self._venue.rounds.now.boards.values():
                await each.looks.see_trades()
        elif kind == "members":
            board.engine.check_known()
        language = request.query.get("language", sheets.PLAIN)
        if language not in sheets.SHEET_LANGUAGES:
            raise MessageError("bad_message", "language is none of en, de")
        lesson = self._venue.lesson(self._program)
        try:
            body = await downloads.made(kind, lesson, board, language)
        except downloads.DownloadError as fault:
            raise not_made(f"the download of {kind}", fault) from None
        name = downloads.file_of(kind, lesson, board, language)
        headers = {"Content-Disposition": downloads.disposition(name)}
        content_type = downloads.DOWNLOADS[kind][1]
        return web.Response(
            body=body, content_type=content_type, charset="utf-8", headers=headers
        )


def not_made(what: str, fault: downloads.DownloadError) -> MessageError:
    """How is said that something can't be made: what may be asked for again, operations read too.
    """
    if not isinstance(fault, downloads.NotNowError):
        return MessageError("bad_message", str(fault))
    NOTICES.warning("%s: %s", what, fault)
    return MessageError("not_made", str(fault))


def answered(message: Json) -> web.Response:
    """An answer."""
    return web.Response(text=packed(message), content_type="application/json")


def connection_of(request: web.Request) -> str:
    """What names the connection of a request among all that there are."""
    peer = request.transport.get_extra_info("peername") if request.transport else None
    return str(peer)


def token_of(request: web.Request) -> str:
    """The token of a request. Raises MessageError."""
    kind, _, token = request.headers.get("Authorization", "").partition(" ")
    if kind != "Bearer" or not token:
        raise MessageError("bad_token", "a token comes as 'Authorization: Bearer TOKEN'")
    return token.strip()


async def body_of(request: web.Request) -> dict[str, Any]:
    """The object that a request brings. Raises MessageError. A page of elsewhere can't send JSON
    without being asked whether it may.
    """
    if request.content_type != "application/json":
        raise MessageError("bad_message", "this isn't application/json")
    try:
        text = (await request.read()).decode("utf-8")
    except ValueError:
        raise MessageError("bad_message", "this is no JSON") from None
    found = messages.json_value(text)
    if not isinstance(found, dict):
        raise MessageError("bad_message", "this is no object")
    return found
