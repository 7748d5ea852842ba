"""Who the members of a venue are, by their tokens, and which of their messages were done.

A member's `name` is the one by which it joined, which the log has; its `title` is what others read.
"""
import asyncio
import collections
import dataclasses
from collections.abc import Mapping

from callauction.venue import arrivals, config, fields, tokens
from callauction.venue.arrivals import Arrivals
from callauction.venue.buckets import Bucket
from callauction.venue.codes import JoinCodes
from callauction.venue.log import Line, Log
from callauction.venue.logger import NOTICES
from callauction.venue.member_names import folded, is_role, is_seen, tidy
from callauction.venue.messages import MessageError
from callauction.venue.recovery import Entry

HELLO_RATE, HELLO_BURST = 2.0, 20
"""How often a member may say who it is, or come again by its code, a second and at once."""
UNSEEN = "a name has a letter or a digit, few marks on one letter, and nothing that isn't drawn"


class NameTakenError(MessageError):
    """Somebody has this name."""


@dataclasses.dataclass(slots=True, eq=False)
class Done:
    """What a message was, and its entry, once it is there."""

    instrument: str
    record: str
    answer: "asyncio.Future[Entry]"


@dataclasses.dataclass(eq=False)
class VenueMember:
    """A member: its name, what is kept of its token, and its messages by their numbers; its title,
    its group in this round, the kind of robot that it is, whether it was removed, how many tokens
    it had, each for another device, and whether nobody was given any of them.
    """

    name: str
    token: str
    bucket: Bucket
    title: str = ""
    group: int = 1
    robot: str = ""
    is_removed: bool = False
    devices: int = 0
    is_unanswered: bool = False
    done: dict[int, Done] = dataclasses.field(default_factory=dict)
    last: int = 0
    hellos: Bucket = dataclasses.field(default_factory=lambda: Bucket(HELLO_RATE, HELLO_BURST))

    def keep(self, number: int, done: Done) -> None:
        """A message with this number is sent; its number is free again where it isn't executed."""
        self.done[number] = done
        self.last = max(self.last, number)
        done.answer.add_done_callback(lambda answer: self._answered(number, answer))

    def waiting(self, instrument: str) -> list[Done]:
        """Its messages to an instrument that aren't answered yet."""
        sent = (it for it in self.done.values() if it.instrument == instrument)
        return [it for it in sent if not it.answer.done()]

    def _answered(self, number: int, answer: "asyncio.Future[Entry]") -> None:
        if answer.cancelled() or answer.exception() is not None:
            self.done.pop(number, None)


class Members:
    """The members of a venue, as the log has them."""

    def __init__(self, terms: config.MemberTerms, log: Log) -> None:
        self._terms, self._log = terms, log
        self._by_name: dict[str, VenueMember] = {}
        self._by_token: dict[str, VenueMember] = {}
        self._former: set[str] = set()
        self.codes = JoinCodes(terms, log)
        self.arrivals = Arrivals(terms.joins)

    @property
    def everybody(self) -> list[VenueMember]:
        """All members, also those that were removed, in the order in which they came."""
        return [*self._by_name.values()]

    @property
    def all(self) -> list[VenueMember]:
        """All members that weren't removed, in the order in which they came."""
        return [it for it in self.everybody if not it.is_removed]

    @property
    def sizes(self) -> dict[int, int]:
        """How many members each group has that has any, without those who were removed."""
        return dict(collections.Counter(it.group for it in self.all))

    def named(self, name: str) -> VenueMember | None:
        """The member of this name."""
        return self._by_name.get(name)

    def called(self, title: object) -> VenueMember:
        """The member of this title. Raises MessageError."""
        for it in self.everybody:
            if it.title == title:
                return it
        raise MessageError("bad_name", f"there is no member {title}")

    def title_of(self, name: str) -> str:
        """The title of the member of this name."""
        found = self._by_name.get(name)
        return found.title if found else name

    def of_token(self, token: str) -> VenueMember | None:
        """The member whose token this is."""
        return self._by_token.get(tokens.digest(token))

    def is_given(self, token: str) -> bool:
        """Whether a token is a member's, or was."""
        own = tokens.digest(token)
        return own in self._former or any(it.token == own for it in self.everybody)

    def was_token(self, token: str) -> bool:
        """Whether a token was a member's who has another one since."""
        return tokens.digest(token) in self._former

    # ---- joining

    def join(self, code: str, name: str, address: str = "") -> tuple[VenueMember, str]:
        """A member and its new token: a new member by the day's code, or one that comes again by a
        code of its own, from this address. Raises MessageError.
        """
        if own := self.codes.whose(code):
            return self._come_again(own)
        wanted = tidy(name)
        left = [it.name for it in self.all if it.is_unanswered and it.title == wanted]
        if left:
            return self._come_again(left[0])
        title = self._new_title(name)
        self._check_room()
        self.arrivals.check(address)
        found = self._come_again(title)
        self.arrivals.came(address, title)
        return found

    def join_robot(self, name: str, robot: str) -> VenueMember:
        """A robot of the venue itself, whose token nobody has. Raises MessageError."""
        return self._come_again(self._new_title(name), robot)[0]

    def _new_title(self, name: str) -> str:
        """A name as others read it. Raises MessageError where it can't be one, or is taken."""
        wanted = tidy(name)
        if not fields.MEMBER_NAME.fullmatch(wanted):
            raise MessageError("bad_name")
        if not is_seen(wanted):
            raise MessageError("bad_name", UNSEEN)
        if is_role(wanted):
            raise MessageError("bad_name", "this name is a role's here")
        titles = {it.title for it in self.everybody}
        if folded(wanted) in {folded(it) for it in [*titles, *self._by_name, *self._terms.names]}:
            raise NameTakenError("name_taken")
        return wanted

    def _come_again(self, name: str, robot: str = "") -> tuple[VenueMember, str]:
        """A member of this name with a new token, new where there is none. Raises MessageError."""
        if (found := self._by_name.get(name)) and not found.hellos.takes():
            raise MessageError("too_fast")
        token = tokens.new_token()
        return self.admit(name, token, robot), token

    def admit(self, name: str, token: str, robot: str = "") -> VenueMember:
        """The member of this name, new where there is none, whose token is this one from now on.
        Raises MessageError.
        """
        is_new = name not in self._by_name
        if is_new:
            self._check_room()
        self._log.note(kind="member", name=name, token=tokens.digest(token), robot=robot)
        found = self.learn(name, tokens.digest(token), robot)
        if is_new and self.is_full:
            NOTICES.warning(arrivals.ALL_TAKEN, self.most, name, arrivals.CLOSE_JOINING)
        return found

    @property
    def most(self) -> int:
        """How many members there may be."""
        return self._terms.most

    @property
    def is_full(self) -> bool:
        """Whether all places are taken."""
        return len(self.all) >= self.most

    def _check_room(self) -> None:
        """Raises MessageError where all places are taken."""
        if self.is_full:
            raise MessageError("venue_full")

    def learn(self, name: str, token: str, robot: str = "") -> VenueMember:
        """The member with this name has this token from now on."""
        found = self._by_name.get(name)
        if found is None:
            bucket = Bucket(self._terms.rate, self._terms.burst)
            found = VenueMember(name, token, bucket, name, robot=robot)
            self._by_name[name] = found
        if self._by_token.pop(found.token, None):
            self._former.add(found.token)
        found.token, found.is_removed, found.devices = token, False, found.devices + 1
        self._by_token[token] = found
        return found

    # ---- what the operator does with them

    def rename(self, member: VenueMember, title: str) -> None:
        """Gives a member another title. Raises MessageError."""
        before, member.title = member.title, ""
        try:
            wanted = member.name if folded(title) == folded(member.name) else self._new_title(title)
        except MessageError:
            member.title = before
            raise
        member.title = wanted
        self._log.note(kind="rename", name=member.name, title=wanted)

    def remove(self, member: VenueMember) -> None:
        """Nobody is this member any more."""
        self.forget(member.name)
        self._log.note(kind="removed", name=member.name)

    def move(self, groups: Mapping[str, int]) -> None:
        """Members are in these groups from now on."""
        for name, group in groups.items():
            if member := self.named(name):
                member.group = group

    def forget(self, name: str) -> None:
        """The member of this name is removed."""
        member = self._by_name[name]
        member.is_removed = True
        self._by_token.pop(member.token, None)
        self.codes.by_name.pop(name, None)

    def replay(self, line: Line) -> bool:
        """Takes a line of the log: whether it is one about members."""
        kind = line["kind"]
        if kind == "member":
            self.learn(line["name"], line["token"], line["robot"])
        elif kind == "rename":
            self._by_name[line["name"]].title = line["title"]
        elif kind == "removed":
            self.forget(line["name"])
        else:
            return self.codes.replay(line)
        return True
