"""What is sent to the program of an instrument: each message once it is on the log's disk, and to
each run of it first what the one before hasn't answered.
"""
import asyncio
import dataclasses
from collections.abc import Callable

from callauction.venue.latency import Times
from callauction.venue.log import Log, sent_text
from callauction.venue.messages import MessageError
from callauction.venue.process import Process
from callauction.venue.recovery import Entry, MemberMessage


@dataclasses.dataclass(slots=True, eq=False)
class UnansweredMessage:
    """A message that isn't answered yet, and who waits for its entry."""

    message: MemberMessage
    answer: "asyncio.Future[Entry]"
    since: float

    def refuse(self, fault: MessageError) -> None:
        """It isn't done."""
        if not self.answer.done():
            self.answer.set_exception(fault)


class Outbox:
    """The messages of the instrument of this name that aren't answered yet: those that go to the
    `process` that runs, None where none does, and those that are held. `on_entry` is called with
    each message and its entry before who sent it is answered.
    """

    def __init__(
        self, name: str, log: Log, answered: Callable[[UnansweredMessage, str], None]
    ) -> None:
        self._name, self._log, self._answered = name, log, answered
        self.process: Process | None = None
        self.times = Times()
        self.on_entry: Callable[[MemberMessage, Entry], None] = lambda message, entry: None
        self._pending: dict[MemberMessage, UnansweredMessage] = {}
        self._held: list[UnansweredMessage] = []
        self._holds = 0
        # another one for each run, and while none goes on
        self._batch: list[UnansweredMessage] = []

    @property
    def unanswered(self) -> list[UnansweredMessage]:
        """The messages that were sent, in their order."""
        return [*self._pending.values()]

    @property
    def waiting(self) -> int:
        """How many messages wait for their answers."""
        return len(self._pending) + len(self._held)

    # ---- what comes

    def put(self, message: MemberMessage, is_first: bool = False) -> "asyncio.Future[Entry]":
        """Sends a message that wasn't sent before, `is_first` before those that are held: its
        entry, once it is there.
        """
        loop = asyncio.get_running_loop()
        sent = UnansweredMessage(message, loop.create_future(), loop.time())
        if self._holds and not is_first:
            self._held.append(sent)
        else:
            self._take(sent)
        return sent.answer

    def hold(self) -> None:
        """Holds messages from now on, until `release` was called as often."""
        self._holds += 1

    def release(self) -> None:
        """Sends what was held, in the order in which it came, unless it is held once more."""
        self._holds -= 1
        if not self._holds:
            for sent in self.let_go():
                self._take(sent)

    def let_go(self) -> list[UnansweredMessage]:
        """What was held, and no longer is."""
        held, self._held = self._held, []
        return held

    # ---- what goes

    def begin(self, process: Process, start: str, then: Callable[[], None]) -> None:
        """Sends all that isn't answered to this run, once the log has the line of its `start`, and
        from then on what comes; as that begins, calls `then`.
        """
        self.end()
        batch, first = self._batch, self.unanswered
        lines = [start, *(self._line(it.message) for it in first)]

        def go() -> None:
            if batch is self._batch and process.takes_more:
                self.process = process
                batch.extend(first)
                self._send_batch(batch)
                then()

        self._log.append("\n".join(lines), go)

    def end(self) -> None:
        """Sends nothing more, until another run begins, which is sent all of it."""
        self.process, self._batch = None, []

    def _take(self, sent: UnansweredMessage) -> None:
        """Sends a message once it is on the log's disk."""
        self._pending[sent.message] = sent
        self._log.append(self._line(sent.message), lambda: self._send(sent))

    def _line(self, message: MemberMessage) -> str:
        """The log's line of a message."""
        of, it = self._name, message
        return sent_text(of, it.member, it.number, it.record, it.source, it.note)

    def _send(self, sent: UnansweredMessage) -> None:
        """Sends what is on the log's disk, unless no run goes on: the next one is sent it as that
        begins. What comes at once is sent at once.
        """
        if self.process is None:
            return
        if not self._batch:
            asyncio.get_running_loop().call_soon(self._send_batch, self._batch)
        self._batch.append(sent)

    def _send_batch(self, batch: list[UnansweredMessage]) -> None:
        """Sends what has come together, unless its run has ended since."""
        if batch and batch is self._batch and self.process is not None:
            answers = [lambda lines, sent=sent: self._answered(sent, lines[0]) for sent in batch]
            self.process.send([sent.message.record for sent in batch], answers)
            batch.clear()

    # ---- what is answered

    def settle(self, sent: UnansweredMessage, entry: Entry) -> None:
        """A message has its entry."""
        del self._pending[sent.message]
        self.times.add(asyncio.get_running_loop().time() - sent.since)
        self.on_entry(sent.message, entry)
        if not sent.answer.done():
            sent.answer.set_result(entry)

    def refuse(self, sent: UnansweredMessage, fault: MessageError) -> None:
        """A message has no entry."""
        del self._pending[sent.message]
        sent.refuse(fault)
