"""What /metrics has of the sessions by FIX: as many messages as the clients counted."""
import pathlib
import time

import fixing
import served
from callauction.venue import metrics
from fixing import Peer
from patience import until
from watched import looked, measured

NAMES = ("sessions_connected", "received_total", "sent_total", "rejects_total", "resends_total")


class Counting(Peer):
    """A member, with the types of all that it was sent, and whether each was sent again."""

    def __init__(self, port: int, member: str) -> None:
        super().__init__(port, member)
        self.raw: list[tuple[str, bool]] = []

    def whole(self) -> bytes:
        """The next message as it came. Raises Closed, and TimeoutError."""
        found = super().whole()
        given = dict(fixing.parsed(found))
        self.raw.append((given[35], given.get(43) == "Y"))
        return found


def counts(url: str) -> list[float]:
    """The measures of sessions by FIX."""
    time.sleep(metrics.KEPT_SECONDS)
    found = measured(url)
    return [found[f"callboard_fix_{it}"][()] for it in NAMES]


def test_sessions_are_measured(tmp_path: pathlib.Path) -> None:
    port, address = served.free_port(), f"127.0.0.1:{served.free_port()}"
    url, day = f"http://{address}", fixing.day_of(port, "ALICE", "BOB")
    with served.served(tmp_path, day, "--metrics", address) as venue:
        assert counts(url) == [0, 0, 0, 0, 0]
        venue.do("start")
        alice, bob = (Counting(port, it) for it in ("ALICE", "BOB"))
        for peer in (alice, bob):
            peer.logon(fixing.token_of(tmp_path / "venue", peer.member))
        alice.enter("a1", "1", 10, "2.00")
        alice.enter("a2", "1", 10, "2.00", (9999, "1"))  # 35=3
        alice.say("E", [(66, "list")])  # 35=j
        alice.take(lambda it: it[35] == "j")
        alice.say("2", [(7, "1"), (16, "0")])
        alice.all()
        assert [it for it, _ in alice.raw if it in "3j"] == ["3", "j", "3", "j"]
        again = sum(is_again for _, is_again in alice.raw)
        received = alice.number + bob.number - 2
        assert counts(url) == [2, received, len(alice.raw) + len(bob.raw), 2, again] and again >= 3
        bob.close()
        until(lambda: counts(url)[0] == 1)
        assert looked(f"{url}/healthz")[0] == 200


def test_without_sessions_nothing_is_measured_of_them(tmp_path: pathlib.Path) -> None:
    address = f"127.0.0.1:{served.free_port()}"
    with served.served(tmp_path, "", "--metrics", address):
        found = measured(f"http://{address}")
        assert "callboard_up" in found and not any("fix" in it for it in found)
