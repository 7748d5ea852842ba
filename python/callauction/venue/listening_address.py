"""Where a venue listens: its address, and the certificate by which TLS does there."""
import dataclasses
import pathlib
import socket
import ssl
import time
from collections.abc import Callable, Iterable, Iterator
from typing import Any

from callauction.venue import addresses, owned

MOST_PEM_BYTES = 1 << 20
"""The bytes that a file of a certificate or of a key may have."""
OTHER_KEY = frozenset({"KEY_VALUES_MISMATCH", "KEY_TYPE_MISMATCH", "NO_CERTIFICATE_ASSIGNED"})
"""What OpenSSL says of a key that is another certificate's, of the same kind or another."""
HOST_NAME_KINDS = ("DNS", "IP Address")
"""The kinds of names in a certificate by which it is for a host."""
SOON_DAYS = 14
"""How many days before its end a certificate is warned of."""
DAY_SECONDS = 86_400.0


class AddressError(ValueError):
    """Nothing can listen there, or nothing should; the text says why."""


@dataclasses.dataclass(frozen=True)
class Address:
    """Where to listen; `names` are what members call this machine. Beyond this machine only with
    the files of a certificate and its key, or where `is_insecure`. `metrics` is where operations
    look; where `hides_tokens` they aren't printed.
    """

    host: str = "127.0.0.1"
    port: int = 8080
    cert: str | None = None
    key: str | None = None
    is_insecure: bool = False
    names: tuple[str, ...] = ()
    metrics: tuple[str, int] | None = None
    hides_tokens: bool = False

    def check(self) -> None:
        """Raises AddressError where others could read along, or the two ports are one."""
        if self.metrics is not None and is_one((self.host, self.port), self.metrics):
            raise AddressError(f"--metrics: port {self.port} is the members': take another")
        if bool(self.cert) != bool(self.key):
            raise AddressError("--tls-cert and --tls-key go together")
        for name in self.names:
            if not addresses.is_host(name):
                raise AddressError(f"--name: {name!r} is no name of a host, and no address")
        if self.cert and self.is_insecure:
            raise AddressError("--insecure is for no TLS at all: leave it out")
        if not addresses.is_loopback(self.host) and not self.cert and not self.is_insecure:
            raise AddressError(
                f"{self.host} is reached from other machines: --tls-cert and --tls-key, or "
                "--insecure, by which whoever is on the network can read tokens and speak for "
                "others"
            )

    def check_front(self, host: str, port: int) -> None:
        """Raises AddressError where others could read along on this host of another front, or its
        port is one of the venue's own.
        """
        own = {"members' (--port)": (self.host, self.port)}
        own |= {"operator's (--metrics)": self.metrics} if self.metrics else {}
        for whose, place in own.items():
            if is_one(place, (host, port)):
                raise AddressError(f"fix: address: port {port} is the {whose}: take another")
        if not addresses.is_loopback(host) and not self.cert:
            text = f"fix: {host} is reached from other machines: --tls-cert and --tls-key"
            raise AddressError(text)

    def context(self) -> ssl.SSLContext | None:
        """TLS by the certificate and its key as the files are now, where there is a certificate. A
        new one takes no other's place: OpenSSL keeps one for each kind of key. Raises AddressError.
        """
        if not self.cert:
            return None
        found = ssl.create_default_context(ssl.Purpose.CLIENT_AUTH)
        try:
            cert = owned.read_whole(pathlib.Path(self.cert), MOST_PEM_BYTES)
            key_path = pathlib.Path(self.key or "")
            key = owned.read_whole(key_path, MOST_PEM_BYTES, judge=owned.check_key)
            found.load_cert_chain(self.cert, self.key, refuse_to_ask)
            check_time(self.cert)
        except owned.OwnerError as fault:
            raise AddressError(str(fault)) from None
        except ssl.SSLError as fault:
            if fault.reason in OTHER_KEY:
                why = f"{self.key} isn't the key of {self.cert}: put the key there that is"
                raise AddressError(why) from None
            why = f"{self._unusable(cert, key)}: {fault}"
            raise AddressError(f"{why}: put a PEM file of each there") from None
        except OSError as fault:
            named = fault.filename or f"{self.cert} or its key {self.key}"
            why = f"{named} can't be read: {fault.strerror}"
            raise AddressError(f"{why}: put a PEM file there that its user may read") from None
        return found

    def _unusable(self, cert: bytes, key: bytes) -> str:
        """Which of these contents of the certificate and its key is none, or that they can't be
        used together.
        """
        if b"BEGIN CERTIFICATE" not in cert:
            return f"{self.cert} has no certificate"
        if b"PRIVATE KEY" not in key:
            return f"{self.key} has no private key"
        return f"{self.cert} and its key {self.key} can't be used"

    def warnings(self) -> Iterator[str]:
        """What is no fault yet: that the certificate ends soon; for whom it isn't by which members
        are told to come, as they may reach it by another name.
        """
        left = (ends_of(self.cert) - time.time()) / DAY_SECONDS if self.cert else SOON_DAYS
        if left < SOON_DAYS:
            yield f"the certificate {self.cert} ends in {left:.0f} days: put a new one there"
        names = hosts_of(self.cert) if self.cert else []
        for host in self.names or self.reached()[:1]:
            if self.cert and not any(addresses.is_named(host, name) for name in names):
                named = ", ".join(names) or "no host"
                yield f"browsers refuse {self.cert} for {host}: it is for {named} (see --name)"

    def hosts(self) -> frozenset[str]:
        """The names by which the venue goes, beside the addresses of this machine."""
        found = {"localhost", "127.0.0.1", "::1", self.host.lower(), *map(str.lower, self.names)}
        if not addresses.is_loopback(self.host):
            name = socket.gethostname().lower().partition(".")[0]
            found |= {socket.gethostname().lower(), name, f"{name}.local"}
        return frozenset(found)

    def reached(self) -> list[str]:
        """The hosts by which members reach it now, the best one first."""
        is_anywhere = self.host in ("0.0.0.0", "::")
        found = [*self.names, *(addresses.own_addresses(self.host) if is_anywhere else [self.host])]
        return found or ["localhost"]

    def urls(self, port: int, names: Callable[[], Iterable[str]] = tuple) -> list[str]:
        """The addresses of the first page now, the best one first: those that the certificate with
        these names is for, where it is for any of them.
        """
        kind, those, hosts = "https" if self.cert else "http", [*names()], self.reached()
        found = [it for it in hosts if any(addresses.is_named(it, name) for name in those)]
        shown = (f"[{host}]" if ":" in host else host for host in found or hosts)
        return [f"{kind}://{host}:{port}/" for host in shown]


def is_one(place: tuple[str, int], other: tuple[str, int]) -> bool:
    """Whether who listens at one host and port takes the other, too."""
    hosts = [it[0].replace("localhost", "127.0.0.1") for it in (place, other)]
    is_same = addresses.is_same_address(*hosts) or hosts[0] == hosts[1]
    is_host = is_same or {*hosts} & {"0.0.0.0", "::"}
    return 0 != place[1] == other[1] and bool(is_host)


def refuse_to_ask() -> str:
    """Where a key needs a passphrase: a venue that asks for it at a terminal stands still. Raises
    AddressError.
    """
    raise AddressError("the key has a passphrase: openssl pkey -in KEY -out PLAIN takes it away")


def check_time(cert: str) -> None:
    """Raises AddressError where a certificate isn't valid now."""
    begin = str(decoded(cert)["notBefore"])
    if ends_of(cert) <= time.time():
        raise AddressError(f"the certificate {cert} has ended: put a new one there")
    if ssl.cert_time_to_seconds(begin) > time.time():
        text = f"the certificate {cert} isn't valid before {' '.join(begin.split())}"
        raise AddressError(f"{text}: put one there that is, or set the clock")


def ends_of(cert: str) -> float:
    """When a certificate ends, in seconds of the epoch."""
    return ssl.cert_time_to_seconds(str(decoded(cert)["notAfter"]))


def hosts_of(cert: str) -> list[str]:
    """The hosts for which a certificate is: names and addresses."""
    named = decoded(cert).get("subjectAltName", ())
    return [value for kind, value in named if kind in HOST_NAME_KINDS]


def decoded(cert: str) -> dict[str, Any]:
    """What a certificate says."""
    found: dict[str, Any] = ssl._ssl._test_decode_cert(cert)  # type: ignore[attr-defined]
    return found
