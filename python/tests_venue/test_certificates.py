"""Certificates of a venue: which are taken, also anew, and what is said of their end."""
import contextlib
import json
import os
import pathlib
import signal
import socket
import ssl
import subprocess
import time
from collections.abc import Callable

import pytest
import served
from callauction.venue import addresses, checking, listening_address
from callauction.venue.listening_address import Address, AddressError
from certificates import ECDSA, certificate
from checked_days import checked
from conftest import FAST
from patience import until
from served import Served, ended
from watched import measured

RSA = "rsa:2048"
"""A kind of keys, as openssl names it."""


def seen(venue: Served) -> bytes:
    """The certificate by which a venue is reached now."""
    port = int(venue.url.rpartition(":")[2].rstrip("/"))
    return ssl.PEM_cert_to_DER_cert(ssl.get_server_certificate(("127.0.0.1", port)))


def locked(folder: pathlib.Path) -> None:
    """A key with a passphrase."""
    words = f"openssl pkey -in {folder}/key.pem -out {folder}/locked -aes256 -passout pass:known"
    subprocess.run(words.split(), check=True)
    (folder / "locked").rename(folder / "key.pem")


def piped(folder: pathlib.Path) -> None:
    """A pipe in the place of a key, that nobody writes to."""
    (folder / "key.pem").unlink()
    os.mkfifo(folder / "key.pem")


def opened(folder: pathlib.Path, mode: int) -> None:
    """A key that others may read or write."""
    certificate(folder, "fifth")
    (folder / "key.pem").chmod(mode)


def mixed(folder: pathlib.Path, kind: str = ECDSA) -> None:
    """The key of another certificate, beside one whose key is of this kind."""
    certificate(folder, "third")
    key = (folder / "key.pem").read_bytes()
    certificate(folder, "fourth", kind=kind)
    (folder / "key.pem").write_bytes(key)


AUTHORITY = """
[ca]
default_ca = own
[own]
database = index
new_certs_dir = .
rand_serial = yes
default_md = sha256
policy = named
[named]
commonName = supplied
"""


def early(folder: pathlib.Path) -> list[str]:
    """A certificate that isn't valid yet, and its key, as words of a venue."""
    words = certificate(folder, "sixth")
    (folder / "index").touch()
    (folder / "authority").write_text(AUTHORITY)
    lines = [
        "req -new -key key.pem -subj /CN=sixth -out asked",
        "ca -batch -selfsign -notext -config authority -keyfile key.pem -in asked -out cert.pem "
        "-startdate 20980101000000Z -enddate 20990101000000Z",
    ]
    for line in lines:
        subprocess.run(["openssl", *line.split()], cwd=folder, check=True, capture_output=True)
    return words


SPOILED: dict[str, Callable[[pathlib.Path], object]] = {
    "cert.pem has no certificate": lambda folder: (folder / "cert.pem").write_text("none"),
    "key.pem isn't the key of ": mixed,
    "cert.pem: put the key there that is": lambda folder: mixed(folder, RSA),
    "has a passphrase": locked,
    "is no regular file": piped,
    "No such file": lambda folder: (folder / "key.pem").unlink(),
    "cert.pem isn't valid before Jan 1 00:00:00 2098 GMT: put one there": early,
    "key.pem may be read by all users: chmod o-rwx": lambda folder: opened(folder, 0o644),
    "key.pem may be written by other users: chmod go-w": lambda folder: opened(folder, 0o660),
}
"""Bad certificates, by what is said of each."""


def test_a_certificate_is_taken_anew(tmp_path: pathlib.Path) -> None:
    words = certificate(tmp_path, "first")
    with served.served(tmp_path, FAST, *words, "--log", "json") as venue:
        first = seen(venue)
        certificate(tmp_path, "second")
        (tmp_path / "key.pem").chmod(0o640)  # as a group may have it that the venue's user is in
        assert seen(venue) == first
        venue.child.send_signal(signal.SIGHUP)
        until(lambda: seen(venue) != first)
        second = seen(venue)
        for spoil in SPOILED.values():
            spoil(tmp_path)
            venue.child.send_signal(signal.SIGHUP)
            time.sleep(1.1)  # a fault that comes again is a line a second
            assert seen(venue) == second
        venue.child.terminate()
        _, error = venue.child.communicate(timeout=served.SECONDS)
        texts = [json.loads(line)["text"] for line in error.splitlines()]
        assert any(it.startswith("the certificate was taken anew: it ends on 2") for it in texts)
        kept = "the certificate stays as it was: "
        found = [it.removeprefix(kept) for it in texts if it.startswith(kept)]
        assert len(found) == len(SPOILED), found
        for text, what in zip(found, SPOILED):
            assert what in text, (what, text)


def certificates_at(port: int) -> list[bytes]:
    """The certificates by which a port is reached by who takes any, and by who takes but RSA, or
    but ECDSA; none where it has none of that kind.
    """
    found = []
    for ciphers in ("ALL", "aRSA", "aECDSA"):
        context = ssl.SSLContext(ssl.PROTOCOL_TLS_CLIENT)
        context.check_hostname, context.verify_mode = False, ssl.CERT_NONE
        context.maximum_version = ssl.TLSVersion.TLSv1_2
        context.set_ciphers(ciphers)
        with contextlib.suppress(ssl.SSLError), socket.create_connection(("127.0.0.1", port)) as it:
            with context.wrap_socket(it) as secured:
                found.append(secured.getpeercert(True) or b"")
    return found


def test_a_certificate_of_another_kind_is_taken_anew(tmp_path: pathlib.Path) -> None:
    """Nobody is given the one before it any more, at the pages' port or at that of FIX."""
    fix = served.free_port()
    words = certificate(tmp_path, "first")
    day = f'{FAST}[fix]\naddress = "127.0.0.1:{fix}"\n[fix.sessions]\nALICE = "Alice"\n'
    with served.served(tmp_path, day, *words) as venue:
        ports = [int(venue.url.rpartition(":")[2].rstrip("/")), fix]
        for name, kind in (("second", RSA), ("third", ECDSA), ("fourth", RSA)):
            certificate(tmp_path, name, kind=kind)
            own = ssl.PEM_cert_to_DER_cert((tmp_path / "cert.pem").read_text())
            venue.child.send_signal(signal.SIGHUP)
            last = time.monotonic() + served.SECONDS / 10
            while (found := [certificates_at(it) for it in ports]) != [[own, own]] * 2:
                assert time.monotonic() < last, (name, found)
                time.sleep(0.2)
        venue.child.terminate()
        venue.child.communicate(timeout=served.SECONDS)
        assert venue.child.returncode == 0


def test_a_hangup_without_a_certificate(tmp_path: pathlib.Path) -> None:
    with served.served(tmp_path, FAST) as venue:
        venue.child.send_signal(signal.SIGHUP)
        assert venue.call("api/day")[0] == 200
        venue.child.terminate()
        _, error = venue.child.communicate(timeout=served.SECONDS)
        assert error == "venue: there is no certificate that could be taken anew\n"
        assert venue.child.returncode == 0


def test_a_terminal_that_ends(tmp_path: pathlib.Path) -> None:
    ours, theirs = os.openpty()
    words = served.words_of("--folder", tmp_path / "venue", "--port", served.free_port())
    pipe = subprocess.PIPE
    with subprocess.Popen(
        words, env=served.environment(), stdin=theirs, stdout=pipe, stderr=pipe, text=True
    ) as child:
        try:
            served.begun(child)
            child.send_signal(signal.SIGHUP)
            _, error = child.communicate(timeout=served.SECONDS)
            assert (child.returncode, error) == (0, "")
        finally:
            child.kill()
            os.close(ours)
            os.close(theirs)


def test_an_ended_certificate(tmp_path: pathlib.Path, monkeypatch: pytest.MonkeyPatch) -> None:
    words = certificate(tmp_path, "first", 30)
    status, printed, _ = checked("--folder", tmp_path / "venue", *words)
    assert status == 0 and "address: 127.0.0.1, by a certificate that ends in 30 days" in printed
    now = time.time()
    later = now + 31 * listening_address.DAY_SECONDS
    monkeypatch.setattr("callauction.venue.listening_address.time.time", lambda: later)
    with pytest.raises(AddressError, match="the certificate .*/cert.pem has ended"):
        [*checking.checked_address(Address(cert=words[1], key=words[3]))]


def test_a_certificate_of_another_name(tmp_path: pathlib.Path) -> None:
    words = certificate(tmp_path, "first")
    kept = ["--folder", tmp_path / "venue", *words]
    assert "warning" not in checked(*kept)[1] + checked(*kept, "--listen", "127.0.0.1")[1]
    status, printed, error = checked(*kept, "--name", "venue.example", "--name", "127.0.0.1")
    assert (status, error) == (0, "")
    found = [line for line in printed.splitlines() if line.startswith("warning: ")]
    cert = tmp_path / "cert.pem"
    text = f"browsers refuse {cert} for venue.example: it is for 127.0.0.1 (see --name)"
    assert found == [f"warning: {text}"]


def test_a_certificate_that_isnt_valid_yet(tmp_path: pathlib.Path) -> None:
    """Neither a check nor a start takes it."""
    words: list[object] = ["--folder", tmp_path / "venue", *early(tmp_path)]
    text = f"venue: the certificate {tmp_path}/cert.pem isn't valid before Jan 1 00:00:00 2098"
    for more in ("--check", "--hide-tokens"):
        status, error = ended(*words, "--port", 0, more)
        assert status == 2 and error.startswith(text), error


def test_what_is_said_and_measured_of_a_certificate(tmp_path: pathlib.Path) -> None:
    """For whom it isn't, and when it ends, also where another one is taken."""
    words, port = certificate(tmp_path, "first", 3), served.free_port()
    measures = ["--metrics", f"127.0.0.1:{port}", "--name", "venue.example", "--name", "127.0.0.1"]
    for_others = f"browsers refuse {tmp_path}/cert.pem for venue.example: it is for 127.0.0.1"
    with served.served(tmp_path, FAST, *words, *measures) as venue:
        def days() -> float:
            ends = measured(f"http://127.0.0.1:{port}")["callboard_certificate_end_seconds"][()]
            return (ends - time.time()) / listening_address.DAY_SECONDS

        assert 2.9 < days() < 3.1
        certificate(tmp_path, "second", 5)
        venue.child.send_signal(signal.SIGHUP)
        until(lambda: 4.9 < days() < 5.1)
        venue.child.terminate()
        _, error = venue.child.communicate(timeout=served.SECONDS)
    lines = error.splitlines()
    ends = time.strftime("%Y-%m-%d", time.gmtime(time.time() + 5 * listening_address.DAY_SECONDS))
    assert lines[1].startswith(f"venue: {for_others}"), error
    assert f"venue: the certificate was taken anew: it ends on {ends}" in lines
    soon = [f"venue: the certificate {words[1]} ends in {it} days: put a new one there"
            for it in (3, 5)]  # fmt: skip
    assert [it for it in lines if " days: put a new one" in it] == soon
    assert f"warning: {soon[1].partition(' ')[2]}" in checked(*words)[1].splitlines()


@pytest.mark.parametrize(
    "host, name, is_one",
    [
        ("Venue.example", "venue.EXAMPLE", True),
        ("a.class.example", "*.class.example", True),
        ("class.example", "*.class.example", False),
        ("b.a.class.example", "*.class.example", False),
        ("::1", "0:0:0:0:0:0:0:1", True),
        ("127.0.0.1", "127.0.0.2", False),
    ],
)
def test_whom_a_certificate_names(host: str, name: str, is_one: bool) -> None:
    assert addresses.is_named(host, name) == is_one
