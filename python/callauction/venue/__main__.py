"""The command line of a venue: `python3 -m callauction.venue`; --help has the rest."""
import signal

signal.signal(signal.SIGINT, signal.SIG_DFL)  # as SIGTERM and SIGHUP, until a venue is begun

import argparse  # noqa: E402
import asyncio  # noqa: E402
import os  # noqa: E402
import pathlib  # noqa: E402
import sys  # noqa: E402

from callauction import finder  # noqa: E402
from callauction.fix.build import MISSING  # noqa: E402
from callauction.statuses import DONE  # noqa: E402
from callauction.venue import aiohttp_version, notices, owned  # noqa: E402

aiohttp_version.check_start()  # before what needs aiohttp as it is inside

from callauction.venue import remedies  # noqa: E402
from callauction.venue.checking import checked  # noqa: E402
from callauction.venue.config import DayTerms  # noqa: E402
from callauction.venue.day_changes import OtherDayError, OtherTermsError  # noqa: E402
from callauction.venue.listening_address import Address, AddressError  # noqa: E402
from callauction.venue.logger import NOTICES  # noqa: E402
from callauction.venue.serving import Front, serve, stopped_by_signals  # noqa: E402
from callauction.venue.venue import Venue  # noqa: E402

FOLDER = "class.venue"
EPILOG = """statuses: 0 ended by SIGINT or SIGTERM; 1 a bad day file, or a log, a token or a journal
with a fault; 2 wrong words, an address that can't be listened on, a folder in use, one or a journal
of another day, or a file of the venue that other users own or may write; 3 no program, a read or a
write failed, a journal in use, or something didn't end in time; 4 a journal with an unlawful reply
"""


def arguments() -> argparse.ArgumentParser:
    """What reads the words of the command line."""
    parser = argparse.ArgumentParser(
        prog="python3 -P -m callauction.venue",
        description="Lets members trade over the network, on the program callboard.",
        epilog=EPILOG,
    )
    parser.add_argument("--day", type=pathlib.Path, metavar="FILE", help="the day, TOML")
    parser.add_argument(
        "--folder",
        type=pathlib.Path,
        metavar="FOLDER",
        help=f"where its journals are, with which it goes on (DAY.venue, or {FOLDER})",
    )
    add_address(parser)
    parser.add_argument(
        "--check",
        action="store_true",
        help="say what is wrong with the day, the folder and the certificate, and start nothing",
    )
    parser.add_argument(
        "--hide-tokens", action="store_true", help="don't print them: files of the folder have them"
    )
    parser.add_argument(
        "--log",
        choices=notices.LEVELS,
        default="text",
        help="what is said on standard error: of faults alone, or of all, as JSON (text)",
    )
    return parser


def add_address(parser: argparse.ArgumentParser) -> None:
    """Adds the words that say where to listen."""
    parser.add_argument("--listen", default="127.0.0.1", metavar="HOST", help="(127.0.0.1)")
    parser.add_argument("--port", type=port, default=8080, metavar="N", help="(8080; 0: any)")
    parser.add_argument(
        "--name", action="append", default=[], metavar="HOST", help="what members call this machine"
    )
    parser.add_argument("--tls-cert", metavar="FILE", help="the certificate, PEM")
    parser.add_argument("--tls-key", metavar="FILE", help="its key, PEM")
    parser.add_argument(
        "--insecure",
        action="store_true",
        help="listen beyond this machine without TLS: whoever is on the network can read tokens, "
        "and speak for others",
    )
    parser.add_argument(
        "--metrics",
        type=host_and_port,
        metavar="HOST:PORT",
        help="serve /healthz and /metrics there, to everybody who reaches it",
    )


def port(text: str) -> int:
    """The number of a port. Raises ValueError: the system would take its last 16 bits."""
    if not 0 <= int(text) < 1 << 16:
        raise ValueError(text)
    return int(text)


def host_and_port(text: str) -> tuple[str, int]:
    """A host and a port. Raises ValueError."""
    host, _, number = text.rpartition(":")
    if not host:
        raise ValueError(text)
    return host.strip("[]"), port(number)


def folder_of(asked: argparse.Namespace) -> pathlib.Path:
    """The folder of the venue. Raises AddressError where its name isn't UTF-8, which the program
    reads alone.
    """
    default = asked.day.with_suffix(".venue") if asked.day else pathlib.Path(FOLDER)
    found: pathlib.Path = asked.folder or default
    try:
        str(found).encode("utf-8")
    except UnicodeEncodeError:
        text = f"the name of the folder {str(found)!r} isn't UTF-8: --folder takes another"
        raise AddressError(text) from None
    return found


def run_asked(asked: argparse.Namespace, address: Address, program: str) -> None:
    """Runs, and says where the file of a day is missing with which its folder was begun. Raises
    what `run` raises.
    """
    try:
        run(asked, address, program)
    except OtherTermsError as fault:
        if asked.day is not None:
            raise
        text = f"{fault.fault}; --day FILE goes on with the day's file, --folder NEW begins anew"
        raise OtherDayError(text) from None


def run(asked: argparse.Namespace, address: Address, program: str) -> None:
    """Opens the venue and serves it, or checks it. Raises what Venue and serve raise."""
    day = DayTerms.read(asked.day) if asked.day else DayTerms()
    folder = folder_of(asked)
    if day.fix is not None:
        address.check_front(day.fix.host, day.fix.port)
        check_fix()
    if asked.check:
        for line in checked(day, folder, address, program):
            print(line, flush=True)
        return

    async def opened() -> None:
        stopped = stopped_by_signals()
        owned.make_folder(folder)
        venue = Venue(day, folder, program)
        await serve(venue, program, address, fronts_of(venue, program), stopped)

    asyncio.run(opened())


def fronts_of(venue: Venue, program: str) -> list[Front]:
    """The venue's other fronts. Raises AddressError where a module is missing."""
    if venue.day.fix is None:
        return []
    check_fix()
    from callauction.fix import front

    return [front.FixFront(venue, venue.day.fix, program)]


def check_fix() -> None:
    """Raises AddressError, which says what is to be done, where there is no module of QuickFIX."""
    try:
        from callauction.fix import _quickfix  # noqa: F401
    except ImportError:
        raise AddressError(MISSING) from None


def main() -> int:
    """Runs a venue until it is ended; answers the status."""
    asked = arguments().parse_args()
    os.umask(owned.OF_OTHERS)
    notices.set_up(asked.log)
    address = Address(
        asked.listen,
        asked.port,
        asked.tls_cert,
        asked.tls_key,
        asked.insecure,
        tuple(asked.name),
        asked.metrics,
        asked.hide_tokens,
    )
    try:
        address.check()
        program = finder.program_path()
        run_asked(asked, address, program)
        return DONE
    except remedies.START_FAULTS as fault:
        text, status = remedies.start_fault_said(fault)
        NOTICES.error("%s", text)
        return status
    finally:
        notices.write_left_out()


if __name__ == "__main__":
    sys.exit(main())
