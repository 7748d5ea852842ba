"""The settings of QuickFIX for the sessions of a venue."""
import pathlib
from collections.abc import Mapping

from callauction.fix import dictionaries
from callauction.fix.tags import FIXT
from callauction.venue.fix_terms import VENUE_COMP_ID

DEFAULT_SETTINGS = """[DEFAULT]
ConnectionType=acceptor
SocketAcceptPort=0
HeartBtInt=30
StartTime=00:00:00
EndTime=00:00:00
TimestampPrecision=3
DataDictionary={folder}/FIX44.xml
"""
SESSION_SETTINGS = """[SESSION]
BeginString={begin}
SenderCompID={venue}
TargetCompID={member}
"""
FIXT_SETTINGS = """DefaultApplVerID=FIX.5.0SP2
TransportDataDictionary={folder}/FIXT11.xml
AppDataDictionary={folder}/FIX50SP2.xml
"""


def settings_of(folder: pathlib.Path, sessions: Mapping[str, str]) -> str:
    """The settings of sessions, of which each CompID has how its messages begin. Their dictionaries
    are written to a folder, and read from there as QuickFIX begins. Raises OSError.
    """
    dictionaries.write(folder)
    found = DEFAULT_SETTINGS.format(folder=folder)
    for member, begin in sessions.items():
        found += SESSION_SETTINGS.format(begin=begin, venue=VENUE_COMP_ID, member=member)
        found += FIXT_SETTINGS.format(folder=folder) if begin == FIXT else ""
    return found
