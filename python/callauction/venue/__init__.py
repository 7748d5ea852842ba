"""A venue: members over the network in the call auctions of the proved program.

    from callauction.venue import Client

    token = Client.join("http://127.0.0.1:8080/", "H5RJD6", "robot 1")
    with Client("http://127.0.0.1:8080/", token) as me:
        print(me.enter("bid", 100, "2.05").reply)

`python3 -m callauction.venue` serves one; docs/VENUE.md has a lesson and a robot. The program
decides each reply, price and trade; the venue knows who may speak and who sees what.
"""
import importlib
from typing import TYPE_CHECKING

if TYPE_CHECKING:
    from callauction.venue.client import Answer, AsyncClient, Client, VenueError

__all__ = ["Answer", "AsyncClient", "Client", "VenueError"]


def __getattr__(name: str) -> object:
    """A public name, imported when it is first used: a venue that starts says first how a signal
    ends it. Raises AttributeError for another name.
    """
    if name not in __all__:
        raise AttributeError(f"module {__name__!r} has no attribute {name!r}")
    return getattr(importlib.import_module("callauction.venue.client"), name)
