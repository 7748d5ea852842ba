"""The addresses of this machine by which telephones reach it, and a QR code of one."""
import contextlib
import functools
import ipaddress
import re
import socket

import psutil

VIRTUAL = (
    *("br-", "docker", "lxc", "lxd", "tap", "tailscale", "tun"),
    *("vbox", "veth", "virbr", "vmnet", "wg", "zt"),
)
"""How the interfaces begin behind which no telephone is: those of containers, machines and VPNs."""
FAR = {socket.AF_INET: "192.0.2.1", socket.AF_INET6: "2001:db8::1"}
"""Addresses that nobody has: the way there is that of the default route."""
HOST_NAME = re.compile(r"(?=.{1,253}$)[A-Za-z0-9_-]{1,63}(\.[A-Za-z0-9_-]{1,63})*\.?")
"""Names of hosts, as browsers send them."""
Code = tuple[int, str]
"""A QR code: how many modules it is wide, its margin among them; the path of its dark ones."""
MARGIN = 4


def is_loopback(host: str) -> bool:
    """Whether this machine alone reaches a host of this name."""
    with contextlib.suppress(ValueError):
        return ipaddress.ip_address(host).is_loopback
    return host == "localhost"


def is_host(name: str) -> bool:
    """Whether a text can be a host's name, or an address."""
    with contextlib.suppress(ValueError):
        return bool(ipaddress.ip_address(name))
    return HOST_NAME.fullmatch(name) is not None


def is_same_address(host: str, other: str) -> bool:
    """Whether two texts are the same address."""
    with contextlib.suppress(ValueError):
        first, second = map(ipaddress.ip_address, (host, other))
        return first == second or getattr(second, "ipv4_mapped", None) == first
    return False


def is_named(host: str, name: str) -> bool:
    """Whether a certificate that is for this name, or for all of a domain, is for a host."""
    host, name = host.lower(), name.lower()
    is_wild = name.startswith("*.") and host.partition(".")[2] == name[2:]
    return host == name or is_same_address(host, name) or is_wild


def own_addresses(host: str = "::") -> list[str]:
    """The addresses of this machine that others reach when it listens on this host, the best one
    first: that of the default route, then the others, at the end those of virtual interfaces.
    """
    by_route = {address for family in FAR if (address := address_by_route(family))}
    found = []
    running = {name for name, it in psutil.net_if_stats().items() if it.isup}
    for name, those in psutil.net_if_addrs().items():
        for it in those:
            if name in running and it.family in FAR and is_reached(it.address, host):
                is_virtual = name.startswith(VIRTUAL)
                is_far = it.address not in by_route
                is_six = it.family is socket.AF_INET6
                found.append((is_virtual, is_far, is_six, it.address))
    return [address for *_, address in sorted(found, key=lambda it: it[:3])]


def is_reached(address: str, host: str) -> bool:
    """Whether an address is one by which others reach who listens on all of this host's kind."""
    found = ipaddress.ip_address(address.partition("%")[0])
    is_kind = host == "::" or found.version == 4
    return is_kind and not (found.is_loopback or found.is_link_local or found.is_unspecified)


def address_by_route(family: int) -> str | None:
    """The address that this machine has on its default route, None where it has no such route."""
    with contextlib.suppress(OSError), socket.socket(family, socket.SOCK_DGRAM) as tried:
        tried.connect((FAR[socket.AddressFamily(family)], 9))  # sends nothing
        return str(tried.getsockname()[0])
    return None


@functools.lru_cache(8)
def qr_code_of(text: str) -> Code | None:
    """The QR code of a text, None where Debian's python3-segno isn't installed."""
    try:
        import segno
    except ImportError:
        return None
    rows = [*segno.make_qr(text, error="m").matrix_iter(border=MARGIN)]
    dark = (
        f"M{across} {down}h1v1h-1z"
        for down, row in enumerate(rows)
        for across, module in enumerate(row)
        if module
    )
    return len(rows), "".join(dark)
