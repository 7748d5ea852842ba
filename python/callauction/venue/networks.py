"""From which network somebody speaks."""
import ipaddress


def network_of(address: str, bits_of_4: int = 32, bits_of_6: int = 64) -> str:
    """An address, or the network of 64 bits that one has of IPv6; or networks of as many bits."""
    try:
        found = ipaddress.ip_address(address.partition("%")[0])
    except ValueError:
        return address
    bits = bits_of_4 if found.version == 4 else bits_of_6
    if bits == found.max_prefixlen:
        return address
    return str(ipaddress.ip_network((found, bits), strict=False))
