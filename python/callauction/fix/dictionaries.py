"""The dictionaries of the messages that the venue speaks, for QuickFIX here and at a client:
`python3 -m callauction.fix.dictionaries FOLDER` writes FIX44.xml, FIXT11.xml and FIX50SP2.xml into
a folder, which is made where it is missing.

FIX 5.0SP2 is FIX 4.4 in two files, those of the session and all others, with few tags more.
"""
import copy
import pathlib
import sys
from xml.etree import ElementTree

FIX44_DICTIONARY = pathlib.Path(__file__).with_name("FIX44.xml")
TRANSPORT, APPLICATION = "FIXT11.xml", "FIX50SP2.xml"
DICTIONARIES_USAGE = """usage: python3 -P -m callauction.fix.dictionaries FOLDER
Writes FIX44.xml, FIXT11.xml and FIX50SP2.xml for a client of QuickFIX into FOLDER, and makes it
where it is missing."""
VERSIONS = {
    TRANSPORT: {"type": "FIXT", "major": "1", "minor": "1"},
    APPLICATION: {"type": "FIX", "major": "5", "minor": "0", "servicepack": "2"},
}
CATEGORIES = {TRANSPORT: "admin", APPLICATION: "app"}
"""What the messages of each are, by `msgcat`."""
ADDED_TO_MESSAGES = {
    "Logon": {"DefaultApplVerID": "Y"},
    "OrderMassCancelReport": {"MassActionReportID": "Y"},
}
"""What messages of FIX 5.0SP2 have more, and whether they must."""
ADDED_FIELDS = {
    "ApplVerID": ("1128", "STRING"),
    "DefaultApplVerID": ("1137", "STRING"),
    "MassActionReportID": ("1369", "STRING"),
}
"""Their tags and types."""


def made(name: str) -> ElementTree.Element:
    """One of the two dictionaries of FIX 5.0SP2."""
    found = copy.deepcopy(ElementTree.parse(FIX44_DICTIONARY).getroot())
    found.attrib.clear()
    found.attrib.update(VERSIONS[name])
    messages = part(found, "messages")
    for message in [*messages]:
        if message.get("msgcat") != CATEGORIES[name]:
            messages.remove(message)
        for field, required in ADDED_TO_MESSAGES.get(message.get("name", ""), {}).items():
            ElementTree.SubElement(message, "field", name=field, required=required)
    if name == TRANSPORT:
        ElementTree.SubElement(part(found, "header"), "field", name="ApplVerID", required="N")
    else:
        part(found, "header").clear()
        part(found, "trailer").clear()
    for field, (number, kind) in ADDED_FIELDS.items():
        ElementTree.SubElement(part(found, "fields"), "field", number=number, name=field, type=kind)
    return found


def part(root: ElementTree.Element, name: str) -> ElementTree.Element:
    """A part of a dictionary, which is there."""
    found = root.find(name)
    assert found is not None
    return found


def write(folder: pathlib.Path) -> None:
    """Writes all three, into a folder that may be new. Raises OSError."""
    folder.mkdir(parents=True, exist_ok=True)
    (folder / FIX44_DICTIONARY.name).write_bytes(FIX44_DICTIONARY.read_bytes())
    for name in (TRANSPORT, APPLICATION):
        (folder / name).write_bytes(ElementTree.tostring(made(name)))


def main() -> int:
    """Writes the dictionaries; answers the status."""
    words = sys.argv[1:]
    if words in (["--help"], ["-h"]):
        print(DICTIONARIES_USAGE)
        return 0
    if len(words) != 1 or not words[0] or words[0].startswith("-"):
        print("callauction.fix.dictionaries: one folder is needed", file=sys.stderr)
        print(DICTIONARIES_USAGE, file=sys.stderr)
        return 2
    try:
        write(pathlib.Path(words[0]))
        return 0
    except OSError as fault:
        why = f"{fault.filename}: {fault.strerror}"
        print(f"callauction.fix.dictionaries: {why}", file=sys.stderr)
        return 3


if __name__ == "__main__":
    sys.exit(main())
