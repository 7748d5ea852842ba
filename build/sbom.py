"""What a release is made of, as a document of SPDX 2.3: the program and the library, our crates and
those of the toolchain, the toolchain itself, and the packages of Debian that were there.
"""
import json
import pathlib
import re
import subprocess
import time
from collections.abc import Iterable, Mapping

TOP = pathlib.Path(__file__).resolve().parent.parent
NONE = "NOASSERTION"
NAME = re.compile(r"[^A-Za-z0-9.-]")
BUILDS = ("binutils", "debhelper", "dh-python", "dpkg-dev", "g++", "gcc", "libc6-dev",
          "libquickfix-dev", "pybind11-dev", "python3-build", "python3-cffi", "python3-dev",
          "python3-numpy", "python3-setuptools", "python3-wheel")
"""Debian's packages by which a release is made."""
Element = dict[str, object]


def element(
    name: str, version: str = NONE, kind: str = "LIBRARY", sha256: str = "", note: str = ""
) -> Element:
    """A package of the document."""
    found: Element = {
        "SPDXID": f"SPDXRef-{kind.title()}-{NAME.sub('-', name)}",
        "name": name,
        "versionInfo": version,
        "downloadLocation": NONE,
        "filesAnalyzed": False,
        "licenseConcluded": NONE,
        "licenseDeclared": NONE,
        "copyrightText": NONE,
        "primaryPackagePurpose": kind,
    }
    if sha256:
        found["checksums"] = [{"algorithm": "SHA256", "checksumValue": sha256}]
    return found | ({"comment": note} if note else {})


def crates() -> tuple[list[str], list[str]]:
    """The names of our crates, and of those of the toolchain by which they are built. Raises
    OSError.
    """
    rows = (TOP / "crates.txt").read_text(encoding="utf-8").splitlines()
    named = [re.split(r"[:\s]", row)[0] for row in rows if row and not row.startswith("#")]
    uses = {word for row in rows if row[:1] != "#" for word in row.partition(":")[2].split()}
    return named, sorted(uses - set(named))


def debian_versions(names: Iterable[str]) -> dict[str, str]:
    """The versions of Debian's packages that are there, by their names."""
    form = "${Package}\\t${Version}\\n"
    ran = subprocess.run(
        ["dpkg-query", "--show", f"--showformat={form}", *names], capture_output=True, text=True
    )
    return dict(row.split("\t") for row in sorted(ran.stdout.splitlines()))


def needed(debs: Iterable[pathlib.Path]) -> list[str]:
    """The packages of Debian that ours depend on. Raises CalledProcessError."""
    found = set()
    for deb in debs:
        words = ["dpkg-deb", "--field", str(deb), "Depends"]
        text = subprocess.run(words, capture_output=True, text=True, check=True).stdout
        for part in re.split(r"[,|]", text):
            if name := part.split("(")[0].strip().partition(":")[0]:
                found.add(name)
    return sorted(found)


def document(
    version: str, kit: str, seconds: int, files: Mapping[str, str], debs: list[pathlib.Path]
) -> str:
    """The document of a release of this version, by this kit, at this time of the epoch; `files`
    are the SHA-256 of what it gives. Raises CalledProcessError, OSError.
    """
    own, others = crates()
    top = element("callboard", version, "APPLICATION")
    given = [element(name, version, "FILE", sum_) for name, sum_ in sorted(files.items())]
    tool = element("rattle-kit", kit, "APPLICATION", note="proves and compiles")
    ours = [element(name, version, note="proved, in crates/") for name in own]
    kits = [element(name, kit, note="of the toolchain") for name in others]
    names = [name for name in needed(debs) if not name.startswith(("callboard", "libcallauction"))]
    versions = debian_versions([*BUILDS, *names])
    system = [
        element(name, versions.get(name, NONE), "INSTALL", note="of Debian")
        for name in sorted({*BUILDS, *names})
    ]
    relations = [("DESCRIBES", "SPDXRef-DOCUMENT", [top])]
    relations += [("CONTAINS", str(top["SPDXID"]), given + ours + kits)]
    found = {
        "spdxVersion": "SPDX-2.3",
        "dataLicense": "CC0-1.0",
        "SPDXID": "SPDXRef-DOCUMENT",
        "name": f"callboard-{version}",
        "documentNamespace": f"https://maeltuso.example/callboard/{version}",
        "creationInfo": {
            "created": time.strftime("%Y-%m-%dT%H:%M:%SZ", time.gmtime(seconds)),
            "creators": ["Organization: Maeltuso maintainers", "Tool: release"],
        },
        "packages": [top, *given, tool, *ours, *kits, *system],
        "relationships": [
            {"spdxElementId": of, "relationshipType": kind, "relatedSpdxElement": it["SPDXID"]}
            for kind, of, those in relations
            for it in those
        ]
        + [used(it, str(top["SPDXID"])) for it in (tool, *system)],
    }
    return json.dumps(found, indent=1) + "\n"


def used(it: Element, of: str) -> dict[str, object]:
    """That a release is built or run by this."""
    is_build = it["name"] in BUILDS or it["name"] == "rattle-kit"
    kind = "BUILD_TOOL_OF" if is_build else "RUNTIME_DEPENDENCY_OF"
    return {"spdxElementId": it["SPDXID"], "relationshipType": kind, "relatedSpdxElement": of}
