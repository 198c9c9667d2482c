# SPDX-License-Identifier: Apache-2.0
"""The bill of materials of a release, as SPDX 2.3 has it in JSON: what the archive holds, what is linked into its binaries, and which other
artefacts were made of it.

`tools/dist.py` writes it. It has the time of the release and nothing of the machine, so the same release gives the same text.
"""

from __future__ import annotations

import hashlib
import json
import re
import time
from pathlib import Path
from typing import Any

import crates as crate_list
import release

SUPPLIER = "Organization: The Rokdaum maintainers"
LICENCE = "Apache-2.0"
UNKNOWN = "NOASSERTION"
# What each crate is linked with beside what crates.txt lists for it.
ALWAYS = ("core", "std")
# How a program says which kit proved it.
KIT = re.compile(rb"proved with (rattle-kit-\w+) logic [0-9a-f]+")
# What the parts beside the programs ask for when they run.
RUNS_WITH = {"numpy": "1.22 or newer, for the Python package", "GStreamer": "1.22 or newer, for the element"}
SOURCES = (".c", ".h", ".py", ".rs", ".toml", ".in", ".cmake")
DOCUMENTS = (".md", ".txt", ".1", ".3", ".svg", ".png")

Item = dict[str, Any]


def digest(kind: str, text: bytes) -> str:
    return hashlib.new(kind, text).hexdigest()


def checksums(text: bytes, *kinds: str) -> list[Item]:
    """The checksums of some bytes, as SPDX writes them."""
    return [{"algorithm": kind, "checksumValue": digest(kind.lower(), text)} for kind in kinds]


def name_of(what: str, name: str) -> str:
    """The identifier of an element: letters, digits, points and hyphens alone."""
    return f"SPDXRef-{what}-" + re.sub(r"[^A-Za-z0-9.-]", "-", name)


def linked_with(crate: str) -> list[str]:
    """The libraries of the kit that are linked into what a crate is built into."""
    known = crate_list.listed(release.TOP)
    used = {it for name in crate_list.closure(known, crate) for it in known[name].uses}
    return sorted({*ALWAYS, *(used - set(known))})


def binaries(found: dict[str, release.Entry]) -> dict[str, str]:
    """The binaries of a release that were proved, each with the crate that it was built from."""
    library, = release.ARCHIVES
    return {**release.PROGRAMS, **{path: library for path in found if re.search(r"/librokdaum\.(a$|so)", path)}}


def type_of(path: str, built: dict[str, str]) -> str:
    """What sort of file it is."""
    if path in built:
        return "BINARY"
    return "SOURCE" if path.endswith(SOURCES) else "DOCUMENTATION" if path.endswith(DOCUMENTS) else "OTHER"


def file_of(path: str, number: int, text: bytes, built: dict[str, str]) -> Item:
    """A file of the archive. What is linked into a binary has licences of its own."""
    return {
        "SPDXID": f"SPDXRef-File-{number}",
        "fileName": f"./{path}",
        "fileTypes": [type_of(path, built)],
        "checksums": checksums(text, "SHA1", "SHA256"),
        "licenseConcluded": UNKNOWN if path in built else LICENCE,
        "licenseInfoInFiles": [LICENCE if b"SPDX-License-Identifier: Apache-2.0" in text else UNKNOWN],
        "copyrightText": UNKNOWN,
    }


def package(what: str, name: str, version: str, **more: Any) -> Item:
    """A package: one of ours is licensed as this repository, and has a supplier."""
    return {"SPDXID": name_of(what, name), "name": name, "versionInfo": version, "downloadLocation": UNKNOWN, "filesAnalyzed": False,
            "licenseConcluded": UNKNOWN, "licenseDeclared": UNKNOWN, "copyrightText": UNKNOWN, **more}


def ours(what: str, name: str, path: Path, text: bytes, **more: Any) -> Item:
    """A package that is one of the artefacts."""
    return package(what, name, release.version(), packageFileName=path.name, checksums=checksums(text, "SHA1", "SHA256"), licenseDeclared=LICENCE, supplier=SUPPLIER, **more)


def verification(files: list[Item]) -> Item:
    """The code over all files that SPDX asks for."""
    sums = sorted(one["checksumValue"] for file in files for one in file["checksums"] if one["algorithm"] == "SHA1")
    return {"packageVerificationCodeValue": digest("sha1", "".join(sums).encode())}


def relation(one: str, kind: str, other: str) -> Item:
    return {"spdxElementId": one, "relationshipType": kind, "relatedSpdxElement": other}


def kit_of(found: dict[str, release.Entry]) -> str:
    """The kit by which the programs were proved, as they say it themselves."""
    kits = {match[1].decode() for path in release.PROGRAMS for match in KIT.finditer(found[path][0])}
    if len(kits) != 1:
        raise release.NoRelease(f"the programs say that they were proved by {' and '.join(sorted(kits)) or 'no kit'}")
    return kits.pop()


def linked(found: dict[str, release.Entry], ids: dict[str, str]) -> tuple[list[Item], list[Item]]:
    """The libraries that the binaries have in them or ask for, and how they are bound to each."""
    kit, built = kit_of(found), binaries(found)
    wanted = max(tuple(map(int, it)) for path in built for it in release.GLIBC.findall(found[path][0]))
    system = package("Library", "glibc", f"{wanted[0]}.{wanted[1]} or newer")
    packages: dict[str, Item] = {}
    relations = []
    for path, crate in built.items():
        for name in linked_with(crate):
            packages[name] = package("Library", name, kit, comment="a library of the Rattle kit, proved by the same logic; NOTICE names it")
            relations.append(relation(ids[path], "STATIC_LINK", packages[name]["SPDXID"]))
        if not path.endswith(".a"):
            relations.append(relation(ids[path], "DYNAMIC_LINK", system["SPDXID"]))
    return [*packages.values(), system], relations


def bill(found: dict[str, release.Entry], archive: Path, others: list[Path]) -> bytes:
    """The bill of materials of a release, whose archive and other artefacts are there."""
    built = binaries(found)
    files = [file_of(path, number, found[path][0], built) for number, path in enumerate(sorted(found), 1)]
    ids = {file["fileName"][2:]: file["SPDXID"] for file in files}
    text = archive.read_bytes()
    whole = ours("Package", "rokdaum", archive, text, filesAnalyzed=True, packageVerificationCode=verification(files), licenseInfoFromFiles=[LICENCE, UNKNOWN], hasFiles=list(ids.values()))
    made = [ours("Artefact", it.name, it, it.read_bytes()) for it in others]
    libraries, relations = linked(found, ids)
    more = [package("Runtime", name, version) for name, version in RUNS_WITH.items()]
    relations = [
        relation("SPDXRef-DOCUMENT", "DESCRIBES", whole["SPDXID"]),
        *(relation(it["SPDXID"], "GENERATED_FROM", whole["SPDXID"]) for it in made),
        *(relation(it["SPDXID"], "OPTIONAL_DEPENDENCY_OF", whole["SPDXID"]) for it in more),
        *relations,
    ]
    document = {
        "spdxVersion": "SPDX-2.3",
        "dataLicense": "CC0-1.0",
        "SPDXID": "SPDXRef-DOCUMENT",
        "name": release.name(),
        "documentNamespace": f"https://spdx.org/spdxdocs/{release.name()}-{digest('sha256', text)}",
        "creationInfo": {"created": time.strftime("%Y-%m-%dT%H:%M:%SZ", time.gmtime(release.seconds())), "creators": [SUPPLIER, f"Tool: rokdaum-dist-{release.version()}"]},
        "packages": [whole, *made, *libraries, *more],
        "files": files,
        "relationships": relations,
    }
    return (json.dumps(document, indent=1) + "\n").encode()
