"""The bill of materials of a built tcd, as SPDX 2.3 JSON: what is in the program, what built it.

In it are the program, the crates of crates.txt, the kit's libraries that they use, and the kit's
tools. A crate has the checksum of the lines that `sha256sum` prints of its files:

    git ls-files crates/NAME | LC_ALL=C sort | xargs sha256sum | sha256sum

A part of the kit has the checksum of its file, if the kit is on this machine.
"""
import dataclasses
import datetime
import hashlib
import json
import pathlib
import re
import uuid

from tcdlib.sources import bytes_of

UNKNOWN = "NOASSERTION"
PROGRAM, KIT = "program", "kit"
#: what a part is to the program
BUILDS, LINKED, SHARED, TESTS = "BUILD_TOOL_OF", "STATIC_LINK", "DYNAMIC_LINK", "TEST_OF"
#: where the kit has the compiled code of a library, and the lines of what it uses
COMPILED, USES = "rlibs/{}.rlib/toolchain/checked.a", "rlibs/{}.rlib/format"
#: other files of the kit
OF_KIT = {
    "bin/rattle": BUILDS,
    "bin/rattle-link": BUILDS,
    "toolchain/bin/clang": BUILDS,
    "c/libos_c.a": LINKED,
    "c/liblibc_c.a": LINKED,
}


@dataclasses.dataclass(frozen=True)
class Part:
    """A part of the program, or of what built it."""

    name: str
    version: str
    relation: str
    checksum: str = ""
    comment: str = ""


def sha256(data):
    """The checksum of bytes."""
    return hashlib.sha256(data).hexdigest()


def sums(held):
    """The lines that `sha256sum` prints of these files: their bytes by name."""
    return "".join(f"{sha256(data)}  {name}\n" for name, data in sorted(held.items()))


def uses_of(text):
    """What each crate of crates.txt uses, by its name."""
    rows = (line.partition(":") for line in text.splitlines() if line and line[0] != "#")
    return {name: below.split() for name, _, below in rows}


def closure(names, uses):
    """What is used by these names and by what they use: what each of them uses. `uses` says that of
    one name."""
    found, left = {}, [*names]
    while left:
        if (name := left.pop()) not in found:
            found[name] = uses(name)
            left += found[name]
    return found


def used_in_kit(kit, name):
    """What a library of the kit uses, or nothing without a kit."""
    path = kit / USES.format(name) if kit else None
    text = path.read_text() if path and path.is_file() else ""
    return re.findall(r"^dep (\w+)$", text, re.M)


def part_of_kit(kit, version, path, relation, name=None):
    """A file of the kit."""
    is_there = kit and (kit / path).is_file()
    checksum = sha256(bytes_of(kit / path)) if is_there else ""
    return Part(name or pathlib.PurePath(path).name, version, relation, checksum)


def kit_itself(kit, version):
    """The kit; its file WHAT has the checksums of its archive and its compiler, and its commit."""
    what = (kit / "WHAT").read_text() if kit and (kit / "WHAT").is_file() else ""
    archive = re.search(r"^archive ([0-9a-f]{64})$", what, re.M)
    more = [line for line in what.splitlines() if not line.startswith("archive ")]
    return Part(KIT, version, BUILDS, archive[1] if archive else "", ", ".join(more))


def reference(name):
    """The name of a part within the bill."""
    return "SPDXRef-" + re.sub(r"[^A-Za-z0-9.-]", "-", name)


def package(part):
    """A part as the bill has it."""
    made = {"SPDXID": reference(part.name), "name": part.name, "versionInfo": part.version}
    made |= {"filesAnalyzed": False}
    unknown = ("supplier", "downloadLocation", "licenseConcluded", "licenseDeclared")
    made |= {key: UNKNOWN for key in (*unknown, "copyrightText")}
    is_program = part.relation in ("DESCRIBES", BUILDS)
    made["primaryPackagePurpose"] = "APPLICATION" if is_program else "LIBRARY"
    if part.checksum:
        made["checksums"] = [{"algorithm": "SHA256", "checksumValue": part.checksum}]
    if part.comment:
        made["comment"] = part.comment
    return made


def relation(above, kind, below):
    """How two parts are related, as the bill has it."""
    above, below = reference(above), reference(below)
    return {"spdxElementId": above, "relationshipType": kind, "relatedSpdxElement": below}


def relations(parts, uses):
    """How the parts are related to the program and to each other."""
    yield relation("DOCUMENT", "DESCRIBES", PROGRAM)
    for part in parts[1:]:
        is_of = part.relation.endswith("_OF")
        above, below = (part.name, PROGRAM) if is_of else (PROGRAM, part.name)
        yield relation(above, part.relation, below)
    for name, below in sorted(uses.items()):
        yield from (relation(name, "DEPENDS_ON", other) for other in below)


def bill(record, program, uses, crate_files, kit):
    """The bill as text.

    `record` has the version, the commit and its time, the kit's line and glibc's version; `program`
    is the bytes of tcd; `uses` is crates.txt; `crate_files` has the bytes of each crate's files by
    name; `kit` is the kit's folder, or None.
    """
    inside = closure(["tcd"], lambda name: uses.get(name, []))
    of_kit = closure(["std", *(n for n in inside if n not in uses)], lambda n: used_in_kit(kit, n))
    version = record["kit"]
    parts = [
        Part(PROGRAM, record["version"], "DESCRIBES", sha256(program), "bin/tcd"),
        kit_itself(kit, version),
        Part("glibc", record["glibc"], SHARED, comment="this version or a newer one"),
    ]
    for name in uses:
        checksum = sha256(sums(crate_files[name]).encode())
        parts.append(Part(name, record["commit"], LINKED if name in inside else TESTS, checksum))
    for name in sorted(of_kit):
        parts.append(part_of_kit(kit, version, COMPILED.format(name), LINKED, name))
    parts += [part_of_kit(kit, version, path, kind) for path, kind in OF_KIT.items()]

    created = datetime.datetime.fromtimestamp(record["time"], datetime.timezone.utc)
    made = {
        "spdxVersion": "SPDX-2.3",
        "dataLicense": "CC0-1.0",
        "SPDXID": reference("DOCUMENT"),
        "name": f"tcd-{record['version']}",
        "documentNamespace": uuid.uuid5(uuid.NAMESPACE_OID, f"{record} {sha256(program)}").urn,
        "creationInfo": {
            "created": created.strftime("%Y-%m-%dT%H:%M:%SZ"),
            "creators": ["Tool: maintain/release.py"],
        },
        "packages": [*map(package, parts)],
        "relationships": [*relations(parts, {**of_kit, **uses})],
    }
    return json.dumps(made, indent=1) + "\n"
