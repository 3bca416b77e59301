"""What exists under crates/: the names in each file of definitions and laws, in the code of each crate, and its edits."""

import re
from dataclasses import dataclass, field

# `name : type`, with what may stand before the name; fields of records and cases of data have the same form.
SIGNATURE = re.compile(r"^(\s*)(?:(?:abbrev|unfoldable|pub)\s+)*((?:[^\s(){}:=→λ∙]+\s+)+):(?:\s|$)")
TYPE = re.compile(r"^(\s*)(?:pub\s+)?(?:record|data)\s+([^\s(){}:]+)")
IMPORT = re.compile(r"\buse\s+[^{;]*\{([^}]*)\}")
DECLARED = re.compile(r"\b(?:fn|struct|enum|const|mod|type)\s+(\w+)")
FIELD = re.compile(r"^\s*(?:pub(?:\(crate\))?\s+)?(\w+)\s*(?::|\(|,\s*$)")


@dataclass
class File:
    """A file of definitions and laws: its names, and the fields or cases of each type in it."""

    names: set = field(default_factory=set)
    members: dict = field(default_factory=dict)


@dataclass
class Crate:
    files: dict
    code: set
    edits: set
    imported: set


def read_file(path):
    found = File()
    owner, depth = None, -1
    for line in path.read_text(encoding="utf-8").splitlines():
        inside = len(line) - len(line.lstrip())
        if line.strip() and inside <= depth:
            owner, depth = None, -1
        declared = TYPE.match(line)
        if declared:
            owner, depth = declared[2], inside
            found.names.add(owner)
            found.members[owner] = set()
        elif said := SIGNATURE.match(line):
            names = set(said[2].split())
            found.names |= names
            if owner:
                found.members[owner] |= names
    return found


def read_files(paths):
    """The files of definitions, in specs/, and of laws, right in proofs/. One of each may have the same name."""
    found = {}
    for path in paths:
        file, known = read_file(path), found.setdefault(path.stem, File())
        known.names |= file.names
        for owner, members in file.members.items():
            known.members.setdefault(owner, set()).update(members)
    return found


def read_code(folder):
    """Functions, types, their fields and cases, constants and modules."""
    found = set()
    for path in folder.glob("**/*.rt"):
        for line in path.read_text(encoding="utf-8").splitlines():
            line = line.split("//")[0]
            found |= set(DECLARED.findall(line)) | set(FIELD.findall(line))
    return found


def read_crate(folder):
    stated = [*folder.glob("specs/*.antt"), *folder.glob("proofs/*.antt")]
    sources = [*stated, *folder.glob("src/**/*.rt")]
    imports = " ".join(" ".join(IMPORT.findall(path.read_text(encoding="utf-8"))) for path in sources)
    return Crate(
        files=read_files(stated),
        code=read_code(folder / "src"),
        edits={path.stem for path in folder.glob("must-fail/*.edit")},
        imported=set(re.split(r"[\s,]+|\bas\b", imports)),
    )


def read_crates(folder):
    return {path.name: read_crate(path) for path in sorted(folder.iterdir()) if path.is_dir()}
