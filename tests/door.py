#!/usr/bin/env python3
"""Looks at what crates hand on: `crates.txt` names no library that no file of its crate names, and the specs of `dilforec`
hand on each definition that a clause of an item cites which `dilforec` hands on.

It reads text by its layout alone, which `rt ci` holds to that of `rt fmt`.
"""
from __future__ import annotations

import collections
import functools
import pathlib
import re
import sys
from collections.abc import Iterator

from counts import Counts

CRATES = pathlib.Path(__file__).resolve().parents[1] / "crates"
DOOR = "dilforec"

# Words of a caller's own libraries: he lists these, as he makes their values.
CALLERS = ("Rattle.std.", "Rattle.serde_json.")


@functools.cache
def sources(crate: str) -> dict[pathlib.Path, str]:
    """The texts of a crate's sources by their paths."""
    return {file: file.read_text(encoding="utf-8") for file in sorted((CRATES / crate / "src").rglob("*.rt"))}


def files(crate: str) -> Iterator[str]:
    """What a crate's files say, without comments."""
    for folder, suffix, comment in (("src", ".rt", "//"), ("must-fail", ".edit", "//"), ("specs", ".antt", "--"),
                                    ("proofs", ".antt", "--")):
        for file in (CRATES / crate / folder).rglob(f"*{suffix}"):
            yield re.sub(rf"{comment}.*", "", file.read_text(encoding="utf-8"))


def dependencies() -> Iterator[tuple[str, list[str]]]:
    """Each crate of crates.txt with the crates that it names."""
    for line in (CRATES.parent / "crates.txt").read_text(encoding="utf-8").splitlines():
        head, colon, names = line.partition(":")
        if colon and not line.startswith("#"):
            yield head.split()[0], names.split()


def unnamed() -> Iterator[str]:
    """Each dependency that no file of its crate names, or that is missing, and each crate that crates.txt and the folder don't
    both have."""
    listed = dict(dependencies())
    for name in sorted(listed.keys() ^ {it.name for it in CRATES.iterdir()}):
        yield f"{name}: not both in crates.txt and in crates/"
    for crate, names in listed.items():
        said = "\n".join(files(crate))
        for name in names:
            if not re.search(rf"\b{name}::|\buse {name}\b|\bRattle\.{name}\.|\b{name}!", said):
                yield f"crates.txt: no file of {crate} names {name}"
        named = set(re.findall(r"\bRattle\.(\w+)\.", said)) | set(re.findall(r"\b(\w+)::", said))
        for name in sorted(named & listed.keys() - {crate, *names}):
            yield f"crates.txt: {crate} names {name}, and doesn't stand on it"


def uses(text: str) -> Iterator[tuple[str, list[str]]]:
    """What `pub use` lines hand on: a crate, and items of it."""
    for path, group, one in re.findall(r"pub use ([\w:]+?)::(?:\{([^}]*)\}|(\w+));", text):
        yield path.split("::")[0], [it.split()[0] for it in (group or one).split(",") if it.strip()]


def home(crate: str, item: str, seen: tuple[str, ...] = ()) -> str | None:
    """The crate that defines an item, past those that hand it on."""
    for text in sources(crate).values():
        if re.search(rf"^ *pub (const )?(struct|enum|trait|fn|type|mod|const) {item}\b", text, re.M):
            return crate
    for text in sources(crate).values():
        for other, items in uses(text):
            if item in items and other not in seen and (CRATES / other).is_dir():
                found = home(other, item, (*seen, crate))
                if found:
                    return found
    return None


def clauses(item: str, text: str) -> str:
    """The clauses of an item's public calls and of its trait and model, in one source."""
    said = []
    pattern = rf"^(?:unsafe )?impl\b[^{{]*\b{item}\b(?:<[^{{]*)? \{{.*?^\}}|^pub trait {item}\b.*?^\}}|^pub fn {item}\b.*?^\{{"
    for match in re.finditer(pattern, text, re.M | re.S):
        block = match[0]
        if block.startswith(("pub trait", "pub fn")):
            said.append(block)
            continue
        said += [ghost[0] for ghost in re.finditer(r"^ *ghost (?!use)[^;]*;", block, re.M | re.S)]
        head = "fn" if re.match(r"(unsafe )?impl[^{]* for ", block) else "pub fn"
        said += [call[0] for call in re.finditer(rf"^    {head} .*?^    \{{", block, re.M | re.S)]
    return "\n".join(said)


def cited() -> dict[str, set[str]]:
    """The files of definitions that the clauses of all that the door hands on cite, with the items that do."""
    found: dict[str, set[str]] = collections.defaultdict(set)
    for door in sources(DOOR).values():
        for crate, items in uses(door):
            for item in items:
                for text in sources(home(crate, item) or sys.exit(f"{crate}::{item} isn't found")).values():
                    imports: dict[str, str] = {}
                    for path, group in re.findall(r"ghost use (Rattle\.[\w.]+)\.\{([^}]*)\};", text):
                        imports.update({it.strip(): path for it in group.split(",")})
                    for word in set(re.findall(r"[\w'-]+", clauses(item, text))) & imports.keys():
                        if not imports[word].startswith(CALLERS) and ".specs.declared." not in imports[word]:
                            found[imports[word]].add(item)
    return found


def missing() -> Iterator[str]:
    """Each file of definitions that is cited and not handed on."""
    handed = set()
    for file in (CRATES / DOOR / "specs").rglob("*.antt"):
        handed |= set(re.findall(r"^pub use (Rattle\.[\w.]+)", file.read_text(encoding="utf-8"), re.M))
    for path, items in sorted(cited().items()):
        if path not in handed:
            yield f"{DOOR} doesn't hand on {path}, which clauses of {', '.join(sorted(items))} cite"


def main() -> int:
    counts = Counts("door", quiet=True)
    faults = [*unnamed(), *missing()]
    names = sum(len(it) for _, it in dependencies())
    counts.add("what crates hand on", names + len(cited()) - len(faults), len(faults), "\n".join(faults))
    return counts.end()


if __name__ == "__main__":
    sys.exit(main())
