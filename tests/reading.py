#!/usr/bin/env python3
"""Tells what must be read to believe the headline: the definitions that the contract of `run_script` comes down to, in reading order.

    python3 tests/reading.py            prints each file with the lines of its definitions that are reached, and the sums
    python3 tests/reading.py --names    prints the definitions too

tests/pages.py compares the sums with docs/PROOFS.md.

It begins with the words of the contract and follows each definition to those that its text names, file by file. Lines are those of the
definitions and of the comments above them. Types that the code declares are counted by the files of `src/` that declare them, and what the kit
defines by its modules.
"""
from __future__ import annotations

import functools
import pathlib
import re
import sys
from typing import NamedTuple

import definitions

ROOT = pathlib.Path(__file__).resolve().parents[1]
CRATES = ROOT / "crates"
HEADLINE = CRATES / "fts_script/src/run.rt"

BEGIN = re.compile(r"(?:(?:abbrev|unfoldable|opaque) )?(?:pub )?(?:record |data )?(?P<name>[^\s:({]+)(?: |:|$)")
IMPORT = re.compile(r"use Rattle\.(\w+)\.specs\.([\w.]+?)(?:\.\{([^}]*)\}| as (\w+))$")
OWN = {path.name for path in CRATES.iterdir()}


class Place(NamedTuple):
    """A definition, or a module of the kit if it has no file here."""
    crate: str
    file: str
    name: str


class File(NamedTuple):
    """What a file imports, by the names that it has there, and the lines of each definition."""
    imports: dict[str, Place]
    lines: dict[str, list[str]]


def path_of(crate: str, file: str) -> pathlib.Path:
    return CRATES / crate / "specs" / f"{file.replace('.', '/')}.antt"


def imports(text: str) -> dict[str, Place]:
    found: dict[str, Place] = {}
    for line in text.splitlines():
        match = IMPORT.match(line.removeprefix("ghost ").rstrip(";"))
        if match and match[3]:
            for name in match[3].split(","):
                own, _, other = name.strip().partition(" as ")
                found[other or own] = Place(match[1], match[2], own)
        elif match:
            found[match[4]] = Place(match[1], match[2], "")
    return found


@functools.cache
def read(crate: str, file: str) -> File:
    """A file of definitions.

    Each begins at a line that isn't indented, after a blank line or a comment, which belongs to it, and ends before the next one. What is
    indented below a record or a group of definitions, a name and a type, stands for the whole.
    """
    text = path_of(crate, file).read_text("utf-8")
    lines: dict[str, list[str]] = {}
    for block in re.split(r"\n\s*\n", text):
        own = [line for line in block.splitlines() if not line.startswith("use ")]
        code = [line for line in own if not line.startswith("--")]
        begun = BEGIN.match(code[0]) if code else None
        if begun:
            lines[begun["name"]] = own
            for line in code[1:]:
                if member := re.match(r"(?: *)(?:(?:abbrev|unfoldable) )?(?:pub )?(?:data |record )?([^\s:({]+) :", line):
                    lines.setdefault(member[1], own)
    return File(imports(text), lines)


def words(text: str) -> set[str]:
    return set(definitions.WORD.findall(text)) | set(re.findall(r"[\w◌]+", text))


def followed() -> tuple[dict[Place, list[str]], set[str], set[str]]:
    """The definitions that are reached with their lines, the types of the code, and the modules of the kit."""
    text = HEADLINE.read_text("utf-8")
    known = imports(text)
    contract = re.search(r"pub fn run_script<.*?\n\{", text, re.DOTALL)
    assert contract
    queue = [known[word] for word in sorted(words(contract[0])) if word in known]
    reached: dict[Place, list[str]] = {}
    types: set[str] = set()
    kit: set[str] = set()
    while queue:
        place = queue.pop(0)
        if place.crate not in OWN:
            kit.add(f"{place.crate}.{place.file}")
        elif place.file.startswith("declared."):
            types.add(f"{place.crate} {place.file.split('.')[1]}")
        elif place not in reached and path_of(place.crate, place.file).exists():
            file = read(place.crate, place.file)
            reached[place] = file.lines.get(place.name, [])
            named = words("\n".join(line for line in reached[place] if not line.startswith("--")))
            queue += [file.imports[word] for word in sorted(named) if word in file.imports]
            queue += [place._replace(name=word) for word in sorted(named) if word in file.lines and word != place.name]
    return reached, types, kit


class Sums(NamedTuple):
    """What is reached: the names and the numbers of lines by file, and all of it in a sentence."""
    names: dict[tuple[str, str], list[str]]
    lines: dict[tuple[str, str], int]
    told: str


def summed() -> Sums:
    reached, types, kit = followed()
    files: dict[tuple[str, str], dict[int, list[str]]] = {}
    names: dict[tuple[str, str], list[str]] = {}
    for place, lines in reached.items():
        files.setdefault((place.crate, place.file), {})[id(lines)] = lines
        names.setdefault((place.crate, place.file), []).append(place.name)
    counted = {key: sum(map(len, blocks.values())) for key, blocks in files.items()}
    told = f"{len(files)} files, {sum(map(len, files.values()))} definitions, {sum(counted.values()):,} lines"
    return Sums(names, counted, f"{told}; types of {', '.join(sorted(types))}; of the kit {', '.join(sorted(kit))}")


def main() -> int:
    sums = summed()
    for (crate, file), number in sums.lines.items():
        print(f"{number:5} {path_of(crate, file).relative_to(ROOT)}")
        if sys.argv[1:] == ["--names"]:
            print("      " + ", ".join(sums.names[crate, file]))
    print(sums.told)
    return 0


if __name__ == "__main__":
    sys.exit(main())
