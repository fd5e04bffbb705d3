#!/usr/bin/env python3
"""Writes the list of docs/DEFINITIONS.md from the comments of the definitions in crates/*/specs.

    python3 tests/definitions.py            writes the page; its head, down to the line MARK, stays as it is
    python3 tests/definitions.py --check    compares, and changes nothing; the last line is 'N passed, M failed'
    python3 tests/definitions.py --poor     lists comments that don't say enough by themselves

A definition is listed if a public contract of a library for Rattle names it (not of the engines, and the snapshots and
their searches below them): a clause of a public function or of a trait's method, or the type as which contracts see a public type. Its sentence is the comment above it; definitions that follow
without a comment of their own share it. A sentence that goes on from the one before it ('the same with one more')
brings that one along. The definitions of the parts of a segment and of the command line are left to their own folders.
"""
from __future__ import annotations

import argparse
import difflib
import pathlib
import re
import sys
import textwrap
from typing import Iterator, NamedTuple

from counts import Counts

ROOT = pathlib.Path(__file__).resolve().parents[1]
CRATES = ROOT / "crates"
PAGE = ROOT / "docs/DEFINITIONS.md"
MARK = "<!-- Below, tests/definitions.py writes. -->"
WIDTH = 120

# Not listed: programs, tests and examples, which define nothing that others need, the command line, the parts of a segment, and how
# rounds draw stamps. Of INNER, what the contracts of other libraries name is.
OTHERS = re.compile(r"(tests|cases|testing|example)_|(fts|fts_cli|fts_list|dilforec)$|fts_(pack|positions|segment|postings|sets|cursor|merge|pool|rounds)$")
INNER = {"fts_snapshots", "fts_parts", "fts_collect", "fts_engine_local", "fts_engine_index", "fts_c"}

DEFINITION = re.compile(r"(?:(?:abbrev|unfoldable|opaque) pub|pub (?:record|data)) ([^\s:({]+)")
MUTUAL = re.compile(r"(?:abbrev |unfoldable )?mutual$")
MEMBER = re.compile(r"  pub(?: data)? ([^\s:({]+)")
IMPORT = re.compile(r"use Rattle\.(\w+)\.specs\.([\w.]+)\.\{([^}]*)\}")
WORD = re.compile(r"[\w◌≡≢]+")

# A sentence that begins so, or has this, goes on from the one before.
GOES_ON = re.compile(
    r"(the same|it|its|so|those|they|their|these|this|that|then|one of|another|and|each of (these|them)|as many)\b"
    r"|.*\b(of|in|to) (them|these|those|it)$", re.IGNORECASE)


class Name(NamedTuple):
    """A definition: its crate, its file below specs/ with points, and its own name."""
    crate: str
    file: str
    own: str


class Entry(NamedTuple):
    """Definitions of a file that share a sentence, which is above the first of them."""
    names: list[str]
    sentence: str
    first: str = ""


def imported(text: str) -> dict[str, Name]:
    """What a file calls the definitions of other files."""
    found: dict[str, Name] = {}
    for crate, file, names in IMPORT.findall(text):
        for name in names.split(","):
            own, _, other = name.strip().partition(" as ")
            found[other or own] = Name(crate, file, own)
    return found


def entries(text: str) -> Iterator[Entry]:
    """The public definitions of a file, by the comments above them."""
    comment: list[str] = []
    entry = Entry([], "")
    mutual = False
    for line in text.splitlines():
        if line and not line.startswith(" "):
            mutual = bool(MUTUAL.match(line))
        defined = DEFINITION.match(line) or (MEMBER.match(line) if mutual else None)
        if line.startswith("--"):
            comment.append(line[2:].strip())
        elif defined and (comment or not entry.names):
            if entry.names:
                yield entry
            entry = Entry([defined[1]], " ".join(comment))
            comment = []
        elif defined:
            entry.names.append(defined[1])
        elif not mutual:
            comment = []
    if entry.names:
        yield entry


def public(crate: pathlib.Path) -> Iterator[tuple[pathlib.Path, set[str] | None]]:
    """Each source of a crate, with the names of it that can be named from outside; None: all that it makes public."""
    sources = sorted((crate / "src").rglob("*.rt"))
    texts = {path: path.read_text("utf-8") for path in sources}
    top = crate / "src/lib.rt"
    opened = {top}
    names: set[str] = set()
    for path in sources:
        if path in opened:
            text = texts[path]
            folder = path.parent if path == top else path.with_suffix("")
            opened |= {folder / f"{name}.rt" for name in re.findall(r"^pub mod (\w+);", text, re.MULTILINE)}
    for path in opened & set(sources):
        for some in re.findall(r"^pub use [\w:]+::(\{[^}]*\}|\w+);", texts[path], re.MULTILINE):
            names |= {name.split(" as ")[0].strip() for name in some.strip("{}").split(",")}
    for path in sources:
        yield path, None if path in opened else names


BLOCK = re.compile(
    r"^(?:pub (?P<trait>trait) (?P<own>\w+)|impl(?:<.*?>)? (?:(?P<of>Model|\w+)(?:<.*?>)? for )?(?P<type>\w+))"
    r"(?P<body>.*?)^\}", re.MULTILINE | re.DOTALL)
FREE = re.compile(r"^pub (?:extern \"C\" |unsafe |const )*fn (?P<name>\w+)(?P<head>.*?)^\{", re.MULTILINE | re.DOTALL)
METHOD = re.compile(r"^    pub (?:unsafe |const )*fn \w+(?P<head>.*?)^    \{", re.MULTILINE | re.DOTALL)
STEP = re.compile(r"^    (?:unsafe )?fn \w+(?P<head>.*?;)$", re.MULTILINE | re.DOTALL)
VALUE = re.compile(r"^    ghost Value = (?P<head>.*?)\};$", re.MULTILINE | re.DOTALL)


def contracts(text: str, names: set[str] | None) -> Iterator[str]:
    """The clauses of what a source makes public."""
    for block in BLOCK.finditer(text):
        own = block["own"] or block["type"]
        if names is None or own in names:
            for form in (STEP, VALUE) if block["trait"] else (METHOD, VALUE):
                yield from (found["head"] for found in form.finditer(block["body"]))
    for found in FREE.finditer(text):
        if names is None or found["name"] in names:
            yield found["head"]


def named() -> set[Name]:
    """Each definition that a public contract of a library names."""
    found: set[Name] = set()
    for crate in (it for it in libraries() if it.name not in INNER):
        for path, names in public(crate):
            text = path.read_text("utf-8")
            known = imported(text)
            for clause in contracts(text, names):
                found |= {known[word] for word in WORD.findall(clause) if word in known}
    return found


def libraries() -> list[pathlib.Path]:
    """The crates of definitions, lowest first, as crates.txt has them."""
    order = re.findall(r"^(\w+)[^:\n]*:", (ROOT / "crates.txt").read_text("utf-8"), re.MULTILINE)
    return [CRATES / name for name in order if not OTHERS.match(name)]


class Listed(NamedTuple):
    crate: str
    file: str
    entries: list[Entry]


def listed() -> Iterator[Listed]:
    """The entries of each file that are on the page."""
    wanted = named()
    for crate in libraries():
        for path in sorted((crate / "specs").rglob("*.antt")):
            file = ".".join(path.relative_to(crate / "specs").with_suffix("").parts)
            chosen: list[Entry] = []
            before: list[Entry] = []
            for entry in entries(path.read_text("utf-8")):
                own = [name for name in entry.names if Name(crate.name, file, name) in wanted]
                if own:
                    chosen += before if GOES_ON.match(entry.sentence) else []
                    chosen.append(Entry(own, entry.sentence, entry.names[0]))
                    before = []
                else:
                    # What the next one may go on from.
                    before = [*before, entry] if GOES_ON.match(entry.sentence) and before else [entry]
            if chosen:
                yield Listed(crate.name, file, chosen)


def plain(sentence: str) -> str:
    """A sentence as what a name means: without a capital at its beginning and a point at its end."""
    begins = sentence[:1].lower() if re.match(r"[A-Z][a-z ]", sentence) else sentence[:1]
    return begins + sentence[1:].rstrip(".")


def written() -> str:
    """The part of the page that this script writes."""
    lines: list[str] = []
    last = ""
    for crate, file, some in listed():
        if crate != last:
            lines += ["", f"## {crate}"]
            last = crate
        lines += ["", f"[{file.rpartition('.')[2]}](../crates/{crate}/specs/{file.replace('.', '/')}.antt)", ""]
        for entry in some:
            names = ", ".join(f"`{name}`" for name in entry.names)
            told = f"- {names}: {plain(entry.sentence)}" if entry.sentence else f"- {names}"
            lines += textwrap.wrap(told, WIDTH, subsequent_indent="  ", break_long_words=False, break_on_hyphens=False)
    return "\n".join(lines) + "\n"


def page(there: str) -> str:
    """The page, with the head of the one that is there."""
    return f"{there.partition(MARK)[0]}{MARK}\n{written()}"


def poor() -> Iterator[str]:
    """Definitions on the page without a comment of their own, or with one that goes on from another."""
    for crate, file, some in listed():
        for entry in some:
            shared = entry.first and entry.names != [entry.first]
            if shared or not entry.sentence or GOES_ON.match(entry.sentence):
                whose = f" (above {entry.first})" if shared else ""
                yield f"{crate} {file} {', '.join(entry.names)}: {entry.sentence or 'no comment'}{whose}"


def main() -> int:
    arguments = argparse.ArgumentParser(description="Writes the list of docs/DEFINITIONS.md.")
    arguments.add_argument("--check", action="store_true", help="compare, and change nothing")
    arguments.add_argument("--poor", action="store_true", help="list comments that don't say enough by themselves")
    given = arguments.parse_args()
    if given.poor:
        print("\n".join(poor()))
        return 0
    there = PAGE.read_text("utf-8")
    wanted = page(there)
    if not given.check:
        PAGE.write_text(wanted, "utf-8")
        return 0
    for line in difflib.unified_diff(there.splitlines(), wanted.splitlines(), "there", "as written", "", "", 0, ""):
        print(line)
    counts = Counts("definitions", quiet=True)
    counts.check("docs/DEFINITIONS.md", wanted == there, "isn't what tests/definitions.py writes")
    return counts.end()


if __name__ == "__main__":
    sys.exit(main())
