"""A model of an index for tests/cases.py: a tokenizer, a match and a sort over plain documents."""
from __future__ import annotations

import json
import os
import re
from collections.abc import Callable, Iterable, Sequence
from typing import Any, TypedDict

# A document as JSON has it, and whether a query finds one.
Document = dict[str, Any]
Match = Callable[[Document], bool]

HERE = os.path.join(os.path.dirname(os.path.abspath(__file__)), "..", "crates", "cases_segments", "data")
# Where the cases are written.
folder = HERE
GREATEST = 2**64 - 1


class Top(TypedDict):
    """A top list that is asked for: by which field, how many hits, and in which order."""

    by: str
    k: int
    order: str


class Subject:
    """The cases of one subject."""

    def __init__(self, name: str) -> None:
        self.name = name
        self.lines: list[str] = []

    def case(self, sentence: str, do: str, gives: object, **given: object) -> None:
        line = {"case": sentence, "do": do, **given, "gives": gives}
        self.lines.append(json.dumps(line, ensure_ascii=False, separators=(",", ":")))

    def raw(self, line: str) -> None:
        """A line whose JSON is written as it is, for numbers and keys that a writer would change."""
        self.lines.append(line)

    def write(self) -> None:
        with open(os.path.join(folder, self.name + ".jsonl"), "w") as out:
            out.write("".join(line + "\n" for line in self.lines))


def tokens(value: str | list[str]) -> list[list[Any]]:
    """The spans of letters and digits, folded, each with its number; those of 40 bytes or more are dropped. Of a list the first span
    of a text is numbered two above the last of the texts before it."""
    found: list[list[Any]] = []
    first = 0
    for text in value if isinstance(value, list) else [value]:
        runs = re.findall(r"[^\W_]+", text)
        found += [[first + place, run.lower()] for place, run in enumerate(runs) if len(run.encode()) < 40]
        first += len(runs) + 1 if runs else 0
    return found


def has(document: Document, field: str, text: str) -> bool:
    value: str | list[str] | None = document.get(field)
    if value is None:
        return False
    if field == "title":
        return any(run == text for _, run in tokens(value))
    return value == text


def phrase(document: Document, words: Sequence[str | None]) -> bool:
    """Whether the words follow each other, where None is any one span."""
    at: dict[int, str] = {}
    for place, run in tokens(document.get("title", "")):
        at[place] = run
    return any(all(word in (None, at.get(place + n)) for n, word in enumerate(words)) for place in at)


def within(document: Document, field: str, least: int, most: int) -> bool:
    value: int | None = document.get(field)
    return value is not None and least <= value <= most


def answer(
    documents: Iterable[tuple[int, Document]], match: Match, groups: str | None = None, top: Top | None = None,
) -> dict[str, Any]:
    """The answer over (stamp, document) pairs."""
    hits = [(stamp, document) for stamp, document in documents if match(document)]
    out: dict[str, Any] = {"count": len(hits)}
    if groups:
        counts: dict[Any, int] = {}
        for _, document in hits:
            if groups in document:
                counts[document[groups]] = counts.get(document[groups], 0) + 1
        out["groups"] = [[value, counts[value]] for value in sorted(counts)]
    if top:
        sign = 1 if top["order"] == "rising" else -1
        rows = sorted((sign * d[top["by"]], s) for s, d in hits if top["by"] in d)
        out["top"] = [[stamp, sign * value] for value, stamp in rows[: top["k"]]]
    return out


def error(name: str) -> dict[str, str]:
    return {"error": name}


def named(names: Iterable[str], kind: str = "text") -> list[dict[str, object]]:
    return [{"name": name, "kind": kind, "default": False} for name in names]
