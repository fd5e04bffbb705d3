#!/usr/bin/env python3
"""Makes a schema for JSON lines, and documents of the fields that fit it.

    python3 fields.py yours.jsonl schema.json [KEYWORD ..] > fitting.jsonl

Whole numbers are a u64, or an i64 if one is below 0. Texts, and lists of texts, are a default text. If the field is
named, it is a keyword, which takes no lists. All else is left out, and standard error says why, once for each field.
"""
from __future__ import annotations

import json
import re
import sys
from collections.abc import Iterator
from typing import Any, Optional

# The service gives each document its id, so that it takes one field less than the index.
NAME, TAKEN, MOST_FIELDS = re.compile("[A-Za-z_][A-Za-z0-9_]{0,31}"), {"id", "AND", "OR", "NOT"}, 31


def documents(path: str) -> Iterator[tuple[int, dict[str, Any]]]:
    """The documents of a file, each with the number of its line."""
    with open(path, encoding="utf-8") as lines:
        for number, line in enumerate(lines, 1):
            if line.strip():
                try:
                    found = json.loads(line)
                except ValueError as error:
                    sys.exit(f"{path}, line {number}: this isn't JSON: {error}")
                if not isinstance(found, dict):
                    sys.exit(f"{path}, line {number}: this isn't an object")
                yield number, found


def kind_of(value: Any, is_keyword: bool) -> Optional[str]:
    """The kind of field that takes a value; None if there is none."""
    if type(value) is int:
        return "u64" if 0 <= value < 1 << 64 else "i64" if -1 << 63 <= value < 0 else None
    if isinstance(value, str):
        return "text" if not is_keyword else "keyword" if len(value.encode("utf-8", "surrogatepass")) <= 256 else None
    is_texts = isinstance(value, list) and all(isinstance(each, str) for each in value)
    return "text" if is_texts and not is_keyword else None


def fault(name: str, kind: Optional[str], before: str, is_keyword: bool) -> str:
    """Why a field can't be of the kind that takes its value, after another kind or none before; empty if it can."""
    if not NAME.fullmatch(name) or name in TAKEN:
        return "no field can have this name"
    if kind is None:
        return "a keyword takes one text, of 256 bytes at most" if is_keyword else "no kind of field takes this"
    return f"this is no {before}, which it was before" if before not in ("", kind) else ""


def kinds_of(path: str, keywords: list[str]) -> dict[str, Optional[str]]:
    """The kind of each field of a file; None for one that is left out."""
    kinds: dict[str, Optional[str]] = {}
    for number, document in documents(path):
        for name, value in document.items():
            before = kinds.get(name, "")
            if value is None or before is None:
                continue
            kind = kind_of(value, name in keywords)
            if {before, kind} == {"u64", "i64"}:
                before = kind = "i64"
            why = fault(name, kind, before, name in keywords)
            kinds[name] = None if why else kind
            if why:
                shown = json.dumps(value, ensure_ascii=False)[:60]
                print(f"line {number}: {name} is left out, since {why}: {shown}", file=sys.stderr)
    for name in set(keywords) - set(kinds):
        print(f"{name}: no document has it", file=sys.stderr)
    return kinds


def main(path: str, schema: str, *keywords: str) -> None:
    kinds = kinds_of(path, list(keywords))
    fields = [{"name": name, "kind": kind, "default": kind == "text"} for name, kind in kinds.items() if kind]
    for left in fields[MOST_FIELDS:]:
        print(f"{left['name']} is left out, since {MOST_FIELDS} fields are the most", file=sys.stderr)
    with open(schema, "w", encoding="utf-8") as file:
        json.dump(fields[:MOST_FIELDS], file)
    names = {field["name"] for field in fields[:MOST_FIELDS]}
    for _, document in documents(path):
        print(json.dumps({name: value for name, value in document.items() if name in names}))


if __name__ == "__main__":
    main(*sys.argv[1:])
