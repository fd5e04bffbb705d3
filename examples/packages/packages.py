#!/usr/bin/env python3
"""Makes JSON lines of Debian's list of packages, a document on each line.

    apt-cache dumpavail | python3 packages.py > packages.jsonl

docs/TUTORIAL.md makes an index of them.
"""
from __future__ import annotations

import json
import sys
from collections.abc import Iterable, Iterator

TEXTS = ("package", "description", "section", "priority")
# In bytes; `Installed-Size` is in KiB.
NUMBERS = {"size": ("Size", 1), "installed": ("Installed-Size", 1024)}


def stanzas(lines: Iterable[str]) -> Iterator[dict[str, str]]:
    """The fields of each package. A line that begins with white space continues the field before it."""
    fields: dict[str, str] = {}
    name = ""
    for line in lines:
        if line[0].isspace() and line.strip():
            fields[name] += f" {line.strip()}"
        elif line.strip():
            name, _, value = line.partition(":")
            fields[name] = value.strip()
        elif fields:
            yield fields
            fields = {}
    if fields:
        yield fields


def document(fields: dict[str, str]) -> dict[str, str | int]:
    """A package as a document, without the fields that it lacks."""
    found: dict[str, str | int] = {name: fields[name.capitalize()] for name in TEXTS if name.capitalize() in fields}
    return found | {name: unit * int(fields[field]) for name, (field, unit) in NUMBERS.items() if field in fields}


if __name__ == "__main__":
    for package in stanzas(sys.stdin):
        print(json.dumps(document(package), ensure_ascii=False))
