#!/usr/bin/env python3
"""Times the building of a segment, and looking terms up in it, beside a plain index in C++; counts the bytes of its postings and positions.

    python3 bench/segment.py

100,000 documents of bench/corpus.py. The program is in bench/segment, and the plain index of the same documents, which isn't packed, in
bench/segment.cpp. The bytes are counted from the layout: of each block of 128 numbers 16 bytes for each bit of its width, and what is kept of
where the block begins.
"""
from __future__ import annotations

import collections
import json
import re
import subprocess
import tempfile
from typing import Any, Sequence

from crates import documents, outputs
from floor_table import number, table
from programs import ROOT, run

# A list of at most SHORT documents is plain numbers, and a longer one that has one in DENSE of the documents up to its last has bits, too.
SHORT, DENSE = 64, 64


def packed(numbers: Sequence[int], entry: int) -> int:
    """The bytes of numbers in blocks, with `entry` bytes for each block."""
    blocks = [numbers[at:at + 128] for at in range(0, len(numbers), 128)]
    return sum(16 * max(block).bit_length() + entry for block in blocks)


def listed(docs: Sequence[int]) -> int:
    """The bytes of a list of documents."""
    if len(docs) <= SHORT:
        return 4 * len(docs)
    bits = (docs[-1] // 64 + 1) * 8 if docs[-1] // DENSE < len(docs) else 0
    return packed(differences(docs), 16) + bits


def differences(numbers: Sequence[int]) -> list[int]:
    return [one - before - 1 for before, one in zip([-1, *numbers], numbers)]


def sizes(texts: Sequence[list[str]]) -> dict[str, float]:
    """How many terms and postings a field of texts has, and the bytes of a posting and of a position."""
    places: dict[str, list[tuple[int, list[int]]]] = collections.defaultdict(list)
    for doc, words in enumerate(texts):
        for position, word in enumerate(words):
            runs = places[word]
            if not runs or runs[-1][0] != doc:
                runs.append((doc, []))
            runs[-1][1].append(position)
    terms = [places[word] for word in sorted(places, key=str.encode)]
    lists = sum(listed([doc for doc, _ in runs]) for runs in terms)
    counts = [len(positions) for runs in terms for _, positions in runs]
    gaps = [gap for runs in terms for _, positions in runs for gap in differences(positions)]
    positions = packed(counts, 16) + packed(gaps, 16) + 8 * -(-len(counts) // 128)
    return {"terms": len(terms), "postings": len(counts), "posting": lists / len(counts), "positions": len(gaps), "position": positions / len(gaps)}


def plain(lines: Sequence[str]) -> str:
    """What the plain index in C++ told."""
    with tempfile.TemporaryDirectory() as folder:
        run("g++", "-O2", "-std=c++17", "-o", f"{folder}/plain", ROOT / "bench/segment.cpp")
        given = "".join(line + "\n" for line in lines)
        return subprocess.run([f"{folder}/plain"], input=given, capture_output=True, text=True, check=True).stdout


def measure(count: int = 100_000) -> dict[str, Any]:
    lines = documents(count)
    found = [json.loads(line) for line in lines]
    told = "\n".join(outputs("segment", "fts_segment fts_model serde_json anyhow", lines)) + plain(lines)
    micros = [int(each) for each in re.findall(r"in (\d+) us", told)]
    return {
        "documents": count, "built": micros[0], "finds": micros[1], "plain": micros[2],
        "fields": {"body": sizes([document["body"].split() for document in found]), "tag": sizes([[document["tag"]] for document in found])},
    }


def shown(raw: dict[str, Any]) -> str:
    rows = [[name, f"{each['terms']:,}", f"{each['postings']:,}", number(each["posting"]), f"{each['positions']:,}", number(each["position"])]
            for name, each in raw["fields"].items()]
    head = (f"A segment of {raw['documents']:,} documents was built in {raw['built'] / 1e6:.2f} s by the clock, tokens and folding included; the "
            f"plain index in C++ in {raw['plain'] / 1e6:.2f} s. A term was looked up in {raw['finds'] / 1e6:.2f} microseconds.")
    return head + "\n\n" + table(["field", "terms", "postings", "bytes a posting", "positions", "bytes a position"], rows)


if __name__ == "__main__":
    print(shown(measure()))
