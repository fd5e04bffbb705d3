#!/usr/bin/env python3
"""Counts what an index keeps in memory, part by part, by the layouts of its types, and measures `fts run` over the same documents beside it.

    python3 bench/memory_model.py [DOCUMENTS [WORDS [CUT]]]

There are DOCUMENTS documents of bench/corpus.py (100,000), each with a text of WORDS words (30). One commit cuts them into segments of at most CUT
documents (65,536), and a merge joins these. Build the program first (README.md), or name it in $FTS. If a layout changes, its line here does too.

The model lists the blocks of memory that the index keeps, none of which has spare capacity, and adds up what glibc takes for each. Two rows aren't
counted by layouts. The program is what is resident before the first document. What the merge leaves free is the blocks of its sources that are in
glibc's heap: newer blocks are above them, and glibc returns only the top of its heap to the system.
"""
from __future__ import annotations

import collections
import sys
from array import array
from typing import Iterable, Iterator, NamedTuple, Sequence

import corpus
from floor_table import number, table
from indexes import documents_as_lines
from programs import PROGRAM, Session

# glibc takes blocks of this many bytes or more from the system, in whole pages, and smaller ones from its heap.
MAPPED, PAGE = 128 * 1024, 4096
# The most documents of a list of plain numbers, the numbers of a packed block, and the most documents of a segment that a commit makes.
MOST_PLAIN, BLOCK, CUT = 64, 128, 65_536

# The bytes of each type. A tag of an enum is a word of its own, and an `Arc` has a count of 8 bytes before its data.
DOCUMENT_DATA, FIELD_VALUE, STAMPED_DOCUMENT = 8 + 40, 32, 16
LIST_ENTRY, LONG_ENTRY, SKIP, BLOCK_META = 16, 56, 24, 16
# What each segment takes besides its buffers: the indexes of its four fields, and an `Arc` each for its data and its entry in a snapshot.
RECORDS = 4 * 464, 8 + 56, 8 + 56


def count_of(length: int, size: int) -> int:
    """The number of blocks of this size that a length fills, the last one perhaps in part."""
    return -(-length // size)


def taken(size: int) -> int:
    """The bytes that glibc takes for a block of this many: 8 more, rounded up to a multiple of 16 or to whole pages."""
    if size == 0:
        return 0
    whole = max(32, 16 * count_of(size + 8, 16))
    return whole if whole < MAPPED else PAGE * count_of(whole + 8, PAGE)


# Blocks of memory: the part of an index that each belongs to, and its size in bytes.
Blocks = Iterator[tuple[str, int]]


def of_part(part: str, *sizes: int) -> Blocks:
    return ((part, size) for size in sizes)


class Postings(NamedTuple):
    """The documents of a term, the number of its positions in each, and the gaps of these positions."""
    documents: array[int]
    counts: array[int]
    gaps: array[int]


def gaps(rising: Sequence[int]) -> list[int]:
    """The first number, and by how much more than 1 each of the others is above the one before it."""
    return [after - before - 1 for before, after in zip((-1, *rising), rising)]


def postings(texts: Iterable[Sequence[str]]) -> dict[str, Postings]:
    """The terms of texts, each of which is given as its tokens."""
    found: dict[str, Postings] = collections.defaultdict(lambda: Postings(array("I"), array("I"), array("I")))
    for document, tokens in enumerate(texts):
        places: dict[str, list[int]] = {}
        for place, token in enumerate(tokens):
            places.setdefault(token, []).append(place)
        for token, its_places in places.items():
            found[token].documents.append(document)
            found[token].counts.append(len(its_places))
            found[token].gaps.extend(gaps(its_places))
    return found


def words(numbers: Sequence[int]) -> int:
    """The bytes of packed numbers: a block takes 16 for each bit of its greatest number."""
    return sum(16 * max(numbers[start:start + BLOCK]).bit_length() for start in range(0, len(numbers), BLOCK))


def of_lists(part: str, lists: Iterable[Sequence[int]]) -> Blocks:
    """The `Lists` of fts_pack: short lists as plain numbers, long ones in blocks of gaps, and bits of those that are dense."""
    entries = plain = long = skips = packed = 0
    for documents in lists:
        entries += LIST_ENTRY
        if len(documents) <= MOST_PLAIN:
            plain += 4 * len(documents)
            continue
        long += LONG_ENTRY
        skips += SKIP * count_of(len(documents), BLOCK)
        packed += words(gaps(documents))
        if documents[-1] // 64 < len(documents):
            yield part, 8 * count_of(documents[-1] + 1, 64)
    yield from of_part(part, entries, plain, long, skips, packed)


def of_dictionary(part: str, terms: dict[str, Postings]) -> Blocks:
    """A `Dictionary` of fts_segment: the bytes, ends and heads of its names, its lists, and the `PositionLists` of fts_positions."""
    in_order = [terms[name] for name in sorted(terms)]
    yield from of_part(f"{part}, names", sum(map(len, terms)), 8 * len(terms), 8 * len(terms))
    yield from of_lists(f"{part}, lists", (each.documents for each in in_order))
    counts, all_gaps = array("I"), array("I")
    for each in in_order:
        counts.extend(each.counts)
        all_gaps.extend(each.gaps)
    yield f"{part}, positions", 8 * count_of(len(counts), BLOCK)
    for numbers in (counts, all_gaps):
        yield from of_part(f"{part}, positions", BLOCK_META * count_of(len(numbers), BLOCK), words(numbers))


def of_column(part: str, values: Sequence[int]) -> Blocks:
    """A `Column` of fts_pack, all of whose documents have a value: offsets of one width, bits for presence, and the range of each block."""
    width = (max(values) - min(values)).bit_length()
    lane = 1 if width <= 8 else 4 if width <= 32 else 8
    rows, blocks = count_of(len(values), 64), count_of(len(values), BLOCK)
    return of_part(part, 64 * lane * rows, 8 * rows, (8 if width <= 32 else 16) * blocks)


def of_numbers(part: str, values: Sequence[int]) -> Blocks:
    """A `NumberIndex` of fts_segment: a column, the distinct numbers, and the list of each."""
    having: dict[int, list[int]] = {}
    for document, value in enumerate(values):
        having.setdefault(value, []).append(document)
    yield from of_column(part, values)
    yield part, 8 * len(having)
    yield from of_lists(part, (having[value] for value in sorted(having)))


def of_segment(documents: Sequence[corpus.Document]) -> Blocks:
    """A segment of these documents with its live bits, without what its documents share with their copies."""
    yield "documents", STAMPED_DOCUMENT * len(documents)
    yield from of_dictionary("text", postings(document.body.split() for document in documents))
    tags = postings([document.tag] for document in documents)
    yield from of_dictionary("keyword", tags)
    ordinals = {tag: ordinal for ordinal, tag in enumerate(sorted(tags))}
    yield from of_column("keyword, ordinals", [ordinals[document.tag] for document in documents])
    yield from of_numbers("`u64`", [document.price for document in documents])
    yield from of_numbers("`i64`", [document.temp for document in documents])
    yield from of_part("live bits and records", 8 * count_of(len(documents), 64), *RECORDS)


def of_documents(documents: Sequence[corpus.Document]) -> Blocks:
    """What copies of each document share: an `Arc`, the values of its fields, and two strings."""
    for document in documents:
        yield from of_part("documents", DOCUMENT_DATA, FIELD_VALUE * len(document), len(document.body.encode()), len(document.tag))


def by_part(blocks: Iterable[tuple[str, int]]) -> collections.Counter[str]:
    """The bytes that glibc takes for each part."""
    parts: collections.Counter[str] = collections.Counter()
    for part, size in blocks:
        parts[part] += taken(size)
    return parts


def modelled(documents: Sequence[corpus.Document], cut: int) -> tuple[collections.Counter[str], collections.Counter[str]]:
    """The bytes of each part after a commit, and after a merge of all its segments."""
    shared = by_part(of_documents(documents))
    sources = [block for start in range(0, len(documents), cut) for block in of_segment(documents[start:start + cut])]
    free = sum(taken(size) for _, size in sources if taken(size) < MAPPED)
    return shared + by_part(sources), shared + by_part(of_segment(documents)) + collections.Counter({"left free by the merge": free})


def measured(documents: Sequence[corpus.Document], cut: int) -> list[float]:
    """Megabytes resident of `fts run` before its first document, after a commit, and after a merge of all its segments."""
    session = Session(PROGRAM, "run", "--runs", str(cut))
    first, *rest = documents_as_lines(documents)
    found = []
    for lines in ([first], rest, ['{"merge":true}']):
        session.ask(lines, len(lines))
        found.append(session.resident())
    session.end()
    return found


def main(count: int = 100_000, words_each: int = corpus.WORDS_EACH, cut: int = CUT) -> None:
    documents = list(corpus.documents(count, words_each=words_each))
    idle, *resident = measured(documents, cut)
    states = modelled(documents, cut)
    sums = [sum(state.values()) / 1e6 + idle for state in states]
    print(table([f"{count:,} documents of {words_each} words: bytes a document", "committed", "merged"], [
        *([part, *(number(state[part] / count if part in state else None) for state in states)] for part in states[1]),
        ["the program itself", *[number(idle * 1e6 / count)] * 2],
        ["model, in megabytes", *map(number, sums)],
        ["measured, in megabytes", *map(number, resident)],
        ["model / measured", *(f"{model / real:.3f}" for model, real in zip(sums, resident))],
    ]))


if __name__ == "__main__":
    main(*map(int, sys.argv[1:]))
