"""Cases of documents and queries that only look random: what is found in them is what a look at each document finds."""
from __future__ import annotations

from collections.abc import Callable, Iterable, Sequence
from typing import Optional, TypeVar

from case_model import Document, Match, Subject, Top, answer, has, phrase, within
from case_queries import mixed

Choice = TypeVar("Choice")
# A document with the terms of its title, and a query with what it finds.
Row = tuple[Document, list[Optional[str]]]
Asked = tuple[str, Match]

# Words as they are written, each with the term that finds it: none finds a word of 40 bytes, which keeps its place.
WRITTEN = [("a", "a"), ("A", "a"), ("b", "b"), ("rust", "rust"), ("RUST", "rust"), ("ÄRGER", "ärger"), ("ärger", "ärger"),
           ("Σίσυφος", "σίσυφοσ"), ("ſ", "s"), ("S", "s"), ("٣٤", "٣٤"), ("v2", "v2"), ("x" * 39, "x" * 39),
           ("x" * 40, None)] + [(f"W{n}", f"w{n}") for n in range(14, 100)]
BETWEEN = [" ", ", ", "-", " — "]


class Chance:
    """Numbers that only look random, the same on every machine."""

    def __init__(self, state: int) -> None:
        self.state = state

    def below(self, count: int) -> int:
        self.state = (self.state * 6364136223846793005 + 1442695040888963407) % 2**64
        return (self.state >> 33) % count if count else 0

    def one_of(self, choices: Sequence[Choice]) -> Choice:
        return choices[self.below(len(choices))]

    def some_below(self, count: int) -> int | None:
        """A number below `count`, and nothing once in four times."""
        return self.below(count) if self.below(4) else None


def written(chance: Chance) -> Row:
    """A document, and the terms of its title in order. Low words come more often."""
    document: Document = {}
    terms: list[str | None] = []
    title = ""
    if chance.below(8):
        for _ in range(chance.below(12)):
            text, term = WRITTEN[chance.below(chance.below(len(WRITTEN)))]
            title += text + chance.one_of(BETWEEN)
            terms.append(term)
        document["title"] = title
    fields: list[tuple[str, int, Callable[[int], object]]] = [
        ("tag", 50, lambda n: f"T {n}"), ("price", 100, lambda n: n), ("temp", 100, lambda n: n - 50)]
    for field, count, value in fields:
        number = chance.some_below(count)
        if number is not None:
            document[field] = value(number)
    return document, terms


def write_generated() -> None:
    s, chance = Subject("generated"), Chance(11)
    rows = [written(chance) for _ in range(2_000)]
    s.case("2,000 documents are made of words from a few writings", "make", 2_000, documents=[d for d, _ in rows])
    for term in sorted({term for _, term in WRITTEN if term}):
        at = [(n, [k for k, other in enumerate(terms) if other == term]) for n, (_, terms) in enumerate(rows)]
        at = [(n, places) for n, places in at if places]
        sought = {"field": 0, "text": term}
        s.case(f"{term} is in the documents that were written with it", "postings", [n for n, _ in at], term=sought)
        s.case(f"{term} stands where it was written", "all_positions", [p for _, p in at] or None, term=sought)
    for number in range(50):
        s.case(f"The tag T {number} is in its documents", "postings",
               [n for n, (d, _) in enumerate(rows) if d.get("tag") == f"T {number}"], term={"field": 1, "text": f"T {number}"})
    for number in range(100):
        for field, name, kind, value in [(2, "price", "u64", number), (3, "temp", "i64", number - 50)]:
            s.case(f"The {name} {value} is in its documents", "postings",
                   [n for n, (d, _) in enumerate(rows) if d.get(name) == value], term={"field": field, kind: value})
    s.case("Each price is in its place of the column", "column", [d.get("price") for d, _ in rows], field=2)
    s.case("Each temp is in its place, as the u64 in the same order", "column",
           [d["temp"] + 2**63 if "temp" in d else None for d, _ in rows], field=3)
    write_merged(s, chance)
    s.write()


def write_merged(s: Subject, chance: Chance) -> None:
    """2,000 documents of odd stamps, of which deletes strike some, and the odd ones left merged before the even ones."""
    words = [[chance.below(60), chance.below(chance.below(60)), chance.below(60)] for _ in range(2_000)]
    s.case("2,000 documents of three words are made at odd stamps", "make", 2_000,
           documents=[{"title": f"W{a} w{b}, w{c}"} for a, b, c in words], stamps=[2 * n + 1 for n in range(2_000)])
    deletes = [(chance.below(60), 2 * chance.below(2_000)) for _ in range(24)]
    stays: Callable[[int], bool] = lambda n: 2 * n + 1 >= 600 and not any(2 * n + 1 < at and word in words[n] for word, at in deletes)
    ops = [{"stamp": 600, "op": "delete_all"}, {"stamp": 7, "op": "delete_all"}]
    ops[1:1] = [{"stamp": at, "op": {"delete": {"field": "title", "is": f"w{word}"}}} for word, at in deletes]
    left = [n for n in range(2_000) if stays(n)]
    s.case("Of many deletes each strikes the documents of lower stamps", "strike", left, ops=ops)
    odd, even = [n for n in left if n % 2], [n for n in left if n % 2 == 0]
    s.case("The odd documents that are left come before the even ones", "merge",
           [[2 * n + 1, 0, n] for n in odd] + [[2 * n + 1, 1, n] for n in even], first=odd, second=even)
    for word in range(0, 60, 10):
        s.case(f"w{word} is found in the merged documents that have it", "merged_postings",
               [place for place, n in enumerate(odd + even) if word in words[n]],
               first=odd, second=even, term={"field": 0, "text": f"w{word}"})


def title(text: str) -> Match:
    return lambda d: has(d, "title", text)


def tag(text: str) -> Match:
    return lambda d: has(d, "tag", text)


def tags(admits: Callable[[str], bool]) -> Match:
    return lambda d: "tag" in d and admits(d["tag"])


LEAVES: list[Asked] = [
    ("title:a", title("a")), ("title:b", title("b")), ("title:c", title("c")), ("title:none", title("none")),
    ("tag:x", tag("x")), ("tag:y", tag("y")), ('"a b"', lambda d: phrase(d, ["a", "b"]) or has(d, "tag", "a b")),
    ('title:"b a"', lambda d: phrase(d, ["b", "a"])), ('title:"a c b"', lambda d: phrase(d, ["a", "c", "b"])),
    ("price:[3 TO 7}", lambda d: within(d, "price", 3, 6)), ("price:{2 TO *]", lambda d: within(d, "price", 3, 99)),
    ("price:[* TO *]", lambda d: "price" in d), ("price:{10 TO *]", lambda d: within(d, "price", 11, 99)),
    ("temp:[-3 TO 2}", lambda d: within(d, "temp", -3, 1)), ("temp:<0", lambda d: within(d, "temp", -99, -1)),
    ("tag:[x TO y]", tags(lambda t: "x" <= t <= "y")), ("tag:{x TO *]", tags(lambda t: t > "x")),
    ("tag:<z", tags(lambda t: t < "z")), ("*", lambda d: True)]


def query(chance: Chance, depth: int) -> Asked:
    """A query that is nested up to this depth, with what it finds. The first of several isn't a must-not."""
    if depth == 0 or chance.below(4) == 0:
        return chance.one_of(LEAVES)
    sign = chance.one_of(["", "+"])
    text, first = query(chance, depth - 1)
    if chance.below(4) == 0:
        return f"({sign}{text})", first
    between = chance.one_of([" ", " +", " -"])
    other, second = query(chance, depth - 1)
    # A should beside a must strikes none.
    found = {(" ", ""): lambda d: first(d) or second(d), (" ", "+"): first, (" +", ""): second,
             (" +", "+"): lambda d: first(d) and second(d)}.get((between, sign), lambda d: first(d) and not second(d))
    return f"({sign}{text}{between}{other})", found


def write_walk(
    s: Subject, chance: Chance, sentence: str, asked: Asked, documents: Sequence[Document], live: Iterable[int], targets: int = 450,
) -> None:
    """A walk that mixes steps, searches forward and back to documents below `targets`, and takes of 128 documents."""
    text, match = asked
    found = [n for n in live if match(documents[n])]
    steps: list[object] = []
    gives: list[object] = []
    at = 0
    for _ in range(40):
        steps.append("doc")
        gives.append(found[at] if at < len(found) else None)
        move = chance.below(8)
        if move == 0:
            steps.append("take")
            gives.append(found[at:at + 128])
            at += 128
        elif move < 3:
            target = chance.below(targets)
            steps.append({"seek": target})
            at = next((k for k, n in enumerate(found) if k >= at and n >= target), len(found))
        else:
            steps.append("advance")
            at += 1
    s.case(sentence, "walk", gives, query=text, steps=steps)


def document(chance: Chance) -> Document:
    """A document with a title, and with some of the other fields."""
    made: Document = {"title": "".join(chance.one_of(["a ", "b ", "c ", "d ", "A, ", "b-"]) for _ in range(chance.below(7)))}
    if chance.below(3):
        made["tag"] = chance.one_of(["x", "y", "z w"])
    if chance.below(4):
        made["price"] = chance.below(12)
    if chance.below(2):
        made["temp"] = chance.one_of([1, -1]) * (chance.below(7) + 1)
    return made


def write_walks() -> None:
    s, chance = Subject("walks"), Chance(5)
    documents = [mixed(n) for n in range(400)]
    asked = [query(chance, 6) for _ in range(60)]
    s.case("400 documents are made of which some lack a field", "make", 400, documents=documents)
    for number, one in enumerate(asked):
        write_walk(s, chance, f"Walk {number} goes over the hits of a query of queries", one, documents, range(400))
    dead = [n for n in range(400) if chance.below(5) == 0]
    live = [n for n in range(400) if n not in dead]
    s.case("A fifth of the documents is struck", "clear", len(live), docs=dead)
    for number, one in enumerate(asked):
        write_walk(s, chance, f"Walk {number} goes over the live hits of its query", one, documents, live)
    for segment in range(25):
        documents = [document(chance) for _ in range(chance.below(400) + 1)]
        s.case(f"Segment {segment} has {len(documents)} documents", "make", len(documents), documents=documents)
        odds = chance.below(6)
        dead = [n for n in range(len(documents)) if chance.below(odds) == 0]
        live = [n for n in range(len(documents)) if n not in dead]
        s.case(f"Segment {segment} loses some of them", "clear", len(live), docs=dead)
        for number in range(3):
            write_walk(s, chance, f"In segment {segment} walk {number} goes over the live hits", query(chance, 4), documents, live)
    s.write()


def write_cuttings() -> None:
    """Documents that are cut into segments of which some documents are struck: together they answer as all that are left."""
    s, chance = Subject("cuttings"), Chance(23)
    for cutting in range(25):
        asked, most = query(chance, 3), chance.below(400) + 1
        kinds: list[tuple[str | None, tuple[str, str] | None]] = [
            (None, ("price", "falling")), ("price", ("temp", "rising")), ("temp", ("price", "rising")),
            ("temp", ("temp", "falling")), ("price", None), ("tag", None), ("tag", ("price", "rising"))]
        groups, order = chance.one_of(kinds)
        top: Top | None = {"by": order[0], "k": most, "order": order[1]} if order else None
        documents = [document(chance) for _ in range(chance.below(400) + 1)]
        parts: list[list[int]] = [[] for _ in range(chance.below(6) + 1)]
        for n in range(len(documents)):
            chance.one_of(parts).append(n)
        live = [n for n in range(len(documents)) if chance.below(4)]
        for place, part in enumerate(parts):
            s.case(f"Cutting {cutting}: segment {place} has {len(part)} documents", "and_make" if place else "make", len(part),
                   documents=[documents[n] for n in part], stamps=[n + 1 for n in part])
            dead = [place for place, n in enumerate(part) if n not in live]
            s.case(f"Cutting {cutting}: segment {place} loses {len(dead)} of them", "clear", len(part) - len(dead), docs=dead)
        request: dict[str, object] = {**({"groups": groups} if groups else {}), **({"top": top} if top else {})}
        s.case(f"Cutting {cutting}: {len(parts)} segments answer as all that are left", "answer",
               answer([(n + 1, documents[n]) for n in live], asked[1], groups, top), query=asked[0], **request)
    s.write()


# For each joining, how many documents its sources have, and one in how many of them is struck: all where it is 0, none where it is 1.
JOININGS = [
    ("two sources, nothing struck", [300, 200], [1, 1]),
    ("two sources, a third struck", [260, 330], [3, 3]),
    ("a large source and two small ones", [320, 15, 20], [4, 2, 3]),
    ("a large source, nothing struck, and three small ones", [300, 12, 1, 20], [1, 1, 1, 2]),
    ("a source without a live document between others", [90, 40, 80, 30], [2, 0, 1, 5]),
    ("seven sources", [40, 150, 1, 60, 25, 80, 13], [3, 2, 1, 4, 1, 3, 2]),
    ("sixteen sources", [30, 8, 25, 41, 3, 60, 17, 22, 1, 35, 28, 19, 50, 11, 6, 44], [2, 1, 3, 1, 2, 4, 1, 3, 1, 2, 5, 1, 3, 2, 1, 4]),
]


def stays(chance: Chance, odds: int) -> bool:
    """Whether a document stays: all do if the odds are 1, and none if they are 0; else one in `odds` is struck."""
    return odds == 1 or odds > 1 and chance.below(odds) > 0


def write_joined(s: Subject, name: str, rows: list[Row]) -> None:
    """What is found in merged documents: each term of titles, tags and numbers, and the columns."""
    for term in sorted({term for _, terms in rows for term in terms if term} | {"a", "w99"}):
        at = [(n, [k for k, other in enumerate(terms) if other == term]) for n, (_, terms) in enumerate(rows)]
        at = [(n, places) for n, places in at if places]
        sought = {"field": 0, "text": term}
        s.case(f"{name}: {term} is in the documents that are left with it", "postings", [n for n, _ in at], term=sought)
        s.case(f"{name}: {term} stands there where it was written", "all_positions", [p for _, p in at] or None, term=sought)
    for number in range(0, 50, 5):
        s.case(f"{name}: the tag T {number} is in those that are left with it", "postings",
               [n for n, (d, _) in enumerate(rows) if d.get("tag") == f"T {number}"], term={"field": 1, "text": f"T {number}"})
    for number in range(0, 100, 25):
        for field, kind, key, value in [(2, "u64", "price", number), (3, "i64", "temp", number - 50)]:
            s.case(f"{name}: the {key} {value} is in those that are left with it", "postings",
                   [n for n, (d, _) in enumerate(rows) if d.get(key) == value], term={"field": field, kind: value})
    tags = sorted({d["tag"].encode() for d, _ in rows if "tag" in d})
    s.case(f"{name}: each tag has the place that it has among those that are left", "column",
           [tags.index(d["tag"].encode()) if "tag" in d else None for d, _ in rows], field=1)
    s.case(f"{name}: each price is in its place of the column", "column", [d.get("price") for d, _ in rows], field=2)
    s.case(f"{name}: each temp is in its place, as the u64 in the same order", "column",
           [d["temp"] + 2**63 if "temp" in d else None for d, _ in rows], field=3)


def write_joins() -> None:
    """Segments of which some documents are struck, merged into one: before and after, all that is found is compared."""
    s, chance = Subject("joins"), Chance(31)
    for name, sizes, odds in JOININGS:
        stamp, left, origins = 0, [], []
        name = name[0].upper() + name[1:]
        for source, (size, odd) in enumerate(zip(sizes, odds)):
            rows = [written(chance) for _ in range(size)]
            live = [n for n in range(size) if stays(chance, odd)]
            s.case(f"{name}: source {source} has {size} documents", "and_make" if source else "make", size,
                   documents=[d for d, _ in rows], stamps=[stamp + n + 1 for n in range(size)])
            s.case(f"{name}: {len(live)} documents of source {source} are live", "clear", len(live),
                   docs=[n for n in range(size) if n not in live])
            left += [rows[n] for n in live]
            origins += [[stamp + n + 1, source, n] for n in live]
            stamp += size
        asked: list[tuple[str, Match, str, Top | None]] = [
            ("title:a", lambda d: has(d, "title", "a"), "tag", {"by": "price", "k": 50, "order": "rising"}),
            ('title:"a b"', lambda d: phrase(d, ["a", "b"]), "price", {"by": "temp", "k": 9, "order": "falling"}),
            ("price:[10 TO 60] -title:rust", lambda d: within(d, "price", 10, 60) and not has(d, "title", "rust"), "temp", None)]
        stamped = [(stamp, document) for (stamp, _, _), (document, _) in zip(origins, left)]

        def ask(when: str) -> None:
            for query, match, groups, top in asked:
                request: dict[str, object] = {"groups": groups, **({"top": top} if top else {})}
                s.case(f"{name}: {when} `{query}` finds what a look at each live document finds", "answer",
                       answer(stamped, match, groups, top), query=query, **request)

        ask("before the merge")
        s.case(f"{name}: the merged documents are the live ones in the order of their sources", "join", origins)
        ask("behind the merge")
        write_joined(s, name, left)
    s.write()
