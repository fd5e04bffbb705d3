"""Cases of lists that are close together and keep bits, and of queries that go over them by words: bits, their complement, a column
between bounds and live bits, with and without documents that are struck, and lists that are just close enough for bits."""
from __future__ import annotations

import re
from collections.abc import Sequence

from case_model import Document, Match, Subject, has, within
from case_random import Chance, write_walk

# After this many the documents come again, and the last round is cut, so that the last word of bits is a part of one.
PERIOD, DOCS = 360, 5_000
# Each word is in one of this many documents: three of them have bits, and `thin` has none.
STEPS = {"half": 2, "third": 3, "close": 30, "thin": 72}
# More than 64 documents, the last of which is less than 64 times as far as they are many, have bits.
MOST = 64


def document(n: int) -> Document:
    made: Document = {"title": " ".join(word for word, step in STEPS.items() if n % step == 1)}
    if n % 4 < 3:
        made["price"] = n % PERIOD
    return made


def word(name: str) -> Match:
    return lambda d: has(d, "title", name)


def price(least: int, most: int) -> Match:
    return lambda d: within(d, "price", least, most)


HALF, THIRD, CLOSE, THIN = [word(name) for name in STEPS]

QUERIES: list[tuple[str, str, Match]] = [
    ("bits and bits", "+half +third", lambda d: HALF(d) and THIRD(d)),
    ("bits of three words", "+half +third +close", lambda d: HALF(d) and THIRD(d) and CLOSE(d)),
    ("bits and a complement", "+half -third", lambda d: HALF(d) and not THIRD(d)),
    ("bits and two complements", "+third -half -close", lambda d: THIRD(d) and not HALF(d) and not CLOSE(d)),
    ("a complement alone", "* -half", lambda d: not HALF(d)),
    ("a complement of a thin word", "half -thin", lambda d: HALF(d) and not THIN(d)),
    ("bits or bits", "half third close", lambda d: HALF(d) or THIRD(d) or CLOSE(d)),
    ("bits or a thin word", "close thin", lambda d: CLOSE(d) or THIN(d)),
    ("bits of two words or a thin word", "half close thin", lambda d: HALF(d) or CLOSE(d) or THIN(d)),
    ("bits, a thin word, one without documents or bits and bits", "close thin title:none (+half +third)",
     lambda d: CLOSE(d) or THIN(d) or (HALF(d) and THIRD(d))),
    ("bits, a thin word or a range", "third thin price:[200 TO 220]", lambda d: THIRD(d) or THIN(d) or price(200, 220)(d)),
    ("a thin word and bits", "+thin +half", lambda d: THIN(d) and HALF(d)),
    ("a thin word and a complement", "+thin -third", lambda d: THIN(d) and not THIRD(d)),
    ("a range and bits", "+price:[20 TO 90] +half", lambda d: price(20, 90)(d) and HALF(d)),
    ("a range and a complement", "+price:[20 TO 90] -half", lambda d: price(20, 90)(d) and not HALF(d)),
    ("a range", "price:[100 TO 220]", price(100, 220)),
    ("bits alone", "close", CLOSE),
    ("bits within bits", "+(half third) +close -(+half +third)",
     lambda d: (HALF(d) or THIRD(d)) and CLOSE(d) and not (HALF(d) and THIRD(d))),
    ("bits in parentheses", "+(half) +(third)", lambda d: HALF(d) and THIRD(d)),
    ("bits in parentheses without others", "(half) -(third)", lambda d: HALF(d) and not THIRD(d)),
    ("bits in parentheses or others", "(half) (third)", lambda d: HALF(d) or THIRD(d)),
    ("bits without a thin word in parentheses and others", "(half -thin) -(third)", lambda d: HALF(d) and not THIN(d) and not THIRD(d)),
    ("a thin word in parentheses and bits of two", "+(thin) +half +third", lambda d: THIN(d) and HALF(d) and THIRD(d)),
    ("every document", "*", lambda d: True),
]


def ask(s: Subject, chance: Chance, when: str, documents: list[Document], live: Sequence[int]) -> None:
    for name, query, match in QUERIES:
        query = re.sub(r"\b(?=(half|third|close|thin)\b)", "title:", query)
        s.case(f"{when} as many are counted of {name} as a look at each finds", "count",
               sum(match(documents[n]) for n in live), query=query)
        write_walk(s, chance, f"{when} a cursor goes over the hits of {name}", (query, match), documents, live, DOCS + 100)


def write_close(s: Subject) -> None:
    """Lists that are just close enough for bits, and just not: their answers are the same."""
    for more, name in [(0, "just close enough for bits"), (1, "just too far for bits")]:
        last = MOST * 66 - 1 + more
        docs = [*range(65), last]
        s.case(f"66 documents of a word are made, {name}", "make", last + 1,
               repeated=[{"times": 65, "of": [{"title": "just half"}]}, {"times": last - 65, "of": [{"title": "half"}]},
                         {"times": 1, "of": [{"title": "just"}]}])
        s.case(f"All of a word that is {name} are found", "found", docs, query="title:just")
        s.case(f"All but the last of a word that is {name} are found with another", "found", docs[:-1], query="+title:just +title:half")
        s.case(f"The last of a word that is {name} is found without another", "found", [last], query="title:just -title:half")
        s.case(f"All are found that have another, or a word that is {name}", "count", last + 1, query="title:just title:half")


def write_far(s: Subject) -> None:
    """A list that keeps bits in its own segment, and not after the documents of another."""
    s.case("A segment has 3,000 documents of a word", "make", 3_000, repeated=[{"times": 3_000, "of": [{"title": "half"}]}])
    s.case("Another has 70 of two words", "and_make", 70, documents=[{"title": "far half"}] * 70,
           stamps=[3_001 + n for n in range(70)])
    s.case("Before the merge the second word is found with the first", "answer", {"count": 70}, query="+title:far +title:half")
    s.case("They are merged", "join", [[n + 1, 0, n] for n in range(3_000)] + [[3_001 + n, 1, n] for n in range(70)])
    s.case("After the merge the second word is found at its end", "found", [3_000 + n for n in range(70)], query="+title:far +title:half")
    s.case("After the merge the first is found without the second", "count", 3_000, query="title:half -title:far")


def write_words() -> None:
    s, chance = Subject("words"), Chance(41)
    documents = [document(n) for n in range(DOCS)]
    rounds = DOCS // PERIOD
    s.case(f"{DOCS:,} documents are made whose words come again", "make", DOCS,
           repeated=[{"times": rounds, "of": documents[:PERIOD]}, {"times": 1, "of": documents[rounds * PERIOD:]}])
    ask(s, chance, "Of all documents", documents, range(DOCS))
    dead = [n for n in range(DOCS) if n % 7 == 1 or 640 <= n < 1_300]
    live = [n for n in range(DOCS) if n % 7 != 1 and not 640 <= n < 1_300]
    s.case("A seventh is struck, and all of ten words of bits", "clear", len(live), docs=dead)
    ask(s, chance, "Of the live documents", documents, live)
    write_close(s)
    write_far(s)
    s.write()
