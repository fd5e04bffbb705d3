"""The searches of bench/floor.py, by kind, over the documents of bench/corpus.py, and what each program makes of one.

Words are taken by rank: the most frequent has rank 0 and is in more than nine tenths of the documents, rank 20 in about an eighth, and those
from rank 20,000 on in about ten of 100,000. Words from rank 500 on are called thin here: each is in about a two-hundredth of the documents or
in fewer.
"""
from __future__ import annotations

import json
import random
from typing import Callable, NamedTuple

import corpus

TOP = 10


class Search(NamedTuple):
    """A form of query ('any', 'all', 'phrase', 'range', 'tag', 'tags', 'every') with its words, of which those with a minus aren't to be in
    the document, or its two bounds, or 'clauses' with these as a script has them; and what is asked: 'count', 'groups FIELD', or 'FIELD
    falling' or 'FIELD rising' for a top list."""
    form: str
    asked: str
    parts: tuple[str, ...]


def query(search: Search) -> str:
    """The query in the language of a script (docs/QUERIES.md)."""
    parts = search.parts
    if search.form == "all":
        return " ".join(part if part[0] == "-" else "+" + part for part in parts)
    templates = {"phrase": '"{} {}"', "range": "price:[{} TO {}]", "tag": "tag:{}", "tags": "tag:[{} TO {}]", "every": "*"}
    return templates.get(search.form, " ".join(parts)).format(*parts)


def line(search: Search) -> str:
    """The search as a line of a script."""
    told: dict[str, object] = {"query": query(search)}
    first, _, second = search.asked.partition(" ")
    if first == "groups":
        told["groups"] = second
    elif first != "count":
        told["top"] = {"by": first, "k": TOP, "order": second}
    return json.dumps({"search": told}, separators=(",", ":"))


def tabbed(search: Search) -> str:
    """The search as a line of its parts, with tabs between."""
    return "\t".join([search.form, search.asked, " ".join(search.parts)])


def is_top(search: Search) -> bool:
    return search.asked.endswith(("falling", "rising"))


def told(reply: str) -> str:
    """What a reply of `fts run` says, as the others write it: the count, and then `value:count` of each group or `value@document` of each hit.

    Documents are numbered from 0; the stamp of the first is 1."""
    found = json.loads(reply)
    groups = [f"{value}:{count}" for value, count in found.get("groups", [])]
    top = [f"{hit['value']}@{hit['stamp'] - 1}" for hit in found.get("top", [])]
    return " ".join([str(found["count"]), *groups, *top])


def kinds(documents: int) -> dict[str, Callable[[random.Random], Search]]:
    """How a search of each kind is drawn, in the order of the tables."""
    def word(chance: random.Random, first: int, end: int) -> str:
        return corpus.WORDS[chance.randrange(first, end)]

    def some(chance: random.Random, count: int, end: int, first: int = 0) -> tuple[str, ...]:
        return tuple(corpus.WORDS[rank] for rank in chance.sample(range(first, end), count))

    def prices(chance: random.Random, width: int) -> tuple[str, str]:
        low = chance.randrange(corpus.PRICES - width)
        return str(low), str(low + width)

    def tags(chance: random.Random, width: int) -> tuple[str, str]:
        low = chance.randrange(corpus.TAGS - width)
        return corpus.tag(low), corpus.tag(low + width - 1)

    def priced(chance: random.Random) -> str:
        return "+price:[{} TO {}]".format(*prices(chance, tenth))

    def temp(chance: random.Random) -> int:
        return chance.randrange(corpus.LEAST_TEMP, corpus.LEAST_TEMP + corpus.TEMPS)

    frequent, thin = (0, 20), (500, 2_000)
    tenth = corpus.PRICES // 10
    return {
        "term": lambda chance: Search("any", "count", (word(chance, 0, 200),)),
        "absent term": lambda chance: Search("any", "count", (word(chance, 0, 200) + "zzzzzz",)),
        "rare term": lambda chance: Search("any", "count", (word(chance, 20_000, corpus.VOCABULARY),)),
        "keyword": lambda chance: Search("tag", "count", (corpus.tag(chance.randrange(corpus.TAGS)),)),
        "`+a +b`": lambda chance: Search("all", "count", (word(chance, *frequent), word(chance, 20, 500))),
        "AND of four": lambda chance: Search("all", "count", some(chance, 4, 30)),
        "`+a -b`": lambda chance: Search("all", "count", (word(chance, 0, 100), "-" + word(chance, *frequent))),
        "`a b`": lambda chance: Search("any", "count", some(chance, 2, 100)),
        "OR of ten": lambda chance: Search("any", "count", some(chance, 10, 500)),
        "OR of ten thin": lambda chance: Search("any", "count", some(chance, 10, 5_000, 500)),
        "`+common -thin`": lambda chance: Search("all", "count", (word(chance, *frequent), "-" + word(chance, *thin))),
        "`+(a b) -c`, b thin": lambda chance: Search(
            "clauses", "count", (f"+({word(chance, *frequent)} {word(chance, *thin)})", "-" + word(chance, *frequent))),
        "`+word +range`": lambda chance: Search("clauses", "count", ("+" + word(chance, *frequent), priced(chance))),
        "`+thin +range`": lambda chance: Search("clauses", "count", ("+" + word(chance, *thin), priced(chance))),
        "`+word +temp:N`": lambda chance: Search("clauses", "count", ("+" + word(chance, *frequent), f"+temp:{temp(chance)}")),
        "phrase": lambda chance: Search("phrase", "count", some(chance, 2, 10)),
        "range, a tenth": lambda chance: Search("range", "count", prices(chance, tenth)),
        "range, ten documents": lambda chance: Search("range", "count", prices(chance, 10 * corpus.PRICES // documents)),
        "keyword range, a tenth": lambda chance: Search("tags", "count", tags(chance, corpus.TAGS // 10)),
        "groups": lambda chance: Search("any", "groups temp", (word(chance, *frequent),)),
        "groups, `+a +range`": lambda chance: Search("clauses", "groups temp", ("+" + word(chance, *frequent), priced(chance))),
        "groups by keyword": lambda chance: Search("any", "groups tag", (word(chance, *frequent),)),
        "top 10": lambda chance: Search("any", "price falling", (word(chance, *frequent),)),
        "top 10 over a range": lambda chance: Search("range", "temp rising", prices(chance, tenth)),
        "top 10 over everything": lambda chance: Search("every", chance.choice(("price falling", "price rising")), ()),
    }


# What each kind of `kinds` asks, as docs/MEASURED.md says it.
ASKED = {
    "term": "one of the 200 most frequent words",
    "absent term": "a word that no document has",
    "rare term": "a word that about ten documents have",
    "keyword": "one of the 1,000 keywords",
    "`+a +b`": "one of the 20 most frequent words and one of the next 480 (AND)",
    "AND of four": "four of the 30 most frequent words",
    "`+a -b`": "a word of the 100 most frequent, and not one of the 20 most frequent",
    "`a b`": "either of two of the 100 most frequent words (OR)",
    "OR of ten": "any of ten of the 500 most frequent words",
    "phrase": "`\"a b\"`, two of the ten most frequent words side by side",
    "range": "a number between two bounds: a tenth of the documents, or ten of them",
    "keyword range": "a keyword between two bounds: a tenth of the documents",
    "groups": "one of the 20 most frequent words, by the value of the `i64` (facets)",
    "groups by keyword": "one of these words, by the keyword",
    "top 10": "one of these words, and the ten with the greatest `u64`",
    "top 10 over a range": "a number in a range, and the ten with the least `i64`",
    "top 10 over everything": "anything, and the ten with the least or greatest `u64`",
}


def table_of_kinds() -> str:
    """`ASKED` as Markdown."""
    return "\n".join(["|kind|how many documents have|", "|---|---|", *(f"|{kind}|{asked}|" for kind, asked in ASKED.items())])


def drawn(documents: int, count: int, seed: int = 3) -> dict[str, list[Search]]:
    """So many searches of each kind."""
    return {kind: [make(random.Random(f"{seed} {kind} {number}")) for number in range(count)] for kind, make in kinds(documents).items()}
