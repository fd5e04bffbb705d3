"""The first table of docs/MEASURED.md, which README.md has too: what matters to most users, beside FTS5 and Lucene."""
from __future__ import annotations

import re
from typing import Any, Callable, NamedTuple, Optional

from floor_table import number, table

COLUMNS = ("Dilforec", "FTS5", "Lucene")
# What the parts call the programs of the columns.
NAMES = ("fts", "FTS5", "Lucene")
Found = tuple[Optional[float], ...]


class Row(NamedTuple):
    """What is measured, the part that has it, how its numbers are found there, and what they mean for a user."""
    what: str
    part: str
    found: Callable[[Any], Found]
    means: str


def of_floor(kind: str) -> Callable[[Any], Found]:
    return lambda raw: tuple(raw["live"][kind].get(name) for name in NAMES)


def of_builds(member: str) -> Callable[[Any], Found]:
    return lambda raw: tuple(raw["programs"].get(name, {}).get(member) for name in NAMES)


def documents_a_second(raw: Any) -> Found:
    return tuple(seconds and raw["documents"] / seconds for seconds in of_builds("seconds")(raw))


def updates(raw: Any) -> Found:
    """The mean of commits of one update each."""
    one = raw["each"]["1"]
    return tuple(one[name]["times"][0] if name in one else None for name in ("Dilforec", "FTS5", "Lucene"))


def of_service(kind: str) -> Callable[[Any], Found]:
    def found(raw: Any) -> Found:
        row = re.search(rf"^\|{kind}, 16 clients\|([\d,]+)\|[^|]*\|[^|]*\|([\d,]+)\|", str(raw), re.MULTILINE)
        return (*(float(each.replace(",", "")) for each in row.groups()), None) if row else (None,) * len(NAMES)

    return found


ROWS = (
    Row("build: documents a second", "builds", documents_a_second,
        "An index made anew, as at each start, by one thread."),
    Row("memory: MB for 100,000 documents", "builds", of_builds("resident"),
        "What must fit into memory. All three are in memory here; Lucene's is that of its Java machine."),
    Row("count of a word, µs", "floor", of_floor("term"), "How many documents have a frequent word."),
    Row("two words, both (AND), µs", "floor", of_floor("`+a +b`"), "The usual query of two or more words."),
    Row("a phrase, µs", "floor", of_floor("phrase"),
        "Two frequent words side by side. This is the slowest kind: it looks at each document that has both."),
    Row("a range of numbers, µs", "floor", of_floor("range, a tenth"), "A filter by price or date that admits a tenth of the documents."),
    Row("facets, µs", "floor", of_floor("groups"), "A count for each value of a number field among the hits of a word."),
    Row("top 10 by a number, µs", "floor", of_floor("top 10"), "The first page of hits, newest or cheapest first, and how many there are."),
    Row("an update by key and its commit, µs", "updates", updates,
        "A change of one document within a program, committed at once, without a sync to a disk."),
    Row("the service: searches a second, 16 clients", "service", of_service("search"),
        "Requests over HTTP that one process answers, with facets and hits; in the second column, over FTS5."),
    Row("the service: posts a second, 16 clients", "service", of_service("post"),
        "Documents added over HTTP, each on disk before it is answered."),
)


def shown(kept: Callable[[str], dict[str, Any]]) -> str:
    """The table. A row whose part wasn't measured is left out."""
    rows = [[row.what, *(number(each) for each in row.found(kept(row.part)["raw"]))] for row in ROWS if kept(row.part)]
    return table(["", *COLUMNS], rows)


def meanings(kept: Callable[[str], dict[str, Any]]) -> str:
    """What each row means, and the commit that it was measured at."""
    return table(["row", "what it means for you", "measured at"], [
        [row.what, row.means, f"{kept(row.part)['commit']}, load {kept(row.part)['load'][0]:.1f}"] for row in ROWS if kept(row.part)])
