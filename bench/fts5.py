"""SQLite's FTS5 in memory, with the columns in a table beside it, asked the searches of bench/searches.py."""
from __future__ import annotations

import sqlite3
import time
from typing import Iterable, Sequence

import corpus
from searches import TOP, Search


def is_there() -> bool:
    """Whether Python's SQLite was built with FTS5."""
    try:
        sqlite3.connect(":memory:").execute("create virtual table docs using fts5(body)")
    except sqlite3.OperationalError:
        return False
    return True


def match(search: Search) -> str:
    """The query in FTS5's language."""
    wanted = [f'"{part}"' for part in search.parts if part[0] != "-"]
    without = "".join(f' NOT "{part[1:]}"' for part in search.parts if part[0] == "-")
    return {"any": " OR ", "all": " AND ", "phrase": " + "}[search.form].join(wanted) + without


def clauses(search: Search) -> tuple[str, tuple[object, ...]]:
    """Where the hits of clauses come from, as `source_of` tells it: words by FTS5, prices and temperatures by the columns."""
    tests, wanted, without = ["docs match ?"], [], ""
    values: list[object] = []
    for clause in search.parts:
        field, colon, asked = clause[1:].partition(":")
        if field == "price":
            tests.append("price between ? and ?")
            values += map(int, asked.strip("[]").split(" TO "))
        elif colon:
            tests.append(f"{field} = ?")
            values.append(int(asked))
        else:
            words = "(" + " OR ".join(f'"{word}"' for word in field.strip("()").split()) + ")"
            if clause[0] == "+":
                wanted.append(words)
            else:
                without += f" NOT {words}"
    return f"from docs join columns on columns.rowid = docs.rowid where {' and '.join(tests)}", (" AND ".join(wanted) + without, *values)


def source_of(search: Search) -> tuple[str, tuple[object, ...]]:
    """Where the hits come from, and the values of the question marks in it."""
    if search.form == "clauses":
        return clauses(search)
    columns = {"range": "where price between ? and ?", "tag": "where tag = ?", "tags": "where tag between ? and ?", "every": ""}
    if search.form in columns:
        values = tuple(map(int, search.parts)) if search.form == "range" else search.parts
        return f"from columns {columns[search.form]}", values
    join = "" if search.asked == "count" else " join columns on columns.rowid = docs.rowid"
    return f"from docs{join} where docs match ?", (match(search),)


def statement(search: Search) -> tuple[str, tuple[object, ...]]:
    """The search in SQL. A top list comes without the number of hits, which would be a second statement."""
    first, _, second = search.asked.partition(" ")
    source, values = source_of(search)
    if first == "count":
        return f"select count(*) {source}", values
    if first == "groups":
        return f"select {second}, count(*) {source} group by {second} order by {second}", values
    order = "desc" if second == "falling" else "asc"
    return f"select {first}, columns.rowid {source} order by {first} {order}, columns.rowid limit {TOP}", values


def told(search: Search, rows: Sequence[tuple[object, ...]]) -> str:
    """The rows as the others write their answers; a top list without its count."""
    first = search.asked.partition(" ")[0]
    if first == "count":
        return str(rows[0][0])
    if first == "groups":
        return " ".join([str(sum(int(str(count)) for _, count in rows)), *(f"{value}:{count}" for value, count in rows)])
    return " ".join(f"{value}@{int(str(number)) - 1}" for value, number in rows)


class Table:
    def __init__(self, documents: Iterable[corpus.Document]) -> None:
        self.base = sqlite3.connect(":memory:")
        self.base.execute("create virtual table docs using fts5(body)")
        self.base.execute("create table columns (tag text, price integer, temp integer)")
        for document in documents:
            self.base.execute("insert into docs(body) values (?)", document[:1])
            self.base.execute("insert into columns values (?, ?, ?)", document[1:])
        self.base.execute("create index by_price on columns(price)")
        self.base.execute("create index by_tag on columns(tag)")
        self.base.commit()

    def delete(self, numbers: Sequence[int]) -> None:
        for table in ("docs", "columns"):
            self.base.executemany(f"delete from {table} where rowid = ?", ((number + 1,) for number in numbers))
        self.base.commit()

    def ask(self, searches: Sequence[Search]) -> tuple[list[str], float]:
        """The answers, and the microseconds of processor time of the statements."""
        statements = [statement(search) for search in searches]
        began = time.process_time()
        rows = [self.base.execute(*each).fetchall() for each in statements]
        took = (time.process_time() - began) * 1e6
        return [told(search, found) for search, found in zip(searches, rows)], took
