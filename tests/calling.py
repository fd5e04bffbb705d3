#!/usr/bin/env python3
"""Writes crates/dilforec/CALLING.md: what is said there by hand, a whole program, and the contracts of the calls.

    tests/calling.py          writes the page
    tests/calling.py --check  compares it, and says 'N passed, M failed'

The program is crates/example_index, which the merge gate proves and runs; contracts are quoted from the sources.
"""
from __future__ import annotations

import pathlib
import re
import sys
from collections.abc import Iterator

from counts import Counts

CRATES = pathlib.Path(__file__).resolve().parents[1] / "crates"
PAGE = CRATES / "dilforec/CALLING.md"

# The calls that are quoted: a source, and the names of its functions, with the type that they belong to.
QUOTED = (
    ("fts_model/src/schema.rt", ("Schema::new", "Schema::field", "Schema::fields")),
    ("fts_model/src/document.rt", ("Document::from_json", "Document::value", "Document::to_json")),
    ("fts_model/src/operation.rt", ("Term::new",)),
    ("fts_model/src/query.rt", ("Request::new",)),
    ("fts_query/src/parser.rt", ("parse",)),
    ("fts_index/src/writer.rt", ("Writer::new", "Writer::open_round", "Writer::commit", "Writer::abandon", "Writer::searcher",
                                 "Writer::reader", "Writer::segments", "Writer::plan", "Writer::merge", "Writer::begin_merge",
                                 "Writer::end_merge", "Writer::close")),
    ("fts_rounds/src/lane.rt", ("Lane::submit", "Lane::end")),
    ("fts_rounds/src/round.rt", ("Round::gather",)),
    ("fts_index/src/publications/reader.rt", ("Reader::searcher", "Reader::told")),
    ("fts_index/src/publications/searcher.rt", ("Searcher::commit_stamp", "Searcher::search",)),
    ("fts_snapshots/src/merges/merge_job.rt", ("MergeJob::run",)),
    ("fts_script/src/run.rt", ("run_script",)),
)

HEAD = """\
# Calling `dilforec`

The index from Rattle: list `dilforec serde_json` in the crate's line of crates.txt, and the kit's own libraries as you need
them. It has the model of Tantivy: a writer, operations with stamps, commits, searchers of one commit, `delete_term`, merges,
fields with columns, a query language. What differs at a call:

- In another repository `python3 tests/another_repository.py FOLDER` makes a beginning: it copies the crates that `dilforec`
  stands on, with their lines of crates.txt, HANDLES, and the program below. HANDLES has to allow `Threads, Wait`. `may_wait` in a
  line is how many functions may wait, which `rt verdict` prints.
- Every call that may allocate takes the allocator and answers a `Result`. `Refusal::Memory` leaves everything as it was, and
  the call can be made again.
- Operations go into *lanes*. `Writer::open_round` gives up to 64 of them, each for a thread of its own; `Round::gather` puts
  their ends back together in the order of their stamps, and `Writer::commit` takes that batch. What was not committed is
  given up by `Writer::abandon` or left with its round; the batch of a refused commit can be committed again.
- A commit says how its adds are cut into segments (`Cut`), how many threads it takes (`workers`, 1 to 64), and a `Gate`, which
  is called before and after each job; `Open` does nothing. Answers don't depend on any of them.
- A `Searcher` goes on answering for its commit, whatever the writer does. `Writer::searcher` makes one of the last commit.
  `Writer::reader` gives one of 64 places for readers that other threads keep: `Reader::searcher` answers for the newest commit
  that the reader knows, and waits for nobody; `Reader::told` tells it of one that another thread has seen.
- A writer is ended by `Writer::close`, since it has threads' places to give back.
- A merge is made in one call (`Writer::merge`), or begun, run in any thread and ended later (`Writer::begin_merge`,
  `MergeJob::run`, `Writer::end_merge`); what was deleted meanwhile is deleted in what it made.
- A document has at most one value per keyword or number field, text fields also lists; `null` is no value. There are no scores:
  a search answers the count, one field's groups, and the k least or greatest by a field, ties by stamp.
- A function of your own with a `Query` among its arguments or results wants `fts_model` in the crate's line too, and
  `use fts_model::Query`: the prover looks for that type's own crate.
- `dilforec::script::run_script` runs a script of JSON lines over an engine (`IndexEngine`, `LocalEngine` in one thread,
  `ListEngine`, a plain list) and any `ScriptIn` and `ScriptOut`; crates/example_script has streams of its own.

`searcher.snapshot().schema()` is the schema that a query is parsed under. Queries and requests that were made under a schema
fit it; that they do is a condition of `Searcher::search`, as is that a document fits its schema of `Lane::submit`'s batch.
A proof speaks of what is found by `content_of` of a snapshot, `hits` and `answer`, and of a writer by its `front`.

"""

QUOTE = """\
## Contracts

These are quoted from the sources, as the kit's libraries do: `S` is what `self` points to at the call, and `S'` at the return.
`specs/` hands on the definitions of the words; docs/DEFINITIONS.md says them in a line each.

"""


def short(clause: str) -> str:
    """A clause with `self` as S, on one line."""
    text = re.sub(r"\s+", " ", clause).strip()
    return re.sub(r"\bself\.new\b", "S'", re.sub(r"\bself\.(?:old|now)\b", "S", text))


def calls(text: str) -> Iterator[tuple[str, str, list[str]]]:
    """The public functions of a source: a name, the signature, and the clauses."""
    for block in re.finditer(r"^(?:impl(?:<[^{]*?>)? (\w+)(?:<[^{]*?>)? \{\n(.*?)^\}|pub fn .*?^\{)", text, re.M | re.S):
        owner, body = block[1], block[2] or block[0] + "\n"
        edge = "    " if owner else ""
        for found in re.finditer(rf"^{edge}pub fn (\w+)(.*?)(?:^{edge}| )\{{\n", body, re.M | re.S):
            said = "\n".join(line for line in found[2].splitlines() if not line.strip().startswith("//"))
            head, *clauses = re.split(rf"^{edge}    (?=requires|ensures)", said, flags=re.M)
            name = f"{owner}::{found[1]}" if owner else found[1]
            lines = []
            for clause in clauses:
                shape = re.fullmatch(r"(requires|ensures)(\*?)(?: (\w+))? \{ (.*) \}", short(clause))
                if shape:
                    lines.append(f"{shape[1]}{shape[2]}{' ' + shape[3] if shape[3] else ''}: {shape[4]}")
                else:
                    lines.append(short(clause))
            signature = re.sub(r"\( ", "(", re.sub(r",? \)", ")", short(head)))
            yield name, f"fn {name}{signature}", lines


def contracts() -> str:
    """The quoted calls, as the kit's own pages have them."""
    said = []
    for source, names in QUOTED:
        there = {name: (signature, clauses) for name, signature, clauses in calls((CRATES / source).read_text(encoding="utf-8"))}
        for name in names:
            if name not in there:
                sys.exit(f"{source} has no public {name}")
            signature, clauses = there[name]
            said += [signature, *(f"  {it}" for it in clauses)]
    return "\n".join(said)


def page() -> str:
    program = (CRATES / "example_index/src/main.rt").read_text(encoding="utf-8")
    return f"{HEAD}## A caller\n\n```rust\n{program}```\n\n{QUOTE}```text\n{contracts()}\n```\n"


def main() -> int:
    if sys.argv[1:] != ["--check"]:
        PAGE.write_text(page(), encoding="utf-8")
        return 0
    counts = Counts("calling", quiet=True)
    counts.check(str(PAGE), PAGE.read_text(encoding="utf-8") == page(), "isn't what tests/calling.py writes")
    return counts.end()


if __name__ == "__main__":
    sys.exit(main())
