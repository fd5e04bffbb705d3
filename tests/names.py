#!/usr/bin/env python3
"""Looks at the names of the crates' sources.

    python3 tests/names.py

A type's name has one owner. A file's first public item has its name: it is a type, or else a function whose name has the file's
words. Two lists excuse files, each for a reason. A comment doesn't begin with 'The same', 'Of' or a comma, since an editor shows
each alone. The last line is 'N passed, M failed'.
"""
from __future__ import annotations

import collections
import pathlib
import re
import sys

from counts import Counts

CRATES = pathlib.Path(__file__).resolve().parents[1] / "crates"

# Files of several functions or constants of one subject, which no single one names. A crate's root and a function that it hands
# on can't have the name of a module, so that a file of such a function has another word in its name.
OF_A_SUBJECT = {
    "fts_base": {"buffers", "ghosts", "pieces"},
    "fts_c": {"codes", "maintenance", "searchers"},
    "fts_cli": {"parser"},
    "fts_collect": {"collector", "searches", "walk"},
    "fts_cursor": {"any", "hit_sets", "list_union", "phrase", "query_tree", "term_lists"},
    "fts_engine_local": {"local_policy"},
    "fts_index": {"merges", "publications/left_right_rule", "publications/publication_log"},
    "fts_merge": {"live_strike", "merge_plan", "segment_merge"},
    "fts_model": {"limits", "operation", "value"},
    "fts_pack": {"bits/signed", "bits/widths", "column/value_counts", "four_lanes", "prefix_sums"},
    "fts_parts": {"order", "ranks"},
    "fts_postings": {"marks", "posting", "stretch"},
    "fts_query": {"depth", "error", "parser", "reader"},
    "fts_scan": {"answers", "matcher", "operations", "terms"},
    "fts_script": {"session/commands", "session/group_search", "streams"},
    "fts_segment": {"binary_search", "dictionary_merge", "segment_join", "term_merge", "token_log"},
    "fts_sets": {"retain", "rows"},
    "fts_snapshots": {"commits/batch_jobs", "entries/ids", "made_merges"},
    "fts_text": {"case_fold", "characters", "tokenizer"},
}
# Files whose item comes after what it is made of, types or functions that are smaller.
AFTER_ITS_PARTS = {
    "fts_cli": {"args"},
    "fts_engine_local": {"begun_merge"},
    "fts_model": {"answer", "document", "schema"},
    "fts_parts": {"lent", "tally", "top", "top_k"},
    "fts_pool": {"job_slot"},
    "fts_query": {"clauses", "input", "meaning"},
    "fts_rounds": {"lane", "stamps"},
    "fts_script": {"command/command", "session/blank", "session/print", "session/reply", "session/search"},
    "fts_segment": {"joining", "segment", "term_groups", "term_log"},
    "fts_snapshots": {"commits/commit_job"},
}
ITEM = re.compile(r"^(?:pub|pub\(crate\)|pub\(super\)) (?:const )?(fn|struct|enum|trait|type) (\w+)", re.MULTILINE)
MODULE = re.compile(r"^(?:pub |pub\(crate\) )?mod \w+;", re.MULTILINE)
OWNED = re.compile(r"^(?:pub |pub\(crate\) |pub\(super\) )?(?:struct|enum|trait|type) (\w+)", re.MULTILINE)
COMMENT = re.compile(r"\s*(?:///?|//!|--)\s*(.*)")
PART = re.compile(r"(?:the same|of)\b", re.IGNORECASE)


def snake(name: str) -> str:
    return re.sub(r"(?<=[a-z0-9])(?=[A-Z])", "_", name).lower()


def sources(pattern: str) -> dict[pathlib.Path, str]:
    return {path: path.read_text(encoding="utf-8") for path in sorted(CRATES.glob(pattern)) if "out" not in path.relative_to(CRATES).parts}


def has_name(stem: str, kind: str, name: str) -> bool:
    """Whether a public item has a file's name: a type has it, a function's name has its words."""
    words = snake(name)
    return set(stem.split("_")) <= set(words.split("_")) if kind == "fn" else words == stem


def named(excused: dict[str, set[str]]) -> set[str]:
    return {f"{crate}/{name}" for crate, names in excused.items() for name in names}


def files(counts: Counts) -> None:
    of_a_subject, after = named(OF_A_SUBJECT), named(AFTER_ITS_PARTS)
    for path, text in sources("fts*/src/**/*.rt").items():
        crate, _, *rest = path.relative_to(CRATES).with_suffix("").parts
        name = f"{crate}/{'/'.join(rest)}"
        if path.stem in ("lib", "main", "laws") or MODULE.search(text):
            continue
        found = [has_name(path.stem, *item) for item in ITEM.findall(text)]
        counts.check(name, any(found) != (name in of_a_subject), f"{name}.rt has no public item of its name, or is excused and has one")
        is_later = any(found) and not found[0]
        counts.check(name, is_later == (name in after), f"{name}.rt has another public item first, or is excused and has its own first")
        of_a_subject.discard(name)
        after.discard(name)
    for name in sorted(of_a_subject | after):
        counts.check(name, False, f"{name}.rt is excused, and isn't there")


def owners(counts: Counts) -> None:
    owned = collections.defaultdict(list)
    for path, text in sources("*/src/**/*.rt").items():
        for name in OWNED.findall(text):
            owned[name].append(str(path.relative_to(CRATES)))
    for name, paths in sorted(owned.items()):
        counts.check(name, len(paths) == 1, f"{name} has several owners: {', '.join(paths)}")


def part_of_sentence(text: str) -> str:
    """The first line of a comment that has no subject of its own, or that goes on after a comma; empty if there is none."""
    is_within = False
    for line in text.splitlines():
        found = COMMENT.match(line)
        if found and (found[1].startswith(",") or not is_within and PART.match(found[1])):
            return found[1]
        is_within = found is not None
    return ""


def comments(counts: Counts) -> None:
    for path, text in {**sources("*/src/**/*.rt"), **sources("*/specs/**/*.antt"), **sources("*/proofs/**/*.antt")}.items():
        part = part_of_sentence(text)
        counts.check(str(path.relative_to(CRATES)), not part, part and f"a comment begins {part!r}")


def main() -> int:
    counts = Counts("names", quiet=True)
    files(counts)
    owners(counts)
    comments(counts)
    return counts.end()


if __name__ == "__main__":
    sys.exit(main())
