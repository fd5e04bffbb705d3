#!/usr/bin/env python3
"""Compares four shards with one process over all documents.

    python3 examples/sharded/test_sharded.py [PROGRAM]

PROGRAM is `fts`, that of README.md if none is given. Counts, groups and refusals must be those of the one process to
the byte; top lists must have its values, and its documents too if no two have one value. The last line is 'N passed,
M failed'.
"""
from __future__ import annotations

import json
import pathlib
import random
import re
import subprocess
import sys
import tempfile
from typing import Any

HERE = pathlib.Path(__file__).resolve().parent
ROOT = HERE.parents[1]
sys.path[:0] = [str(ROOT / "tests")]

import random_scripts  # noqa: E402
from counts import Counts  # noqa: E402

PROGRAM = str(pathlib.Path(sys.argv[1]).resolve()) if len(sys.argv) > 1 else str(ROOT / "crates/fts/out/fts")
SHARDED = [sys.executable, str(HERE / "sharded.py")]
RUN = [f"{PROGRAM} run"] * 4


def run(words: list[str], script: bytes, status: int = 0) -> bytes:
    done = subprocess.run(words, input=script, capture_output=True, timeout=300)
    assert done.returncode == status, (words, done.returncode, done.stderr)
    return done.stdout


def same_answers(script: bytes, key: str, with_documents: bool = False) -> list[dict[str, Any]]:
    """Compares the replies of four shards to a script with those of one process, and answers the joined ones."""
    whole, shards = (run(words, script).splitlines() for words in ([PROGRAM, "run"], [*SHARDED, "--key", key, *RUN]))
    assert len(whole) == len(shards), (len(whole), len(shards))
    for one, four in zip(whole, shards):
        alone, joined = json.loads(one), json.loads(four)
        if "top" in alone:
            assert told(alone, with_documents) == told(joined, with_documents), (one, four)
        elif alone.keys() & {"count", "error", "fields", "merged"}:
            assert one == four, (one, four)
        else:
            # Stamps are each shard's own; that a line was taken is the same.
            assert alone.keys() <= joined.keys(), (one, four)
    return [json.loads(reply) for reply in shards]


def told(answer: dict[str, Any], with_documents: bool) -> tuple[int, str, list[tuple[object, object]]]:
    hits = [(hit["value"], hit["doc"] if with_documents else None) for hit in answer["top"]]
    return answer["count"], json.dumps(answer.get("groups")), hits


def random_answers() -> None:
    for seed in range(60):
        same_answers(random_scripts.script(seed), ["tag", "price", "temp"][seed % 3])


def worked_answers() -> None:
    for path in (ROOT / "examples").glob("*.jsonl"):
        if not path.name.endswith(".replies.jsonl"):
            script = path.read_bytes()
            fields = next(json.loads(line)["schema"] for line in script.splitlines() if line.startswith(b'{"schema"'))
            same_answers(script, next(field["name"] for field in fields if field["kind"] != "text"))


def books(count: int) -> bytes:
    """A script of `count` books, some replaced by their keys, with searches. No two have one number."""
    chance = random.Random(count)
    lines: list[dict[str, Any]] = [{"schema": [
        {"name": "title", "kind": "text", "default": True}, {"name": "isbn", "kind": "keyword"},
        {"name": "shelf", "kind": "keyword"}, {"name": "number", "kind": "i64"},
    ]}]
    for number in range(count):
        isbn = f"{number % (count * 4 // 5):06}"
        lines += [{"delete": {"isbn": isbn}}, {"add": {
            "title": " ".join(chance.choice(random_scripts.WORDS) for _ in range(6)), "isbn": isbn,
            "shelf": f"s{chance.randrange(20)}", "number": (-1) ** number * number * 2**48,
        }}]
    lines.append({"commit": True})
    for query in ("rust", "+a +index", '"a b" OR straße', "*", "+shelf:[s1 TO s3] -b", "number:<0 c"):
        for order in ("rising", "falling"):
            top = {"by": "number", "k": 50, "order": order}
            lines.append({"search": {"query": query, "groups": "shelf", "top": top}})
    return "".join(json.dumps(line) + "\n" for line in lines).encode()


def whole_documents() -> None:
    answers = same_answers(books(2_000), "isbn", with_documents=True)[-12:]
    shards = {hit["shard"] for answer in answers for hit in answer["top"]}
    assert shards == {0, 1, 2, 3}, shards


def batches() -> None:
    """Splitting into files, running each and joining what they replied gives what the four live processes give."""
    script = books(500)
    with tempfile.TemporaryDirectory() as folder:
        run([*SHARDED, "--key", "isbn", "--split", "4", f"{folder}/part"], script)
        for shard in range(4):
            part = pathlib.Path(f"{folder}/part.{shard}.jsonl").read_bytes()
            pathlib.Path(f"{folder}/part.{shard}.replies").write_bytes(run([PROGRAM, "run"], part))
        parts = [f"{folder}/part.{shard}.replies" for shard in range(4)]
        joined = run([*SHARDED, "--key", "isbn", "--join", *parts], script)
    assert joined == run([*SHARDED, "--key", "isbn", *RUN], script)


def documented() -> None:
    """The script of docs/SCALE.md gives the replies that are beside it."""
    page = (ROOT / "docs/SCALE.md").read_text()
    blocks = re.findall(r"(?:^    .*\n)+", page[page.index("### The example"):], re.MULTILINE)
    script, told = (re.sub("^    ", "", block, flags=re.MULTILINE).encode() for block in blocks[1:3])
    assert run([*SHARDED, "--key", "isbn", *RUN], script) == told


def refusals() -> None:
    """No shard; a key that is a text; a shard that ends too early; replies that are missing."""
    script = books(2)
    run([*SHARDED, "--key", "isbn"], script, status=2)
    assert run([*SHARDED, "--key", "title", *RUN], script, status=1) == b""
    run([*SHARDED, "--key", "isbn", *RUN[:3], "false"], script, status=1)
    run([*SHARDED, "--key", "isbn", "--join", "/dev/null"], script, status=1)


def main() -> int:
    counts = Counts("sharded", quiet=True)
    for test in (random_answers, worked_answers, whole_documents, batches, documented, refusals):
        try:
            test()
            counts.check(test.__name__, True)
        except AssertionError as error:
            counts.check(test.__name__, False, error)
    return counts.end()


if __name__ == "__main__":
    sys.exit(main())
