#!/usr/bin/env python3
"""Runs a script over several processes of `fts run`, each with the documents of some keys, and joins their answers.

    python3 examples/sharded/sharded.py --key isbn 'ssh one fts run' 'ssh two fts run' < script.jsonl

Each argument is the command of a shard. An add goes to the shard of its key, and so does a delete by the key; every
other line goes to all shards. docs/SCALE.md says what the joined answers mean.

    python3 examples/sharded/sharded.py --key isbn --split 4 part < script.jsonl
    python3 examples/sharded/sharded.py --key isbn --join part.*.replies < script.jsonl

The first writes the lines of each shard into part.0.jsonl and so on, for a runner of batches; the second joins what
they replied.
"""
from __future__ import annotations

import argparse
import contextlib
import json
import pathlib
import queue
import shlex
import subprocess
import sys
import threading
import zlib
from collections.abc import Iterable, Iterator, Sequence
from typing import IO, Any, NamedTuple, Optional

sys.path.insert(0, str(pathlib.Path(__file__).resolve().parents[2] / "bindings/python"))

from dilforec import joins  # noqa: E402


class Line(NamedTuple):
    """A line of the script that isn't blank, with its command and the shards that it goes to."""

    number: int
    text: bytes
    name: str
    value: Any
    shards: list[int]


class Router:
    """Says which shards a line goes to."""

    def __init__(self, key: str, count: int) -> None:
        self.key, self.all = key, list(range(count))

    def lines(self, script: Iterable[bytes]) -> Iterator[Line]:
        for number, text in enumerate(script, 1):
            text = text.rstrip(b"\n")
            if text.strip(b" \t\r"):
                name, value = command_of(text)
                yield Line(number, text, name, value, self.shards_of(name, value))

    def shards_of(self, name: str, value: object) -> list[int]:
        if name == "schema":
            self.refuse_text_key(value)
        if isinstance(value, dict) and (name == "add" or name == "delete" and self.key in value):
            # This depends on the value alone: the same in each run, and in each language that has CRC-32.
            return [zlib.crc32(json.dumps(value.get(self.key)).encode()) % len(self.all)]
        return self.all

    def refuse_text_key(self, fields: object) -> None:
        """A delete by a word of a text would have to reach documents of every shard."""
        if isinstance(fields, list) and any(field.get("name") == self.key and field.get("kind") == "text"
                                            for field in fields if isinstance(field, dict)):
            raise SystemExit(f"sharded: the key {self.key} is a text; take a keyword or a number")


def command_of(text: bytes) -> tuple[str, Any]:
    """The name and the value of a line's command. What is none goes to all shards, and each refuses it."""
    try:
        ((name, value),) = json.loads(text).items()
        return name, value
    except (AttributeError, RecursionError, ValueError):
        return "", None


def joined(line: Line, replies: list[dict[str, Any]]) -> dict[str, Any]:
    """One reply to a line, from those of its shards."""
    refusals = {shard: reply["error"] for shard, reply in zip(line.shards, replies) if "error" in reply}
    if refusals:
        refusal = {"error": next(iter(refusals.values())), "line": line.number}
        return refusal if len(refusals) == len(replies) else {**refusal, "shards": list(refusals)}
    if line.name == "search":
        return joins.answer(line.value, replies, [{"shard": shard} for shard in line.shards])
    if line.name == "schema":
        return replies[0]
    if line.name == "merge":
        return {"merged": sum(reply["merged"] for reply in replies)}
    if len(replies) == 1:
        return {"shard": line.shards[0], **replies[0]}
    # Each shard draws its own stamps, so there is one for each.
    return {word: [reply[word] for reply in replies] for word in replies[0]}


def write_replies(lines: Iterable[Line], replies: Sequence[IO[bytes]], out: IO[bytes]) -> bool:
    """Writes the joined reply to each line, up to the first that lacks one. `replies` has a stream for each shard."""
    for line in lines:
        told = [replies[shard].readline() for shard in line.shards]
        if not all(told):
            return False
        out.write(joins.encoded(joined(line, [json.loads(text) for text in told])))
        out.flush()
    return True


def ask(router: Router, commands: list[list[str]], script: Iterable[bytes], out: IO[bytes]) -> list[int]:
    """Sends each line to its shards, and meanwhile writes the joined replies. Answers the statuses of the shards."""
    shards = [subprocess.Popen(command, stdin=subprocess.PIPE, stdout=subprocess.PIPE) for command in commands]
    sent: queue.SimpleQueue[Optional[Line]] = queue.SimpleQueue()
    # Both are pipes.
    asked = [shard.stdin for shard in shards if shard.stdin]
    told = [shard.stdout for shard in shards if shard.stdout]

    def join() -> None:
        try:
            write_replies(iter(sent.get, None), told, out)
        finally:
            # If this ends early, the shards' next writes fail and so do ours to them; nobody waits for ever.
            for replies in told:
                replies.close()

    joining = threading.Thread(target=join)
    joining.start()
    try:
        for line in router.lines(script):
            for shard in line.shards:
                asked[shard].write(line.text + b"\n")
                asked[shard].flush()
            # Only now that each of its shards has the line may its replies be waited for.
            sent.put(line)
    except BrokenPipeError:
        pass  # Its status says why the shard ended.
    finally:
        sent.put(None)
        for lines in asked:
            with contextlib.suppress(BrokenPipeError):
                lines.close()
        joining.join()
    return [shard.wait() for shard in shards]


def split(router: Router, front: str, script: Iterable[bytes]) -> None:
    """Writes the script of each shard."""
    with contextlib.ExitStack() as stack:
        parts = [stack.enter_context(open(f"{front}.{shard}.jsonl", "wb")) for shard in router.all]
        for line in router.lines(script):
            for shard in line.shards:
                parts[shard].write(line.text + b"\n")


def main() -> None:
    parser = argparse.ArgumentParser(description=__doc__, formatter_class=argparse.RawDescriptionHelpFormatter)
    parser.add_argument("shards", nargs="*", metavar="COMMAND", help="runs a shard; with --join, a file of its replies")
    parser.add_argument("--key", required=True, help="the keyword or number field by which documents are shared out")
    parser.add_argument("--split", nargs=2, metavar=("SHARDS", "FRONT"), help="write the script of each shard instead")
    parser.add_argument("--join", action="store_true", help="join replies that are in files instead")
    words = parser.parse_args()
    script, out = sys.stdin.buffer, sys.stdout.buffer
    if words.split:
        return split(Router(words.key, int(words.split[0])), words.split[1], script)
    if not words.shards:
        parser.error("no shard: give the command of each, such as 'fts run', or with --join the file of each")
    router = Router(words.key, len(words.shards))
    if words.join:
        with contextlib.ExitStack() as stack:
            replies = [stack.enter_context(open(name, "rb")) for name in words.shards]
            if not write_replies(router.lines(script), replies, out):
                raise SystemExit("sharded: a shard replied to fewer lines than it was sent")
    else:
        statuses = ask(router, [shlex.split(command) for command in words.shards], script, out)
        if any(statuses):
            raise SystemExit(f"sharded: the shards ended with the statuses {statuses}")


if __name__ == "__main__":
    main()
