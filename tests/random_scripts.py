"""Scripts that only look random: a seed gives one script, always the same."""
from __future__ import annotations

import json
import random
from typing import Any

WORDS = ["a", "b", "c", "Rust", "rust", "straße", "STRASSE", "index"]
TAGS = ["p", "q", "r s", "Rust", "", "é", "😀"]
LONG = "y" * 40
BOUNDS = ["p", "q", "r", "Rust", "*", "z", "é", "～", "pp"]
SCHEMA = {"schema": [
    {"name": "title", "kind": "text", "default": True}, {"name": "tag", "kind": "keyword", "default": True},
    {"name": "price", "kind": "u64"}, {"name": "temp", "kind": "i64"},
]}
# First and last of some characters of each class.
RANGES = [
    (0x00, 0x1F), (0x20, 0x7E), (0x80, 0xFF), (0x100, 0x24F), (0x300, 0x36F), (0x370, 0x3FF), (0x400, 0x4FF), (0x5D0, 0x5EA),
    (0x660, 0x669), (0x900, 0x97F), (0x1E00, 0x1EFF), (0x2000, 0x206F), (0x2150, 0x218B), (0x2190, 0x22FF), (0x2460, 0x249B),
    (0x3040, 0x30FF), (0x4E00, 0x4EFF), (0xAC00, 0xACFF), (0xFB00, 0xFB06), (0xFF10, 0xFF5A), (0x10140, 0x10174), (0x10400, 0x1044F),
    (0x1D400, 0x1D4FF), (0x1F300, 0x1F5FF), (0xE0100, 0xE01EF), (0x10FFFE, 0x10FFFF),
]
BAD = ['{"add":', '{"add":{"colour":1}}', '{"add":{"price":-1}}', '{"drop":true}', '{"delete":{"temp":"x"}}', json.dumps(SCHEMA), "", "[]"]


def words(chance: random.Random, most: int) -> str:
    return " ".join(chance.choice(WORDS) for _ in range(chance.randint(1, most)))


def document(chance: random.Random) -> dict[str, Any]:
    made: dict[str, Any] = {}
    if chance.random() < 0.6:
        made["title"] = words(chance, 5)
    elif chance.random() < 0.75:
        made["title"] = [chance.choice([words(chance, 3), words(chance, 3), "", "!", LONG, f"a {LONG}"]) for _ in range(chance.randint(0, 4))]
    if chance.random() < 0.6:
        made["tag"] = chance.choice(TAGS)
    if chance.random() < 0.7:
        made["price"] = chance.randrange(6)
    if chance.random() < 0.7:
        made["temp"] = chance.randrange(-3, 4)
    return made


def query(chance: random.Random, depth: int) -> str:
    kind = chance.randrange(9 if depth > 0 else 5)
    if kind == 0:
        return f'"{words(chance, 3)}"' if chance.random() < 0.7 else f'"{chance.choice(WORDS)} {LONG} {chance.choice(WORDS)}"'
    if kind == 1:
        low, high = sorted((chance.randrange(-3, 4), chance.randrange(-3, 4)))
        return chance.choice([f"temp:[{low} TO {high}]", f"temp:{{{low} TO *]", f"temp:>={low}", f"price:<{high + 3}", "price:[* TO *]"])
    if kind == 2 and chance.random() < 0.4:
        first, last = chance.choice(BOUNDS), chance.choice(BOUNDS)
        return chance.choice([
            f"tag:[{first} TO {last}]", f"tag:{{{first} TO {last}]", f"tag:[{first} TO {last}}}", f"tag:>{last}", f"tag:<={first}",
        ])
    if kind == 2:
        return chance.choice(["*", "tag:p", 'tag:"r s"', "price:3", "temp:-1", f"title:{chance.choice(WORDS)}"])
    if kind < 5:
        return chance.choice(WORDS)
    parts = [query(chance, depth - 1) for _ in range(chance.randint(2, 3))]
    if kind == 5:
        return "(" + " AND ".join(parts) + ")"
    if kind == 6:
        return "(" + " OR ".join(parts) + ")"
    return "(" + " ".join(chance.choice(["", "", "+", "-"]) + part for part in parts) + ")"


def search(chance: random.Random) -> dict[str, Any]:
    asked: dict[str, Any] = {"query": query(chance, 3) if chance.random() < 0.95 else chance.choice(["rust OR", "(a", "colour:a", 'title:"'])}
    if chance.random() < 0.4:
        asked["groups"] = chance.choice(["price", "temp", "tag"])
    if chance.random() < 0.4:
        asked["top"] = {"by": chance.choice(["price", "temp"]), "k": chance.randint(1, 6), "order": chance.choice(["rising", "falling"])}
    return {"search": asked}


def command(chance: random.Random) -> dict[str, Any]:
    kind = chance.randrange(100)
    if kind < 55:
        return {"add": document(chance)}
    if kind < 67:
        return {"delete": chance.choice([
            {"title": chance.choice(WORDS).lower()}, {"tag": chance.choice(TAGS)}, {"price": chance.randrange(6)}, {"temp": chance.randrange(-3, 4)},
        ])}
    if kind < 69:
        return {"delete_all": True}
    if kind < 82:
        return {"commit": True}
    if kind < 85:
        return {"rollback": True}
    if kind < 88:
        return {"merge": True}
    return search(chance)


def script(seed: int) -> bytes:
    chance = random.Random(seed)
    lines = [json.dumps(SCHEMA)]
    for _ in range(chance.randint(10, 60)):
        lines.append(chance.choice(BAD) if chance.random() < 0.05 else json.dumps(command(chance)))
    lines.append(json.dumps({"commit": True}))
    lines += [json.dumps(search(chance)) for _ in range(8)]
    return "\n".join(lines).encode()


def updates(seed: int) -> bytes:
    """A script of many small commits of updates by a keyword, so that segments of several sizes and with many dead documents are merged."""
    chance = random.Random(f"updates {seed}")
    keys, each = chance.choice([3, 20, 60]), chance.choice([1, 1, 3, 10])
    lines = [json.dumps(SCHEMA)]
    for _ in range(chance.randint(20, 120)):
        for _ in range(chance.randint(1, each)):
            key = f"k{chance.randrange(keys)}"
            lines += [json.dumps({"delete": {"tag": key}}), json.dumps({"add": {**document(chance), "tag": key}})]
        lines.append(json.dumps(chance.choices([{"commit": True}, {"rollback": True}, {"delete_all": True}, {"merge": True}], [90, 5, 1, 4])[0]))
        if chance.random() < 0.2:
            lines.append(json.dumps({"search": {"query": f"tag:k{chance.randrange(keys)}", "groups": "price"}}))
    lines.append(json.dumps({"commit": True}))
    lines += [json.dumps(search(chance)) for _ in range(8)]
    return "\n".join(lines).encode()


def strange(chance: random.Random) -> str:
    """A character of any class: letters of many scripts, numbers, marks, signs, spaces, controls, and beyond the first plane."""
    first, last = chance.choice(RANGES)
    return chr(chance.randint(first, last))


def damaged(seed: int) -> bytes:
    """A script with texts of every class of character, of which bytes are flipped and lines are cut, doubled and moved."""
    chance = random.Random(f"damaged {seed}")
    lines = script(seed).split(b"\n")
    for _ in range(chance.randint(0, 6)):
        text = "".join(strange(chance) for _ in range(chance.randint(1, 45)))
        made = chance.choice([
            {"add": {"title": f"a {text} b"}}, {"add": {"tag": text}}, {"delete": {"title": text}}, {"delete": {"tag": text}},
            {"search": {"query": text}}, {"search": {"query": f'title:"{text}"'}}, {"search": {"query": f'tag:"{text}" OR a'}},
        ])
        lines.insert(chance.randrange(1, len(lines)), json.dumps(made, ensure_ascii=chance.random() < 0.3).encode())
    for _ in range(chance.randint(0, 3)):
        at = chance.randrange(len(lines))
        line = lines[at]
        kind = chance.randrange(5)
        if kind == 0:
            lines.insert(at, line)
        elif kind == 1:
            lines[at] = line[:chance.randint(0, len(line))]
        elif kind == 2:
            lines.insert(chance.randrange(len(lines)), lines.pop(at))
        elif kind == 3:
            lines[at] = b" \t\r"[:chance.randint(0, 3)] + line + b"\r"
        elif line:
            place = chance.randrange(len(line))
            lines[at] = line[:place] + bytes([line[place] ^ 1 << chance.randrange(8)]) + line[place + 1:]
    return b"\n".join(lines) + b"\n" * chance.randint(0, 2)
