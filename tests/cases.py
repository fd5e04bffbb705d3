"""Writes the cases of crates/cases_segments. What a case says comes from worked examples and from the model in
tests/case_model.py, which shares nothing with the index.

With --check it writes them elsewhere, compares them with those that are there, and says 'N passed, M failed'."""
from __future__ import annotations

import filecmp
import json
import os
import sys
import tempfile
from collections.abc import Callable

import case_model
from case_model import GREATEST, HERE, Document, Match, Subject, Top, answer, error, named, tokens, within
from case_packing import write_packing
from case_queries import LONG, t, write_cursors, write_phrases, write_queries
from case_random import write_cuttings, write_generated, write_joins, write_walks
from case_words import write_words
from counts import Counts


def write_tokens() -> None:
    s = Subject("tokens")
    forty, thirty_nine = {"times": 40, "of": "x"}, {"times": 39, "of": "x"}
    s.case("An empty text has no token", "tokens", [], text="")
    s.case("Commas and spaces separate tokens, and capitals are folded", "tokens",
           [[0, "rust"], [1, "the"], [2, "book"]], text="Rust, the Book")
    s.case("A hyphen separates two tokens", "tokens", [[0, "foo"], [1, "bar"]], text="foo-bar")
    s.case("A dot separates a letter with a digit from a digit", "tokens", [[0, "v2"], [1, "0"]], text="v2.0")
    s.case("Each capital sigma is folded to the same small one, the last too", "tokens", [[0, "σοφοσ"]], text="ΣΟΦΟΣ")
    s.case("A span of 40 bytes is dropped and keeps its number", "tokens", [[0, "a"], [2, "b"]],
           text=["a ", forty, " b"])
    s.case("A span of 39 bytes is kept", "tokens", [[0, "a"], [1, "x" * 39], [2, "b"]], text=["a ", thirty_nine, " b"])
    s.case("Twenty letters of two bytes are 40 bytes, and dropped", "tokens", [], text=[{"times": 20, "of": "é"}])
    s.case("Nineteen letters of two bytes are 38 bytes, and kept", "tokens", [[0, "é" * 19]],
           text=[{"times": 19, "of": "é"}])
    s.case("A place says at which byte a span begins and ends", "places", [[0, 0, 4], [1, 6, 9], [2, 10, 14]],
           text="Rust, the Book")
    s.case("Places count bytes and not letters", "places", [[0, 0, 2], [1, 3, 5]], text="é ß")
    s.case("A text is folded behind what is there", "fold", "a σοφοσ", text="ΣΟΦΟΣ", behind="a ")
    s.write()


def write_schemas() -> None:
    s = Subject("schemas")

    def fault(sentence: str, names: list[str], name: str) -> None:
        s.case(sentence, "schema", {"error": name, "back": len(names)}, fields=named(names))

    def fine(sentence: str, names: list[str], kind: str = "text") -> None:
        s.case(sentence, "schema", [[name, kind, False] for name in names], fields=named(names, kind))

    fault("A schema has a field at least", [], "NoFields")
    fine("A name is of letters, digits and underscores, and doesn't begin with a digit", ["a", "_", "Z9_z"])
    fine("Only the very words AND, OR and NOT are no names", ["And", "or", "NOTE"])
    for sentence, bad in [("A name isn't empty", ""), ("A name doesn't begin with a digit", "9"),
                          ("A name has no hyphen", "a-b"), ("A name has no space", "a b"),
                          ("A name has no letter beyond ASCII", "é"), ("AND is no name", "AND"),
                          ("OR is no name", "OR"), ("NOT is no name", "NOT")]:
        fault(sentence, ["a", bad], "BadName")
    fault("A name stands once", ["a", "b", "a"], "NameTwice")
    fault("A name twice is told before a bad name behind it", ["a", "a", ""], "NameTwice")
    fault("A bad name is told before a name twice behind it", ["a", "", "a"], "BadName")
    fine("There may be 32 fields, with names of 1 to 32 bytes", ["a" * n for n in range(1, 33)], "u64")
    s.case("A 33rd field is one too many, before its name is looked at", "schema",
           {"error": "TooManyFields", "back": 33},
           fields=named(["a" * n for n in range(1, 34)], "u64"))
    fine("A name may have 32 bytes", ["a" * 32])
    fault("A name has no 33 bytes", ["a" * 33], "BadName")
    for kind, right in [("text", True), ("keyword", True), ("u64", False), ("i64", False)]:
        fields = [{"name": "a", "kind": kind, "default": True}]
        sentence = f"A {kind} field may be marked default" if right else f"A {kind} field may not be marked default"
        s.case(sentence, "schema", [["a", kind, True]] if right else {"error": "BadDefault", "back": 1}, fields=fields)
    two = [{"name": "title", "kind": "text", "default": True}, {"name": "price", "kind": "u64", "default": False}]
    s.case("A copy of a schema shows its fields in their order", "schema",
           [["title", "text", True], ["price", "u64", False]], fields=two)
    s.case("A field is found by its name, with its kind", "field", [1, "u64"], schema=two, name="price")
    s.case("No field is found by a name that none has", "field", None, schema=two, name="tag")
    s.write()


def write_documents() -> None:
    s = Subject("documents")

    def keeps(sentence: str, document: Document) -> None:
        s.case(sentence, "document", document, document=document)

    def raw(sentence: str, document: str, gives: str) -> None:
        s.raw('{"case":%s,"do":"document","document":%s,"gives":%s}' % (json.dumps(sentence), document, gives))

    def refuses(sentence: str, document: str, name: str) -> None:
        raw(sentence, document, json.dumps(error(name), separators=(",", ":")))

    keeps("A document may have no value", {})
    s.case("A null is no value", "document", {}, document={"price": None})
    keeps("A document keeps a value of each kind", {"price": 3, "tag": "a b", "temp": -1, "title": "T"})
    keeps("The greatest u64 is kept", {"price": GREATEST})
    keeps("The least i64 is kept", {"temp": -2**63})
    keeps("The greatest i64 is kept", {"temp": 2**63 - 1})
    keeps("Both ends of the number kinds come back together", {"price": GREATEST, "temp": -2**63, "title": "T"})
    raw("Of a key that stands twice the last value counts", '{"price":"x","price":1}', '{"price":1}')
    refuses("A list is no document", "[]", "NotAnObject")
    refuses("null is no document", "null", "NotAnObject")
    refuses("A name that the schema lacks is unknown", '{"nope":1}', "UnknownField")
    refuses("A name that the schema lacks is unknown, also with null", '{"nope":null}', "UnknownField")
    refuses("A u64 is not negative", '{"price":-1}', "WrongKind")
    refuses("A number with a point is no u64", '{"price":1.0}', "WrongKind")
    refuses("2 to the power of 64 is no u64", '{"price":18446744073709551616}', "WrongKind")
    refuses("A negative zero is no i64", '{"temp":-0}', "WrongKind")
    refuses("2 to the power of 63 is no i64", '{"temp":9223372036854775808}', "WrongKind")
    refuses("One below the least i64 is none", '{"temp":-9223372036854775809}', "WrongKind")
    refuses("A list is no signed number", '{"temp":[-1]}', "WrongKind")
    refuses("A number is no keyword", '{"tag":1}', "WrongKind")
    refuses("Of a key that stands twice the last value is refused", '{"price":1,"price":"x"}', "WrongKind")
    refuses("The first fault in the order of the names counts, and not in that of the text", '{"zzz":1,"price":-1}',
            "WrongKind")
    refuses("An unknown name before a wrong value in the order of names is told", '{"price":-1,"nope":1}',
            "UnknownField")
    for kind, field, most, name in [("keyword", "tag", 256, "KeywordTooLong"),
                                    ("text", "title", 1_048_576, "TextTooLong")]:
        s.case(f"A {kind} may have {most} bytes", "long_document", most, field=field, times=most)
        s.case(f"A {kind} has no {most + 1} bytes", "long_document", error(name), field=field, times=most + 1)
    other = named(["title", "tags"], "keyword")
    for sentence, document, fits in [("A document without values fits any schema", {}, True),
                                     ("A text fits a keyword field of its name and number", {"title": "a"}, True),
                                     ("A value doesn't fit a field of another name", {"tag": "a"}, False),
                                     ("A value doesn't fit where the field is missing", {"price": 1}, False)]:
        s.case(sentence, "fits", fits, document=document, fields=other)
    s.write()


def write_scan() -> None:
    s = Subject("scan")
    titles: Callable[[list[str]], list[Document]] = lambda texts: [{"title": text} for text in texts]

    def pattern(sentence: str, texts: list[str], members: list[list[object]], count: int) -> None:
        s.case(sentence, "pattern", count, documents=titles(texts), pattern=members)

    pattern("A span that is too long leaves its gap: b isn't next to a", LONG, [[0, "a"], [1, "b"]], 0)
    pattern("Both kinds of span keep b two after a", LONG, [[0, "a"], [2, "b"]], 2)
    pattern("A span of 39 bytes is a token of a phrase", LONG, [[0, "a"], [1, "x" * 39], [2, "b"]], 1)
    three = ["a b a b a", "foo-bar", "bar foo"]
    pattern("A phrase is found in the middle of a text", three, [[0, "a"], [1, "b"], [2, "a"]], 1)
    pattern("A token doesn't stand for two", three, [[0, "b"], [1, "b"]], 0)
    pattern("The order of a phrase counts", three, [[0, "foo"], [1, "bar"]], 1)
    pattern("Offsets may begin anywhere", three, [[5, "foo"], [6, "bar"]], 1)
    pattern("Offsets may go down", three, [[9, "b"], [8, "a"]], 1)
    pattern("Offsets that go down by two want two", three, [[9, "b"], [7, "a"]], 0)
    pattern("A phrase in the other order isn't found", ["Rust book"], [[1, "rust"], [0, "book"]], 0)
    ends = [{"price": 0}, {"price": GREATEST}]
    for sentence, query, count in [
            ("An open upper bound leaves the greatest out", f"price:[* TO {GREATEST}}}", 1),
            ("A range with no bounds has every value", "price:[* TO *]", 2),
            ("Nothing is above the greatest", f"price:>{GREATEST}", 0),
            ("The greatest is at least itself", f"price:>={GREATEST}", 1),
            ("An open lower bound leaves the least out", "price:{0 TO *]", 1)]:
        s.case(sentence, "scan", {"count": count}, documents=ends, query=query)
    temps = [{"temp": -2**63}, {"temp": -1}, {"temp": 0}, {"title": "none"}]
    rising = {"by": "temp", "k": 4, "order": "rising"}
    s.case("Groups and a top list rise over the signs, and a document without a value is in neither", "scan",
           {"count": 4, "groups": [[-2**63, 1], [-1, 1], [0, 1]], "top": [[1, -2**63], [2, -1], [3, 0]]},
           documents=temps, query="*", groups="temp", top=rising)
    five = [{"price": 5}] * 4
    for order in ["rising", "falling"]:
        s.case(f"Of equal values the first stamps come first, {order}", "scan",
               {"count": 4, "top": [[1, 5], [2, 5], [3, 5]]},
               documents=five, query="*", top={"by": "price", "k": 3, "order": order})
    some = [{"price": 3}, {"price": 7}, {"price": 3}, {"title": "none"}]
    s.case("A falling list begins with the greatest, and ends by its length", "scan",
           {"count": 4, "top": [[2, 7], [1, 3]]},
           documents=some, query="*", top={"by": "price", "k": 2, "order": "falling"})
    s.case("Equal values are one group, which counts them", "scan",
           {"count": 4, "groups": [[3, 2], [7, 1]], "top": [[2, 7], [1, 3]]},
           documents=some[:3] + [{}], query="*", groups="price", top={"by": "price", "k": 2, "order": "falling"})
    s.case("One document is one hit and one group", "scan", {"count": 1, "groups": [[30, 1]]},
           documents=[{"title": "Rust book", "price": 30}], query="*", groups="price")
    s.case("Groups by keywords rise by their bytes, from the empty one up", "scan",
           {"count": 6, "groups": [["", 1], ["a", 1], ["b", 2], ["é", 1]]}, documents=TAGGED, query="*", groups="tag")
    s.case("A keyword is before those that it begins", "scan", {"count": 3, "groups": [["a", 1], ["aa", 1], ["b", 1]]},
           documents=[{"tag": "b"}, {"tag": "aa"}, {"tag": "a"}], query="*", groups="tag")
    s.case("A range of keywords leaves out what has none", "scan", {"count": 5}, documents=TAGGED, query="tag:[* TO *]")
    add: Callable[[Document], object] = lambda d: {"add": d}
    delete: Callable[[str], object] = lambda t: {"delete": {"field": "title", "is": t}}
    x, rust = {"title": "x"}, {"title": "Rust"}
    s.case("A delete strikes what came before it, and not what comes after", "alive", [3],
           ops=[add(x), delete("x"), add(x)])
    s.case("A delete before everything strikes nothing", "alive", [2], ops=[delete("x"), add(x)])
    s.case("A delete of a capital strikes no folded token", "alive", [1], ops=[add(rust), delete("Rust")])
    s.case("A delete of the folded token strikes the capital", "alive", [], ops=[add(rust), delete("rust")])
    s.case("A delete of all strikes each document before it", "alive", [3], ops=[add(x), "delete_all", add({})])
    book = {"title": "Rust book"}
    term: Callable[[str, object], object] = lambda field, value: {"field": field, "is": value}
    s.case("A document has its tokens", "has", True, document=book, term=term("title", "rust"))
    s.case("A document has no token as it was written", "has", False, document=book, term=term("title", "Rust"))
    s.case("A term of a field that the schema lacks is refused before its value", "term", error("UnknownField"),
           term=term("none", None))
    s.case("A term is no null", "term", error("WrongKind"), term=term("title", None))
    s.case("A term fits its schema, and so does its delete", "term", True, term=term("title", "rust"))
    top: Callable[[str, int], Top] = lambda by, k: {"by": by, "k": k, "order": "rising"}
    s.case("A top list may have 10,000 hits", "request", True, groups="temp", top=top("price", 10_000))
    s.case("Groups may be by a keyword field", "request", True, groups="tag", top=top("price", 1))
    s.case("A top list by a keyword is refused before its length", "request", error("NotANumberField"), groups="tag",
           top=top("tag", 0))
    s.case("A top list has no 10,001 hits", "request", error("BadLimit"), top=top("price", 10_001))
    s.case("Groups by a text are refused before the top list", "request", error("NotANumberField"), groups="title",
           top=top("none", 0))
    s.case("An unknown field of a top list is refused before its length", "request", error("UnknownField"),
           top=top("none", 0))
    s.case("A top list by a text is refused before its length", "request", error("NotANumberField"),
           top=top("title", 0))
    s.case("A top list has a hit at least", "request", error("BadLimit"), top=top("price", 0))
    s.write()


TAGGED = [{"tag": "b"}, {"tag": "a"}, {"tag": "b"}, {}, {"tag": "é"}, {"tag": ""}]
EXAMPLE = [{"title": "a b a", "price": 4}, {"title": "b"}, {"tag": "a"}]


def word(text: str) -> dict[str, object]:
    return {"field": 0, "text": text}


def write_segments() -> None:
    s = Subject("segments")
    s.case("Three documents make a segment", "make", 3, documents=EXAMPLE, stamps=[3, 5, 9])
    for sentence, term, docs in [
            ("A word of one title is in one document", word("a"), [0]),
            ("A word of two titles is in two documents", word("b"), [0, 1]),
            ("A word of no title is in none", word("c"), []), ("The empty word is in none", word(""), []),
            ("A keyword is in its document", {"field": 1, "text": "a"}, [2]),
            ("A number is in its document", {"field": 2, "u64": 4}, [0]),
            ("A number that none has is in none", {"field": 2, "u64": 5}, []),
            ("A signed number of an unsigned field is in none", {"field": 2, "i64": 4}, []),
            ("A number of a text field is in none", {"field": 0, "u64": 4}, []),
            ("A text of a number field is in none", {"field": 2, "text": "4"}, []),
            ("A term of a field that the schema lacks is in none", {"field": 4, "text": "a"}, [])]:
        s.case(sentence, "postings", docs, term=term)
    for sentence, term, posting, places in [
            ("A word twice stands at both places", word("a"), 0, [0, 2]),
            ("A word once stands at its place", word("b"), 0, [1]),
            ("A word stands in its second document at the first place", word("b"), 1, [0]),
            ("Behind the last document a word stands nowhere", word("b"), 2, []),
            ("A keyword stands at the first place", {"field": 1, "text": "a"}, 0, [0]),
            ("A number stands nowhere", {"field": 2, "u64": 4}, 0, [])]:
        s.case(sentence, "positions", places, term=term, posting=posting)
    s.case("A price is in its document's place of the column, and the others have none", "column", [4, None, None],
           field=2)
    s.case("So is the ordinal of a tag", "column", [None, None, 0], field=1)
    s.case("A field that the schema lacks has no column", "column", None, field=4)
    s.case("A copy keeps the stamps", "stamps", [3, 5, 9])
    s.case("A segment of a merge is made of the same documents", "make", 3, documents=EXAMPLE, stamps=[3, 5, 9],
           merging=True)
    s.case("A document is kept with its stamp", "stored", {"stamp": 5, "document": {"title": "b"}}, doc=1)
    s.case("The last document has the last stamp", "stored", {"stamp": 9, "document": {"tag": "a"}}, doc=2)
    s.case("A document with numbers and one without are made", "make", 2, documents=[{"price": 4, "temp": -1}, {}])
    s.case("A text field has no column", "column", None, field=0)
    s.case("A u64 is kept as it is, and a missing one is missing", "column", [4, None], field=2)
    s.case("An i64 is kept as the u64 in its place", "column", [2**63 - 1, None], field=3)
    s.case("A negative number is found", "postings", [0], term={"field": 3, "i64": -1})
    s.case("Six documents are made of which five have a tag", "make", 6, documents=TAGGED)
    s.case("Of each document it is kept how many different tags are before its own", "column", [2, 1, 2, None, 3, 0], field=1)
    for sentence, field, ordinal, keyword in [
            ("The first ordinal is that of the empty tag", 1, 0, ""), ("A tag of two documents has one ordinal", 1, 2, "b"),
            ("The last ordinal is that of the last tag by bytes", 1, 3, "é"), ("No tag has an ordinal behind these", 1, 4, None),
            ("None has the greatest", 1, GREATEST, None), ("A text field has no keywords", 0, 0, None),
            ("A number field has none", 2, 0, None), ("A field that the schema lacks has none", 4, 0, None)]:
        s.case(sentence, "keyword", keyword, field=field, ordinal=ordinal)
    for sentence, text, between in [
            ("A tag stands between the ordinals before and behind it", "b", [2, 3]), ("So does the empty one", "", [0, 1]),
            ("A text between two tags stands before the next", "aa", [2, 2]), ("A text behind all stands behind them", "ê", [4, 4]),
            ("A text of 300 bytes may be asked for", "a" * 300, [2, 2]), ("The order is that of bytes", "😀", [4, 4])]:
        s.case(sentence, "equal_range", between, field=1, text=text)
    s.case("In a text field nothing stands between ordinals", "equal_range", None, field=0, text="b")
    tagged, bare = {"tag": "x"}, {"title": "y"}
    s.case("134 documents are made, of which the 6th, the 7th and the last have a tag", "make", 134,
           repeated=[{"times": 5, "of": [bare]}, {"times": 2, "of": [tagged]}, {"times": 126, "of": [bare]},
                     {"times": 1, "of": [tagged]}])
    s.case("A list with a gap comes back", "postings", [5, 6, 133], term={"field": 1, "text": "x"})
    s.case("129 documents of one tag are made", "make", 129, repeated=[{"times": 129, "of": [tagged]}])
    s.case("A list of one block and a document comes back", "postings", list(range(129)),
           term={"field": 1, "text": "x"})
    s.case("Its tag comes back from a list of two blocks", "keyword", "x", field=1, ordinal=0)
    empty: Callable[[int], object] = lambda times: [{"times": times, "of": [{}]}]
    s.case("A segment takes 65,536 documents", "make", 65_536, repeated=empty(65_536))
    s.case("A segment takes no 65,537th document", "make", error("SegmentFull"), repeated=empty(65_537))
    s.write()


DROPPED = "x" * 40
LISTED: list[Document] = [
    {"title": ["a b", "c"]}, {"title": ["!!!", "a"]}, {"title": [DROPPED, "a"]}, {"title": ["a", "!!", "b"]}, {"title": []}]
MORE_LISTED: list[Document] = [
    {"title": ["b", "a b"]}, {"title": "a b"}, {"title": ["b"]}, {"title": ["c", "c c"]}, {"title": ["a", "b c"]}]


def write_lists() -> None:
    s = Subject("lists")
    documents: list[tuple[str, Document, object]] = [
        ("A text field keeps a list of texts", {"title": ["a b", "c"]}, None),
        ("A list of one text is kept as a list", {"title": ["a"]}, None),
        ("Texts of a list may be empty and stand twice", {"title": ["", "a", "", "a"]}, None),
        ("Texts of a list are kept with quotes, breaks and characters outside of ASCII", {"title": ["\"\\\n", "é😀"]}, None),
        ("An empty list is no value", {"title": []}, {}),
        ("A number in a list is no text", {"title": ["a", 1]}, error("WrongKind")),
        ("A null in a list is no text", {"title": ["a", None]}, error("WrongKind")),
        ("A list in a list is no text", {"title": ["a", ["b"]]}, error("WrongKind")),
        ("A keyword is no list", {"tag": ["a"]}, error("WrongKind")),
        ("A keyword is no empty list", {"tag": []}, error("WrongKind")),
        ("A number is no list", {"price": [1]}, error("WrongKind"))]
    for sentence, document, gives in documents:
        s.case(sentence, "document", document if gives is None else gives, document=document)
    for kind, fits in [("text", True), ("keyword", False)]:
        s.case(f"A list {'fits a' if fits else 'fits no'} {kind} field", "fits", fits, document={"title": ["a", "b"]},
               fields=[{"name": "title", "kind": kind, "default": False}])
    s.case("A document has the tokens of each of its texts", "has", True, document={"title": ["Rust book", "!", "The end"]},
           term={"field": "title", "is": "end"})
    s.case("A document has no token of two texts", "has", False, document={"title": ["Rust", "book"]},
           term={"field": "title", "is": "rustbook"})
    s.case("A term is no list", "term", error("WrongKind"), term={"field": "title", "is": ["a"]})
    s.case("Five documents with lists make a segment", "make", 5, documents=LISTED, stamps=[1, 2, 3, 4, 5])

    def stands(sentence: str, documents: list[Document], text: str) -> None:
        places = [[place for place, run in tokens(document["title"]) if run == text] for document in documents]
        s.case(sentence, "all_positions", [at for at in places if at], term=word(text))

    stands("A first text begins at 0, behind one without a span too, and two behind a dropped span", LISTED, "a")
    stands("A text without a span between two changes nothing", LISTED, "b")
    stands("The second text begins two behind the last span of the first", LISTED, "c")
    for sentence, query, docs in [
            ("A phrase stands within a text", '"a b"', [0]), ("A phrase doesn't run into the next text", '"b c"', []),
            ("A phrase with the gap of a dropped span does", f'"b {DROPPED} c"', [0]),
            ("And over a text without a span", f'"a {DROPPED} b"', [3]), ("A word is found in each text of a list", "c", [0]),
            ("A document with an empty list is one of all", "*", [0, 1, 2, 3, 4])]:
        s.case(sentence, "found", docs, query=query)
    s.case("A delete strikes by a token of a list", "strike", [1, 2, 4],
           ops=[{"stamp": 9, "op": {"delete": {"field": "title", "is": "b"}}}])
    s.case("Five more documents make another", "make", 5, documents=MORE_LISTED, stamps=[6, 7, 8, 9, 10])
    stands("Words stand in a text and in lists", MORE_LISTED, "b")
    stands("A word that stands twice in a list", MORE_LISTED, "c")
    s.case("Lists and texts are merged in the order of their sources", "merged_postings", [0, 2, 3, 4], first=[0, 3],
           second=[1, 2, 4], term=word("b"))
    s.write()


def drawn(number: int, most: int) -> int:
    return ((number * 6364136223846793005 % 2**64) >> 33) % most if most else 0


def generated(stamp: int) -> Document:
    document: Document = {"title": ["a", "b", "a b", "c a b", "c"][drawn(stamp, 5)]}
    no_price, no_temp = drawn(stamp ^ 0x3333, 3) == 0, drawn(stamp ^ 0x4444, 4) == 0
    temp = drawn(stamp ^ 0x2222, 13) + 1
    if not no_price:
        document["price"] = drawn(stamp ^ 0x1111, 9)
    if not no_temp:
        document["temp"] = -temp if no_price else temp
    return document


def top(by: str, k: int, order: str) -> Top:
    return {"by": by, "k": k, "order": order}


ASKED: list[tuple[str, str, Match, str | None, Top | None]] = [
    ("every document by price", "*", lambda d: True, "price", top("price", 25, "rising")),
    ("every document by temp, the dearest first", "*", lambda d: True, "temp", top("price", 25, "falling")),
    ("a word by temp", "title:a", t("a"), "temp", top("temp", 9, "rising")),
    ("a word by temp, more than there are", "title:a", t("a"), "temp", top("temp", 1000, "falling")),
    ("two musts and a must-not by price", "+title:a +title:b -title:c", lambda d: t("a")(d) and t("b")(d)
     and not t("c")(d), "price",
     top("temp", 10_000, "rising")),
    ("one dearest of two musts and a must-not", "+title:a +title:b -title:c", lambda d: t("a")(d) and t("b")(d)
     and not t("c")(d), None,
     top("price", 1, "falling")),
    ("nothing", "", lambda d: False, "price", top("temp", 3, "rising")),
    ("a word that none has", "title:d", t("d"), None, None)]


def write_collectors() -> None:
    s = Subject("collectors")
    for cutting in range(3):
        parts = [[n for n in range(1, 401) if drawn(n ^ cutting * 0x7777, 5) == part] for part in range(5)]
        for part, stamps in enumerate(parts):
            live = [n for n in stamps if drawn(n ^ cutting * 0x9999, 4) > 0]
            parts[part] = live
            s.case(f"Cutting {cutting}: the live documents of segment {part} are made", "and_make" if part else "make",
                   len(live),
                   documents=[generated(n) for n in live], stamps=live)
        everything = [(n, generated(n)) for part in parts for n in part]
        for name, query, match, groups, wanted in ASKED:
            asked: dict[str, object] = {**({"groups": groups} if groups else {}), **({"top": wanted} if wanted else {})}
            s.case(f"Cutting {cutting}: five segments answer {name}", "answer",
                   answer(everything, match, groups, wanted), query=query, **asked)
    five = [{"price": 5}, {"price": 5}]
    for first, second in [([1, 3], [2, 4]), ([2, 4], [1, 3])]:
        s.case(f"A segment has the stamps {first}", "make", 2, documents=five, stamps=first)
        s.case(f"Another has the stamps {second}", "and_make", 2, documents=five, stamps=second)
        s.case(f"Ties stand in the order of stamps, {first[0]} first made", "answer",
               {"count": 4, "top": [[1, 5], [2, 5], [3, 5]]},
               query="*", top=top("price", 3, "rising"))
    write_top_lists(s)
    for zeros, apart in [(2, 23), (2, 24), (8_192, 65_535), (8_192, 65_536)]:
        prices = [{"times": zeros, "of": [{"price": 0}]}, {"times": 1, "of": [{"price": apart}]}]
        s.case(f"{zeros} prices of 0 and one of {apart} are made", "make", zeros + 1, repeated=prices)
        s.case(f"Beside {zeros} prices of 0 that of {apart} is a group of its own", "answer",
               {"count": zeros + 1, "groups": [[0, zeros], [apart, 1]]}, query="*", groups="price")
    for docs, blocks in [(128, 1), (129, 2), (1000, 8)]:
        s.case(f"{docs} common titles are made", "make", docs, repeated=[{"times": docs, "of": [{"title": "common"}]}])
        s.case(f"Each block of {docs} documents is opened once", "answer_openings", blocks, query="title:common")
    s.case("1000 common titles with prices from 0 on are made", "make", 1000,
           documents=[{"title": "common", "price": n} for n in range(1000)])
    for sentence, query, openings in [
            ("A range of three prices opens the list of each", "price:[5 TO 7]", 3),
            ("A word that bits tell opens no block beside the lists of a range", "+title:common +price:[5 TO 7]", 3),
            ("A range of four prices of 1000 is read from the column", "price:[5 TO 8]", 0)]:
        s.case(sentence, "answer_openings", openings, query=query)
    s.write()


def write_top_lists(s: Subject) -> None:
    """Top lists that end within a run of equal numbers, in a segment whose documents aren't in the order of their stamps."""
    words = [[word for word, every in (("a", 2), ("b", 3)) if n % every == 0] or ["c"] for n in range(400)]
    made = [(n * 37 % 400 + 1, {"title": " ".join(words[n]), "price": n // 10, "temp": n * 7 % 40}) for n in range(400)]
    s.case("400 documents out of the order of their stamps have each of 40 prices ten times", "make", 400,
           documents=[document for _, document in made], stamps=[stamp for stamp, _ in made])
    low: Match = lambda d: within(d, "temp", 0, 29)
    high: Match = lambda d: within(d, "temp", 10, 39)
    asked: list[tuple[str, str, Match]] = [
        ("all", "*", lambda d: True), ("a word", "title:a", t("a")),
        ("either word", "title:a OR title:b", lambda d: t("a")(d) or t("b")(d)),
        ("both words", "+title:a +title:b", lambda d: t("a")(d) and t("b")(d)),
        ("a word without another", "title:a -title:b", lambda d: t("a")(d) and not t("b")(d)),
        ("all without a word", "* -title:b", lambda d: not t("b")(d)), ("a range", "temp:[10 TO 39]", high),
        ("a word within a range", "+title:a +temp:[0 TO 29]", lambda d: t("a")(d) and low(d)),
        ("a range that nothing is in", "temp:[50 TO 60]", lambda d: False)]
    for whole in (True, False):
        live = [pair for n, pair in enumerate(made) if whole or n % 7]
        if not whole:
            s.case("A seventh of them is struck", "clear", len(live), docs=[n for n in range(400) if n % 7 == 0])
        for name, query, match in asked:
            for order in ("rising", "falling"):
                for k in (3, 14):
                    wanted = top("price", k, order)
                    s.case(f"The first {k} of {name}, {order}, {'all live' if whole else 'some struck'}", "answer",
                           answer(live, match, "temp" if k == 14 else None, wanted), query=query,
                           **({"groups": "temp"} if k == 14 else {}), top=wanted)


def write_merges() -> None:
    s = Subject("merges")
    s.case("Three documents are made at the stamps 3, 5 and 9", "make", 3, documents=EXAMPLE, stamps=[3, 5, 9])
    delete: Callable[[int, str, str], object] = lambda stamp, field, text: {"stamp": stamp, "op": {"delete": {"field": field, "is": text}}}
    everything: Callable[[int], object] = lambda stamp: {"stamp": stamp, "op": "delete_all"}
    for sentence, ops, live in [
            ("A delete strikes the documents of lower stamps", [delete(4, "title", "b")], [1, 2]),
            ("A later delete strikes both documents of the word", [delete(6, "title", "b")], [2]),
            ("A delete of a document's own stamp leaves it, and one of no document strikes none",
             [delete(9, "tag", "a"), delete(9, "title", "c")], [0, 1, 2]),
            ("Deletes of two fields strike together", [delete(10, "tag", "a"), delete(4, "title", "a")], [1]),
            ("The later of two deletes of all counts, wherever it stands", [everything(6), everything(2)], [2]),
            ("A delete of all leaves a document of its own stamp", [everything(9)], [2]),
            ("No delete strikes none", [], [0, 1, 2])]:
        s.case(sentence, "strike", live, ops=ops)
    s.case("Live documents come in the order of their sources", "merge", [[5, 0, 1], [9, 0, 2], [3, 1, 0]],
           first=[1, 2], second=[0])
    s.case("Sources in the other order give the other order", "merge", [[3, 0, 0], [5, 1, 1], [9, 1, 2]], first=[0],
           second=[1, 2])
    s.case("A word is found in the merged documents", "merged_postings", [0, 2], first=[1, 2], second=[0],
           term=word("b"))
    s.case("A word is found under the new numbers", "merged_postings", [0, 1], first=[0], second=[1, 2], term=word("b"))
    s.case("A merge of nothing live is empty", "merge", [], first=[], second=[])
    tagged: Callable[..., list[Document]] = lambda *tags: [{"tag": tag} for tag in tags]
    s.case("A segment has the tags a and c", "make", 2, documents=tagged("a", "c"))
    s.case("Their ordinals are 0 and 1", "column", [0, 1], field=1)
    s.case("Another has the tag b", "make", 1, documents=tagged("b"))
    s.case("Its ordinal is 0", "column", [0], field=1)
    s.case("One has the tags a, c and b", "make", 3, documents=tagged("a", "c", "b"))
    s.case("Behind a merge each has its ordinal among all", "merged_column", [0, 2, 1], first=[0, 1], second=[2], field=1)
    s.case("A tag that was struck takes none", "merged_column", [0, 1], first=[0, 1], second=[], field=1)
    s.case("A tag that both sources have has one", "merged_column", [1, 1, 0], first=[1], second=[1, 2], field=1)
    whole = [list(range(8))]
    two = [400_000 if n % 2 == 0 else 20_000 for n in range(16)]
    two[2] = 500_000
    plans: list[tuple[str, list[int], list[list[int]]]] = [
        ("Eight segments of one size are merged", [100] * 8, whole),
        ("Eight sizes of one level are merged", list(range(1, 9)), whole),
        ("Segments of more than a million documents are left alone", [1_000_001] * 8, []),
        ("No segment is no merge", [], []),
        ("Seven segments are no merge", [100] * 7, []),
        ("The greatest size opens a level: 16,817 is with 10,000", [16_817] + [10_000] * 7, whole),
        ("16,818 is above the level of 10,000", [16_818] + [10_000] * 7, []),
        ("Two levels are two merges, each with its greatest first", two,
         [[2, 0, 4, 6, 8, 10, 12, 14], [1, 3, 5, 7, 9, 11, 13, 15]])]
    for sentence, sizes, plan in plans:
        s.case(sentence, "plan", plan, sizes=sizes)
    usual, small = (10_000, 8, 1_000_000, 100), (1, 2, 1_000_000, 50)
    by_numbers: list[tuple[str, tuple[int, int, int, int], list[int], list[int], list[list[int]]]] = [
        ("By the usual numbers dead documents are no reason", usual, [100] * 7, [1] * 7, []),
        ("By the usual numbers eight are a level, whatever is dead", usual, [100] * 8, [1] * 8, whole),
        ("With a floor of 1 and two members 3 joins 5, and 1 stands alone", small, [1, 5, 3], [1, 5, 3], [[1, 2]]),
        ("With a floor of 5 all three are of one size, and the first comes first", (5, 2, 1_000_000, 50), [1, 5, 3], [1, 5, 3], [[0, 1, 2]]),
        ("Equal sizes are one level by their places", small, [7, 7, 7], [7, 7, 7], [[0, 1, 2]]),
        ("One segment is no level, and half of it dead is not too much", small, [10], [5], []),
        ("With one more dead it is merged by itself", small, [11], [5], [[0]]),
        ("A segment of dead documents alone is merged by itself", small, [10, 4], [10, 0], [[1]]),
        ("Two that are all dead count as the floor, and are one level", small, [10, 4], [0, 0], [[0, 1]]),
        ("A level comes first, and none of it once more by itself", small, [10, 10, 100], [4, 4, 40], [[0, 1], [2]]),
        ("A segment over the most is in no level, and merged for its dead", (1, 2, 20, 50), [20, 20, 60, 60], [20, 20, 21, 40],
         [[0, 1], [2]]),
        ("At 100 per cent none is merged for its dead", (1, 2, 1_000_000, 100), [10], [0], []),
        ("No segment is no merge by any numbers", small, [], [], [])]
    for sentence, policy, sizes, alive, plan in by_numbers:
        floor, members, most, dead = policy
        s.case(sentence, "plan_by", plan, docs=sizes, live=alive, floor=floor, members=members, most=most, dead=dead)
    s.write()


def write_wrong() -> None:
    s = Subject("wrong")
    s.case("A word that nothing knows", "tokns", [], text="")
    s.raw('{"case":"No word","text":"","gives":[]}')
    s.raw('{"case":"Nothing is said","do":"tokens","text":""}')
    s.raw('{"do":"tokens","text":"","gives":[]}')
    s.raw('no JSON')
    s.case("A text is missing", "tokens", [])
    s.case("A text is a number", "tokens", [], text=1)
    s.case("A list of pieces is empty", "tokens", [], text=[])
    s.case("A member that nothing reads", "tokens", [], text="", txt="a")
    s.case("Another token is said", "tokens", [[0, "b"]], text="a")
    s.case("A token less is said", "tokens", [[0, "a"]], text="a b")
    s.case("Another refusal is said", "parse", error("BadNumber"), query="a OR")
    s.case("A refusal is said of what is none", "parse", error("Syntax"), query="a")
    s.case("A refusal comes where a value is said", "parse", True, query="a OR")
    s.case("A field of no kind", "schema", [["a", "txt", False]],
           fields=[{"name": "a", "kind": "txt", "default": False}])
    s.case("A search without documents", "found", [], query="*")
    s.case("Two documents make three", "make", 3, documents=[{"title": "a"}, {"title": "a b"}])
    s.case("A stamp too few", "make", 2, documents=[{}, {}], stamps=[1])
    s.case("Another document is said to be found", "found", [1], query="b OR a")
    s.case("A step that nothing knows", "walk", [0], query="a", steps=["docs"])
    s.case("No step", "walk", [], query="a", steps=[])
    s.case("An order that nothing knows", "answer", {"count": 2, "top": []}, query="a", top=top("price", 1, "up"))
    s.case("A bound that is passed", "walk", [{"at_most": 0}], query="title:a", steps=[{"count": 3}])
    s.case("A bound where no number is given", "walk", [{"at_most": 9}], query="title:none", steps=["doc"])
    s.case("A bit that isn't there", "clear", 2, docs=[2])
    s.case("Documents that don't rise", "list", {"len": 2, "bits": None, "blocks": [{"last": 1, "documents": [1, 1]}]}, documents=[1, 1])
    s.case("A width too many", "list_blocks", [{"last": 64, "width": 1, "words": []}], documents=list(range(65)))
    s.write()


WRITERS = [write_tokens, write_schemas, write_documents, write_scan, write_queries, write_segments,
           write_cursors, write_phrases, write_collectors,
           write_merges, write_packing, write_generated, write_walks, write_cuttings, write_joins, write_lists,
           write_words, write_wrong]


def check() -> int:
    """Compares the stored cases with those that are written now, and returns the status."""
    with tempfile.TemporaryDirectory() as case_model.folder:
        for write in WRITERS:
            write()
        names = sorted({*os.listdir(case_model.folder), *os.listdir(HERE)})
        same, _, _ = filecmp.cmpfiles(case_model.folder, HERE, names, shallow=False)
    counts = Counts("cases", quiet=True)
    for name in names:
        counts.check(name, name in same, "isn't what tests/cases.py writes")
    return counts.end()


if __name__ == "__main__":
    if sys.argv[1:] == ["--check"]:
        sys.exit(check())
    os.makedirs(HERE, exist_ok=True)
    for write in WRITERS:
        write()
