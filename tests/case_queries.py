"""The cases of queries and of cursors: for each query the documents that the model finds."""
from __future__ import annotations

from collections.abc import Callable, Sequence
from itertools import product

from case_model import GREATEST, Document, Match, Subject, error, has, named, phrase, within

LONG = ["a " + "x" * 40 + " b", "a " + "x" * 39 + " b"]

SHELF = [
    {"title": "Rust book", "tag": "x", "price": 5, "temp": 0},
    {"title": "book Rust", "tag": "a", "price": 3, "temp": -5},
    {"title": "Salt and Pepper", "tag": "Rust", "price": 4}, {"title": "a b", "tag": "y"},
    {"title": "b c", "tag": "b", "price": GREATEST}, {"title": "a", "tag": "!!!"}, {"tag": ""},
    {"title": "c d", "tag": "rust"}, {"title": "a c", "tag": "z", "temp": 7}, {"title": "d c", "tag": "\u00a0"}]

LITERALS = [("A word is sought in both default fields", "Rust", 3),
            ("A quotation under a text field is a phrase", 'title:"Rust book"', 1),
            ("AND under a field is a word", "title:AND", 1),
            ("NOT under a field is a word, which none has", "title:NOT", 0),
            ("A keyword is as it is written", "tag:Rust", 1), ("Two quotes find the empty keyword", '""', 1),
            ("Two quotes under a keyword find the empty one", 'tag:""', 1),
            ("A quotation without a token finds nothing", 'title:"!"', 0),
            ("A star is every document", "*", 10), ("A star may stand in parentheses", "( * )", 10),
            ("An empty query finds nothing", "", 0), ("A blank query finds nothing", " ", 0),
            ("Tabs and ends of lines are blanks", " \t\r\n", 0),
            ("A no-break space is a character of a word", "tag:\u00a0", 1),
            ("A no-break space alone is a word", "\u00a0", 1)]
BOOLEAN = [("AND binds closer than a blank", "a b AND c", 5), ("A chain beside a must is a should", "+a b OR c", 4),
           ("A must-not strikes from parentheses", "(a OR b) -c", 3),
           ("A must-not without a token strikes its keyword", "a -!!!", 3),
           ("A must-not strikes", "a -b", 3), ("NOT is a must-not", "a NOT b", 3),
           ("AND NOT binds closer than OR", "a AND NOT b OR d", 5),
           ("Two musts want both", "+a +c", 1), ("OR has a phrase", 'a OR "c d"', 5),
           ("A must-not may come first", "-b *", 8),
           ("A must leaves a chain to choose", "+a b AND c", 4), ("A phrase is a should", 'a -b "c d"', 4),
           ("Parentheses hold a must-not of their own", '(a -b) OR "c d"', 4),
           ("A star holds a must-not of its own", 'a OR (* -b) OR "c d"', 9)]
NUMBERS = [("A negative zero is zero", "temp:-0", 1), ("A negative number is one", "temp:-5", 1),
           ("Less than zero leaves zero out", "temp:<0", 1),
           ("At most zero has zero", "temp:<=0", 2), ("The least i64 is a number", "temp:-9223372036854775808", 0),
           ("The greatest i64 is a number", "temp:9223372036854775807", 0),
           ("Zeros in front count nothing", "price:005", 1),
           ("A number may be quoted", 'price:"5"', 1), ("The greatest u64 is a number", f"price:{GREATEST}", 1),
           ("A range from above to below is empty", "price:[5 TO 3]", 0),
           ("Brackets have both ends", "price:[3 TO 5]", 3),
           ("A brace leaves the upper end out", "price:[3 TO 5}", 2),
           ("Braces leave both ends out", "price:{3 TO 5}", 1),
           ("A star is no lower end, and a brace leaves the greatest out", f"price:[* TO {GREATEST}}}", 3),
           ("Blanks may stand in a range, and a star is no upper end", "price:{ 4 TO * ]", 2),
           ("Two stars are every value", "price:[* TO *]", 4),
           ("Greater leaves the number out", "price:>5", 1), ("At least has the number", "price:>=5", 2)]
KEYWORDS = [("Keywords go by their bytes, and a range has what its bounds begin", "tag:[a TO b]", 2),
            ("A brace leaves its keyword out", "tag:{a TO b]", 1), ("Equal bounds have their keyword", "tag:[b TO b]", 1),
            ("A brace at one of two equal bounds leaves nothing", "tag:{b TO b]", 0),
            ("The empty keyword, signs and capitals are before small letters", "tag:<a", 3),
            ("Letters outside of ASCII are behind the others", "tag:>z", 1),
            ("Two stars are every keyword", "tag:[* TO *]", 10), ("A range backwards is empty", "tag:[b TO a]", 0),
            ("A bound isn't folded", "tag:[r TO s]", 1), ("A bound of a capital isn't either", "tag:[R TO S]", 1),
            ("A bound needn't be a keyword that there is", "tag:>=xx", 3), ("TO may be a bound", "tag:[TO TO TO]", 0),
            ("AND and OR may be bounds", "tag:[AND TO OR]", 0), ("Digits are characters", "tag:<0", 2)]
REFUSED = [("nope:a", "UnknownField"), ("nope:[a TO b]", "UnknownField"), ("a:>==5", "UnknownField"),
           ("price:>==5", "BadNumber"),
           ("price:-1", "BadNumber"), ("price:+1", "BadNumber"), ("price:a", "BadNumber"), ('price:""', "BadNumber"),
           ("price:18446744073709551616", "BadNumber"), ("temp:9223372036854775808", "BadNumber"),
           ("temp:-9223372036854775809", "BadNumber"),
           ("temp:--1", "BadNumber"), ("temp:-", "BadNumber"), ("price:[TO TO TO]", "BadNumber"),
           ("title:>a", "RangeOnText"),
           ("title:[a TO b]", "RangeOnText"), ("title:[TO TO TO]", "RangeOnText"), ("title:[* TO *]", "RangeOnText"),
           ("-a", "AllNegative"), ("a OR -b", "AllNegative"), ("-tag:>a", "AllNegative"),
           ("a (-b)", "AllNegative"), ('a -b OR "c d"', "AllNegative"), ("NOT a AND NOT b", "AllNegative")]
WHY = {"UnknownField": "names a field that the schema lacks", "BadNumber": "holds no number of the field's kind",
       "RangeOnText": "asks a range of a field of words", "AllNegative": "has a node of must-nots alone"}
SYNTAX = ["--a", "++a", "+ a", "a - b", "a(b)", "()", "( )", "title:*", "a:b:c", "title: a", "title :a", "+title:(a)",
          "title:", "a OR",
          "a AND", "AND", "NOT", "NOT(a)", "AND:x", '"a', '"a\\b"', '"a"b', "a)", "(a", "price:>", "price:>=",
          "price:> 5", "price:[1 TO]",
          "price:[1 TO 2", "price:[1 2]", "price:[1TO 2]", "price:[1 TO 2]b", 'tag:["a" TO b]', 'tag:>"a"', "a^2", "a~", "a*", "nope:a b:c:d"]
FIRST = [("nope:a price:b", "UnknownField"), ("price:b nope:a", "BadNumber"), ("(-tag:a) nope:a", "AllNegative"),
         ("-nope:a", "UnknownField"), ("title:>a nope:a", "RangeOnText"), ("tag:>a nope:a", "UnknownField"),
         ("tag:a OR -tag:b nope:a", "AllNegative")]


def write_queries() -> None:
    # A query is given as a text, or as pieces of one.
    query: object
    s = Subject("queries")
    s.case("The shelf has ten documents", "make", 10, documents=SHELF)
    for sentence, query, count in LITERALS + BOOLEAN + NUMBERS + KEYWORDS:
        s.case(sentence, "count", count, query=query)
    s.case("4,096 bytes of a word are a query, which finds nothing", "count", 0, query=[{"times": 4096, "of": "a"}])
    s.case("32 parentheses may stand in one another", "count", 4,
           query=[{"times": 32, "of": "("}, "a", {"times": 32, "of": ")"}])
    for query, name in REFUSED:
        s.case(f"{query} {WHY[name]}", "parse", error(name), query=query)
    for query in SYNTAX:
        s.case(f"{query} is no query", "parse", error("Syntax"), query=query)
    for query, name in FIRST:
        s.case(f"The first fault of {query} from the left is {name}", "parse", error(name), query=query)
    numbers = named(["n"], "u64")
    for query, name in [("a", "NoDefaultField"), ('"a" n:x', "NoDefaultField"), ("n:x a", "BadNumber")]:
        s.case(f"Where no field is default, the first fault of {query} is {name}", "parse", error(name),
               schema=numbers, query=query)
    for sentence, pieces, name in [
            ("33 parentheses are too deep", [{"times": 33, "of": "("}, "a", {"times": 33, "of": ")"}], "TooDeep"),
            ("4,097 bytes are too long", [{"times": 4097, "of": "a"}], "TooLong"),
            ("Too long is told before too deep", [{"times": 4097, "of": "("}], "TooLong"),
            ("4,096 parentheses are too deep", [{"times": 4096, "of": "("}], "TooDeep"),
            ("A closing parenthesis too many makes no room for one", ["))(", {"times": 32, "of": "("}], "TooDeep"),
            ("Parentheses behind an unclosed quote don't nest", ['"', {"times": 33, "of": "("}], "Syntax"),
            ("Forty parentheses behind an unclosed quote don't nest", ['"', {"times": 40, "of": "("}], "Syntax"),
            ("4,096 minus signs are no query", [{"times": 4096, "of": "-"}], "Syntax")]:
        s.case(sentence, "parse", error(name), query=pieces)
    for query, byte in [("a b )", 4), ("a OR", 2), ("--a", 1), ('é "a', 5)]:
        s.case(f"{query} is the beginning of a query up to byte {byte}", "syntax_byte", byte, query=query)
    s.case("Titles with spans of 40 and 39 letters are made", "make", 2, documents=[{"title": text} for text in LONG])
    forty = {"times": 40, "of": "x"}
    for sentence, query, found in [
            ("A span that is too long keeps its place between two words", '"a b"', []),
            ("A span that is too long in a phrase stands for any one span", ['"a ', forty, ' b"'], [0, 1]),
            ("A span of 39 letters stands for itself in a phrase", ['"a ', {"times": 39, "of": "x"}, ' b"'], [1]),
            ("A span of 39 letters is found", [{"times": 39, "of": "x"}], [1]),
            ("A span of 40 letters isn't found", [forty], [])]:
        s.case(sentence, "found", found, query=query)
    gap = [{"title": LONG[0]}, {"title": "a c b"}, {"title": "a b"}]
    s.case("Titles with and without a gap are made", "make", 3, documents=gap)
    s.case("A gap in a phrase is any one span", "count", 2, query=['title:"a ', forty, ' b"'])
    s.case("A gap in front of a phrase is nothing", "count", 1, query=['title:"', forty, ' a b"'])
    s.case("A gap alone finds nothing", "count", 0, query=["title:", forty])
    greek = [{"title": "ΣΟΦΟΣ"}, {"title": "a b a b a"}, {"title": "foo-bar"}, {"title": "bar foo"}]
    s.case("A Greek title and three more are made", "make", 4, documents=greek)
    for sentence, query, found in [("A last sigma finds a capital one", "σοφος", [0]),
                                   ("A phrase comes back to its first word", '"a b a"', [1]),
                                   ("A word once doesn't stand twice", '"b b"', []),
                                   ("A word with a hyphen is a phrase", "foo-bar", [2])]:
        s.case(sentence, "found", found, query=query)
    s.case("Two titles of a book are made", "make", 2, documents=[{"title": "Rust book"}, {"title": "Go book"}])
    for sentence, query, found in [("A word of both titles finds both", "book", [0, 1]),
                                   ("Capitals find small letters", "RUST", [0]),
                                   ("The beginning of a word finds nothing", "boo", [])]:
        s.case(sentence, "found", found, query=query)
    three = [{"title": "a"}, {"title": "a b"}, {"title": "c"}]
    s.case("Titles of a, b and c are made", "make", 3, documents=three)
    for sentence, query, found in [("AND NOT binds closer than OR over three titles", "a AND NOT b OR c", [0, 2]),
                                   ("A should beside a must strikes none", "+a b", [0, 1]),
                                   ("A must-not strikes the second", "a -b", [0])]:
        s.case(sentence, "found", found, query=query)
    s.write()


def mixed(n: int) -> Document:
    title = ["a b a", "b a", "c", "a c b", "b b", "", "a b"][n % 7]
    if n % 5 == 0:
        return {"title": title, "temp": n % 13 - 6}
    return {"title": title, "tag": ["x", "y", "z w"][n % 3], "price": n % 11}


def t(text: str) -> Match:
    return lambda d: has(d, "title", text)


def both(text: str) -> Match:
    return lambda d: has(d, "title", text) or has(d, "tag", text)


def either(words: list[str], keyword: str) -> Match:
    return lambda d: phrase(d, words) or has(d, "tag", keyword)


NESTED: list[tuple[str, str, Match]] = [
    ("every document", "*", lambda d: True), ("an empty query", "", lambda d: False), ("a word", "title:a", t("a")),
    ("a word that none has", "title:none", t("none")), ("a keyword", "tag:x", lambda d: has(d, "tag", "x")),
    ("two words", "a b", lambda d: both("a")(d) or both("b")(d)), ("a phrase", '"a b"', either(["a", "b"], "a b")),
    ("a phrase of one field", 'title:"b a"', lambda d: phrase(d, ["b", "a"])),
    ("a phrase of three", '"a b a"', either(["a", "b", "a"], "a b a")),
    ("two phrases", '"a c b" OR "b b"', lambda d: either(["a", "c", "b"], "a c b")(d) or either(["b", "b"], "b b")(d)),
    ("a range without its end", "price:[3 TO 7}", lambda d: within(d, "price", 3, 6)),
    ("a range without its beginning", "price:{3 TO 7]", lambda d: within(d, "price", 4, 7)),
    ("each price", "price:[* TO *]", lambda d: "price" in d),
    ("no price", "price:>10", lambda d: within(d, "price", 11, GREATEST)),
    ("a range above each price", "price:{10 TO *]", lambda d: within(d, "price", 11, GREATEST)),
    ("a range over the signs", "temp:[-3 TO 2}", lambda d: within(d, "temp", -3, 1)),
    ("the negative", "temp:{* TO 0}", lambda d: within(d, "temp", -99, -1)),
    ("three musts", "+title:a +title:b +tag:x", lambda d: t("a")(d) and t("b")(d) and has(d, "tag", "x")),
    ("a must and a must-not", "+title:a -title:c", lambda d: t("a")(d) and not t("c")(d)),
    ("a chosen must and a nested must-not", "+(title:a OR tag:y) -(price:[0 TO 4] AND title:b)",
     lambda d: (t("a")(d) or has(d, "tag", "y")) and not (within(d, "price", 0, 4) and t("b")(d))),
    ("musts within musts", '+(+(title:a title:c) -"a b") +(price:[* TO *] OR temp:<0)',
     lambda d: (t("a")(d) or t("c")(d)) and not either(["a", "b"], "a b")(d)
     and ("price" in d or within(d, "temp", -99, -1))),
    ("a nested choice", "(title:a AND (tag:x OR (price:5 AND NOT title:b))) OR temp:0",
     lambda d: (t("a")(d) and (has(d, "tag", "x") or (within(d, "price", 5, 5) and not t("b")(d))))
     or within(d, "temp", 0, 0))]


def write_cursors() -> None:
    s = Subject("cursors")
    common, rare = {"title": "common"}, {"title": "common rare"}
    must = "+title:common +title:rare"
    s.case("300 titles are made, each third rare", "make", 300, repeated=[{"times": 100, "of": [rare, common, common]}])
    s.case("A search back stays", "walk", [128, 128], query="title:common",
           steps=[{"seek": 128}, "doc", {"seek": 5}, "doc"])
    s.case("A search goes to the next hit", "walk", [129], query=must, steps=[{"seek": 128}, "doc"])
    s.case("A hit is struck", "clear", 299, docs=[129])
    s.case("A struck hit is passed, and behind the last hit is none", "walk", [132, None], query=must,
           steps=[{"seek": 128}, "doc", {"seek": 299}, "doc"])
    s.case("1,000 titles are made, the first and the last rare", "make", 1000,
           repeated=[{"times": 1, "of": [rare]}, {"times": 998, "of": [common]}, {"times": 1, "of": [rare]}])
    s.case("Each of the 8 blocks of a word is opened once", "walk", [1000, 8], query="title:common",
           steps=[{"count": 1001}, "openings"])
    s.case("Blocks between two hits stay closed", "walk", [2, {"at_most": 4}], query=must,
           steps=[{"count": 3}, "openings"])
    s.case("A cursor at its beginning is at the first hit", "walk", [0], query=must, steps=["doc"])
    s.case("128 documents are taken, and the next goes on behind them", "walk", [list(range(128)), 128],
           query="title:common", steps=["take", "doc"])
    s.case("129 titles are made, the 128th with a tag and the last rare", "make", 129,
           repeated=[{"times": 127, "of": [common]}, {"times": 1, "of": [{"title": "common", "tag": "d128"}]},
                     {"times": 1, "of": [rare]}])
    s.case("The tag is in the last document of the first block", "found", [127], query="tag:d128")
    s.case("The document of the tag is struck", "clear", 128, docs=[127])
    s.case("The struck document is found no more", "found", [], query="tag:d128")
    s.case("Both blocks of a word are opened, one behind a struck document too", "walk", [128, 2], query="title:common",
           steps=[{"count": 130}, "openings"])
    s.case("A conjunction opens the block of its hit alone and one of the rare word", "walk", [1, {"at_most": 3}],
           query=must,
           steps=[{"count": 2}, "openings"])
    documents = [mixed(n) for n in range(400)]
    s.case("400 documents are made of which some lack a field", "make", 400, documents=documents)
    for name, query, match in NESTED:
        s.case(f"Of 400 documents a cursor finds those of {name}", "found",
               [n for n in range(400) if match(documents[n])], query=query)
    dead = [n for n in range(400) if n % 4 == 1]
    s.case("One of four documents is struck", "clear", 300, docs=dead)
    for name, query, match in NESTED:
        s.case(f"Of 300 live documents a cursor finds those of {name}", "found",
               [n for n in range(400) if n % 4 != 1 and match(documents[n])], query=query)
    s.write()


def quoted(words: Sequence[str | None]) -> str:
    """The query of these words in quotes, in which a span that is too long means any one span."""
    return 'title:"' + " ".join(word or "x" * 40 for word in words) + '"'


def write_phrases() -> None:
    s = Subject("phrases")
    again = ["b a a b a", "a a b b a", "a b b a b a", "a a a", "b b b", "a b"]
    s.case("Six titles are made in which words stand again", "make", 6, documents=[{"title": text} for text in again])
    for sentence, words, found in [
            ("A phrase stands behind places where only its first word does", "aba", [0, 2]),
            ("A phrase that begins with a word twice stands where that does", "aab", [0, 1]),
            ("A phrase whose second word is its first stands where that is twice", "bba", [1, 2]),
            ("A phrase stands behind its own words in another order", "bab", [2]),
            ("A word three times doesn't stand where it is twice", "aaa", [3]),
            ("A word four times doesn't stand where it is three times", "aaaa", []),
            ("A word stands two behind itself, whatever is between", ["a", None, "a"], [0, 2, 3]),
            ("A word stands three behind another, whatever is between", ["b", None, None, "a"], [2])]:
        s.case(sentence, "found", found, query=quoted(words))
    anew = ["c c c c c a b", "a b", "b a", "c a b", "b b b b a", "a b"]
    s.case("Six titles are made in which a phrase stands early and late", "make", 6,
           documents=[{"title": text} for text in anew])
    s.case("A phrase that stood late in one title is found early in the next", "found", [0, 1, 3, 5], query=quoted("ab"))
    s.case("Words that stood in the other order in one title are found in the next", "found", [2, 4], query=quoted("ba"))
    s.case("A cursor goes over the titles of a phrase, also by searches", "walk", [0, 1, 3, 5, None], query=quoted("ab"),
           steps=["doc", "advance", "doc", {"seek": 2}, "doc", {"seek": 4}, "doc", "advance", "doc"])
    long = ["b " * 300 + "a " * 300, ("a " * 9 + "b ") * 50, "b a " * 300]
    s.case("Three titles of 500 words and more are made", "make", 3, documents=[{"title": text} for text in long])
    for sentence, words, found in [
            ("A word is nowhere before one that stands before it 300 times", "ab", [1, 2]),
            ("Behind 300 times a word the other is found", "ba", [0, 1, 2]),
            ("A word nine times is found between others", "a" * 9, [0, 1]),
            ("A word ten times isn't found where every tenth is another", "a" * 10, [0]),
            ("Two words in turn are found 300 times where they stand so often", "ba" * 300, [2]),
            ("Two words in turn aren't found once more than they stand", "ba" * 301, []),
            ("Two words in turn are found from the second one on, once less", "ab" * 299, [2])]:
        s.case(sentence, "found", found, query=quoted(words))
    letters: Callable[[int], list[str]] = lambda count: ["".join(word) for word in product("ab", repeat=count)]
    every = [{"title": " ".join(word)} for count in range(1, 7) for word in letters(count)]
    s.case("All titles of one to six words a and b are made", "make", len(every), documents=every)
    gaps = [[a, None, *b] for a in "ab" for b in letters(1) + letters(2)]
    for words in [*letters(2), *letters(3), *letters(4), *gaps]:
        s.case(f"Of all titles those are found with {' '.join(word or 'any' for word in words)}", "found",
               [n for n, one in enumerate(every) if phrase(one, words)], query=quoted(words))
    s.write()
