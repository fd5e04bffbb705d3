"""Cases of packed numbers for tests/cases.py: blocks, lists of documents, columns and bits. The model packs by shifting one large
number."""
from __future__ import annotations

from collections.abc import Sequence

from case_model import GREATEST, Subject

LAST = 2**32 - 1
# Documents in a row, of each length at which a list is stored otherwise or has one more block, and documents far apart.
CLOSE = {length: list(range(length)) for length in (5, 6, 64, 65, 128, 129, 257)}
FAR = {length: [1_000 * n + n * n for n in range(length)] for length in (65, 128, 129, 257)}


def words_of(bits: int, width: int, numbers: Sequence[int]) -> list[int]:
    """Numbers of `width` bits laid end to end in words, the least bits first."""
    joined = sum(number << (i * width) for i, number in enumerate(numbers))
    return [joined >> (i * bits) & (1 << bits) - 1 for i in range(-(-len(numbers) * width // bits))]


def block_words(width: int, numbers: list[int]) -> list[int]:
    """A block's words: number i of 128, zeros after the last, is in lane i % 4, and each lane is packed by itself."""
    filled = numbers + [0] * (128 - len(numbers))
    lanes = [words_of(32, width, filled[lane::4]) for lane in range(4)]
    return [word for words in zip(*lanes) for word in words]


def gaps(documents: list[int], before: int = -1) -> list[int]:
    """How many documents are left out before each, where `before` is the one before the first."""
    return [document - last - 1 for last, document in zip([before, *documents], documents)]


def packed(numbers: list[int]) -> dict[str, object]:
    """The width of the greatest number, and the words of a block of them."""
    width = max(numbers, default=0).bit_length()
    return {"width": width, "words": block_words(width, numbers)}


def in_blocks(documents: list[int]) -> list[tuple[int, list[int]]]:
    """Each 128 documents, after the one before them."""
    return [(documents[start - 1] if start else -1, documents[start:start + 128]) for start in range(0, len(documents), 128)]


def list_blocks(documents: list[int]) -> list[dict[str, object] | None]:
    """The last document of each block, and the gaps as they are packed; null in a list of up to 64, which has plain numbers."""
    if len(documents) <= 64:
        return [None for _ in in_blocks(documents)]
    return [{"last": block[-1], **packed(gaps(block, before))} for before, block in in_blocks(documents)]


def list_bits(documents: list[int]) -> list[int] | None:
    """A bit for each document up to the last, if there are over 64 and one in 64 of those at least; else null."""
    if len(documents) <= 64 or documents[-1] // 64 >= len(documents):
        return None
    marks = sum(1 << document for document in documents)
    return [marks >> start & GREATEST for start in range(0, documents[-1] + 1, 64)]


def write_lists_in_blocks(s: Subject) -> None:
    """Lists of documents: their gaps in a block, what comes back, and how each block is packed."""
    assert gaps([5, 6, 133]) == [5, 0, 126] and packed([5, 0, 126]) == {"width": 7, "words": [5, 0, 126] + [0] * 25}
    assert list_blocks(CLOSE[129]) == [{"last": 127, "width": 0, "words": []}, {"last": 128, "width": 0, "words": []}]
    further = [n * (n + 3) // 2 for n in range(128)]
    assert gaps(further) == CLOSE[128]
    gapped: list[tuple[str, list[int]]] = [
        ("The gap of a first document is the document itself", [5, 6, 133]),
        ("Documents in a row have gaps of zero, which take no words", CLOSE[128]),
        ("The gap of the greatest document takes whole words", [LAST]),
        ("Documents that are further apart each time have gaps up to 127", further),
        ("All documents between the first and the last are left out", [0, LAST]),
        ("No document has no gap", [])]
    for sentence, documents in gapped:
        gives: dict[str, object] = {"numbers": gaps(documents), **packed(gaps(documents))}
        s.case(sentence, "gaps", gives, documents=documents)
    listed: list[tuple[str, list[int]]] = [
        ("Three documents", [5, 6, 133]), ("No documents", []), ("The greatest document", [LAST]),
        ("64 documents up to the greatest", [*range(63), LAST]), ("65 documents up to the greatest", [*range(64), LAST]),
        *((f"{length} documents in a row", documents) for length, documents in CLOSE.items()),
        *((f"{length} documents far apart", documents) for length, documents in FAR.items()),
        ("66 documents that are just close enough for bits", [*range(65), 64 * 66 - 1]),
        ("66 documents that are just too far for bits", [*range(65), 64 * 66])]
    for name, documents in listed:
        s.case(f"Read from a list: {name.lower()}", "list",
               {"len": len(documents), "bits": list_bits(documents),
                "blocks": [{"last": block[-1], "documents": block} for _, block in in_blocks(documents)]}, documents=documents)
    for name, documents in [*listed, ("65 documents with one gap of 1,000", [*range(64), 1_064]),
                            ("128 documents in a row and one after 172 others", [*range(128), 300]),
                            ("A wide gap in the first block and the greatest documents in the second", [*range(127), LAST - 2, LAST - 1, LAST])]:
        s.case(f"Packed in blocks: {name.lower()}", "list_blocks", list_blocks(documents), documents=documents)
    of_lists: list[tuple[str, list[list[int]]]] = [
        ("There may be no list", []), ("A list may have no document", [[]]),
        ("Lists of every form are kept apart", [[5, 6, 133], FAR[129], [], CLOSE[257], CLOSE[64], [LAST], FAR[65], CLOSE[65]])]
    for sentence, lists in of_lists:
        s.case(sentence, "lists", [{"start": sum(map(len, lists[:place])), "len": len(documents), "bits": list_bits(documents),
                                    "blocks": list_blocks(documents)} for place, documents in enumerate(lists)],
               lists=[{"documents": documents} for documents in lists])


def write_within(s: Subject) -> None:
    """Columns of each width in which offsets are kept: the range of each 128 values, and the documents whose value is between two."""
    for name, step in [("a byte", 1), ("32 bits", 1_000_003), ("64 bits", 2**50 + 1)]:
        values = [None if n % 5 == 2 or n >= 256 else 40 + n * 7 % 131 * step for n in range(259)]
        low, high = 40 + 30 * step, 40 + 90 * step
        fits = [value is not None and low <= value <= high for value in values]
        for sentence, docs in [(f"Offsets of {name}: the last of all between two values", list(range(259))),
                               (f"Offsets of {name}: the last of some between two values, and none after the column", [3, 8, 14, 700]),
                               (f"Offsets of {name}: none of those without a value is between two", [2, 7, 258])]:
            ranges = [[value for value in values[start:start + 128] if value is not None] for start in range(0, 385, 128)]
            s.case(sentence, "column_within",
                   {"ranges": [[min(block), max(block)] if block else None for block in ranges],
                    "marks": [sum(1 << n for n, one in enumerate(fits[start:start + 64]) if one) for start in range(0, 321, 64)],
                    "last": max((place for place, doc in enumerate(docs) if doc < 259 and fits[doc]), default=None)},
                   values=values, low=low, high=high, docs=docs)


def write_packing() -> None:
    s = Subject("packing")
    assert block_words(7, list(range(128)))[:2] == [25297408, 295846529] and block_words(3, [7] * 128) == [2**32 - 1] * 12
    for sentence, width, numbers in [("Three numbers lie in three lanes", 2, [1, 2, 3]), ("Zeros take no words", 0, [0, 0, 0]),
                                     ("The greatest number takes whole words", 32, [2**32 - 1]),
                                     ("Every fourth number lies in one lane", 7, list(range(128))),
                                     ("128 sevens fill twelve words", 3, [7] * 128)]:
        s.case(sentence, "block_words", {"width": width, "words": block_words(width, numbers)}, numbers=numbers)
    for sentence, width, words, values in [("A missing value is kept as zero", 2, [32], [7, None, 9]),
                                           ("A column without values has no words", 0, [], [None, None]),
                                           ("The widest values take whole words", 64, [0, GREATEST], [0, GREATEST])]:
        s.case(sentence, "column_words", {"width": width, "words": words}, values=values)
    blocks: list[tuple[str, list[int]]] = [
        ("Three numbers come back", [1, 2, 3]), ("Zeros come back", [0, 0, 0]),
        ("The greatest number comes back", [2**32 - 1]),
        ("A block of none is none", []), ("A whole block comes back", list(range(128))),
        ("128 sevens come back", [7] * 128)]
    for sentence, numbers in blocks:
        s.case(sentence, "block", numbers, numbers=numbers)
    s.case("Numbers of two blocks of other widths come back", "numbers", [1, 2, 3] + [0] * 125 + [300],
           numbers=[1, 2, 3] + [0] * 125 + [300])
    s.case("A value that is missing stays missing, and so does one behind the last", "column_of",
           {"range": [7, 9], "values": [7, None, 9, None], "present": 5}, values=[7, None, 9])
    s.case("A column without values has no range", "column_of",
           {"range": None, "values": [None, None, None], "present": 0}, values=[None, None])
    s.case("An empty column has no range", "column_of", {"range": None, "values": [None], "present": 0}, values=[])
    s.case("A column has both ends of u64", "column_of",
           {"range": [0, GREATEST], "values": [0, GREATEST, None], "present": 3}, values=[0, GREATEST])

    def bits(sentence: str, ones: int, words: list[int], length: int, every: bool, on: list[int], off: list[int]) -> None:
        s.case(sentence, "bits", {"ones": ones, "words": words, "each": [*words, 0]}, len=length, all=every, set=on, clear=off)

    bits("One bit is cleared and two stay set", 2, [0, 2, 2], 130, False, [0, 65, 129], [0])
    bits("The bits behind the last are clear", 70, [GREATEST, 63], 70, True, [], [])
    bits("64 bits fill a word", 64, [GREATEST], 64, True, [], [])
    bits("One bit is cleared among three", 2, [5], 3, True, [], [1])
    bits("No bits have no word", 0, [], 0, True, [], [])
    for sentence, number, place in [("The least signed number is at zero", -2**63, 0),
                                    ("-1 is right below the middle", -1, 2**63 - 1),
                                    ("Zero is in the middle", 0, 2**63),
                                    ("The greatest signed number is at the end", 2**63 - 1, GREATEST)]:
        s.case(sentence, "signed", [place, number], number=number)
    write_within(s)
    write_lists_in_blocks(s)
    s.write()
