"""An index of two books, and one search."""
import dilforec

with dilforec.Index(dilforec.text("title", default=True), dilforec.u64("year")) as index:
    index.add({"title": "Programming Pearls", "year": 1986})
    index.add({"title": "Managing Gigabytes", "year": 1994})
    index.commit()
    answer = index.search("pearls OR year:>1990", top=dilforec.Top("year", 9, "falling"))
    print(answer.count, "books")
    for hit in answer:
        print(hit.value, hit.document["title"])
