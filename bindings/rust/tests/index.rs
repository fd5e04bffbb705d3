//! The crate over the worked scripts, in threads, and at its edges.
use dilforec::{quoted, Document, Error, Field, Index, NotAll, NotOne, Order, Refusal, Search, Searcher, Stats, Value};
use std::fs;
use std::path::Path;
use std::thread;

fn fields() -> [Field<'static>; 4] {
    [Field::text("title").default(), Field::keyword("shelf"), Field::u64("year"), Field::i64("rating")]
}

fn book(title: &str) -> Document<'_> {
    Document::new().with("title", title)
}

fn syntax(line: u64, at: usize) -> Error {
    Error::Refused(Refusal { name: "Syntax", line, at: Some(at) })
}

fn commit(index: &mut Index) -> Result<(), Error> {
    index.add(&book("rust"))?;
    index.commit()?;
    Ok(())
}

fn refused(name: &'static str, line: u64) -> Error {
    Error::Refused(Refusal { name, line, at: None })
}

#[test]
fn worked_scripts_give_their_stored_replies() -> Result<(), Error> {
    let folder = Path::new(env!("CARGO_MANIFEST_DIR")).join("../../examples");
    let mut scripts = 0;
    for path in fs::read_dir(folder).expect("the examples").map(|entry| entry.expect("an entry").path()) {
        let stored = path.with_extension("replies.jsonl");
        if !stored.is_file() {
            continue;
        }
        let mut index = Index::open()?;
        let mut told = String::new();
        for line in fs::read(&path).expect("a script").split(|byte| *byte == b'\n') {
            told += index.reply_to(line)?;
        }
        assert_eq!(told, fs::read_to_string(&stored).expect("its replies"), "{}", path.display());
        scripts += 1;
    }
    assert!(scripts > 5);
    Ok(())
}

#[test]
fn documents_go_in_and_come_out() -> Result<(), Error> {
    let mut index = Index::with_schema(&fields())?;
    let odd = "a \"quoted\" \\ text,\n\u{1}\u{1f600} й";
    let list = Value::from(vec!["left", "hand"]);
    index.add(&Document::new().with("title", odd).with("shelf", "a").with("year", u64::MAX).with("rating", i64::MIN))?;
    index.add(&Document::new().with("title", list.clone()).with("shelf", "b").with("year", 1))?;
    assert_eq!(index.commit()?, 3);
    let mut searcher = index.searcher()?;
    let search = Search::new("*").groups("shelf").top("year", 10, Order::Falling);
    let answer = index.search(search.clone())?;
    assert_eq!(answer.count, 2);
    assert_eq!(answer.groups, [(Value::from("a"), 1), (Value::from("b"), 1)]);
    assert_eq!((answer.hits[0].value, answer.hits[0].stamp), (i128::from(u64::MAX), 1));
    assert_eq!(answer.hits[0].document.get("title"), Some(&Value::from(odd)));
    assert_eq!(answer.hits[0].document.get("rating"), Some(&Value::from(i64::MIN)));
    assert_eq!(answer.hits[1].document.get("title"), Some(&list));
    assert_eq!(searcher.search(search.clone())?, answer);
    let names = ["shelf"];
    let cut = index.search(search.clone().fields(&names))?;
    assert_eq!(cut.hits[0].document, Document::new().with("shelf", "a"));
    assert_eq!(searcher.search(search.fields(&names))?, cut);
    let unknown = Search::new("*").top("year", 1, Order::Rising).fields(&["titel"]);
    assert_eq!(index.search(unknown), Err(refused("UnknownField", 6)));
    assert_eq!(index.search(Search::new(quoted("\"quoted\" \\ text")))?.count, 1);
    assert_eq!(index.search(Search::new("*").groups("rating"))?.groups, [(Value::from(i64::MIN), 1)]);
    Ok(())
}

#[test]
fn operations_answer_their_stamps() -> Result<(), Error> {
    let mut index = Index::with_schema(&fields())?;
    commit(&mut index)?;
    assert_eq!((index.add(&book("rust"))?, index.delete("title", "rust")?, index.rollback()?), (3, 4, 2));
    assert_eq!((index.delete("year", 1)?, index.commit()?), (3, 4));
    let keyed = Document::new().with("shelf", "a").with("title", "old");
    index.add(&keyed)?;
    assert_eq!(index.replace("shelf", &Document::new().with("shelf", "a").with("title", "new"))?, 7);
    assert_eq!(index.replace("year", &keyed), Err(Error::OtherKey));
    let late = Document::new().with("shelf", "a").with("year", "late");
    assert_eq!(index.replace("shelf", &late), Err(refused("WrongKind", 12)));
    assert_eq!(index.commit()?, 8);
    assert_eq!((index.search("old")?.count, index.search("new")?.count, index.search("*")?.count), (0, 1, 2));
    Ok(())
}

#[test]
fn lines_are_done_together_or_not_at_all() -> Result<(), Error> {
    let mut index = Index::with_schema(&fields())?;
    let (add, late) = (r#"{"add":{"title":"rust"}}"#, r#"{"add":{"year":"late"}}"#);
    let no_line: [&str; 0] = [];
    assert_eq!(index.execute_all(&[add, r#"{"delete_all":true}"#, add]), Ok(vec![1, 2, 3]));
    assert_eq!(index.execute_all(&no_line), Ok(vec![]));
    assert_eq!(index.execute_all(&[add, late]), Err(NotOne { line: 1, error: refused("WrongKind", 5) }));
    let commit = r#"{"commit":true}"#;
    assert_eq!(index.execute_all(&[add, add, commit]), Err(NotOne { line: 2, error: refused("BadCommand", 5) }));
    assert_eq!(index.execute_all(&[" "]), Err(NotOne { line: 0, error: refused("BadJson", 5) }));
    let long = "x".repeat(4_194_305);
    assert_eq!(index.execute_all(&[add, &long]), Err(NotOne { line: 1, error: Error::LineTooLong }));
    assert_eq!((index.commit()?, index.search("rust")?.count), (4, 1));
    Ok(())
}

#[test]
fn a_transaction_is_committed_whole_or_not_at_all() -> Result<(), Error> {
    let mut index = Index::with_schema(&fields())?;
    commit(&mut index)?;
    let mut transaction = index.transaction()?;
    transaction.add(&book("hand").with("year", 1))?;
    transaction.delete("year", 1)?;
    transaction.add(&book("hand").with("year", 2))?;
    assert_eq!((transaction.search("hand")?.count, transaction.search("rust")?.count), (0, 1));
    assert_eq!(transaction.commit(), Ok(3..6));
    assert_eq!((index.search("hand")?.count, index.search("*")?.count), (1, 2));
    let late = Document::new().with("year", "late");
    let mut transaction = index.transaction()?;
    transaction.delete_all()?;
    transaction.add(&book("hand"))?;
    transaction.add(&late)?;
    transaction.add(&late)?;
    assert_eq!(transaction.commit(), Err(NotOne { line: 2, error: refused("WrongKind", 12) }));
    assert_eq!((index.search("*")?.count, index.commit()?, index.search("*")?.count), (2, 7, 2));
    let mut transaction = index.transaction()?;
    transaction.delete_all()?;
    drop(transaction);
    assert_eq!((index.commit()?, index.search("*")?.count), (8, 2));
    let mut transaction = index.transaction()?;
    transaction.delete_all()?;
    transaction.add(&book("last"))?;
    assert_eq!((transaction.commit(), index.search("*")?.count), (Ok(9..11), 1));
    assert_eq!(index.transaction()?.commit(), Ok(12..12));
    Ok(())
}

#[test]
fn a_transaction_commits_first_what_was_uncommitted() -> Result<(), Error> {
    let changes: [fn(&mut Index) -> bool; 6] = [
        |index| index.add(&book("rust")).is_ok(),
        |index| index.add_many(&[book("rust"), Document::new().with("year", "late")]).is_err(),
        |index| index.execute_all(&[r#"{"add":{"title":"rust"}}"#]).is_ok(),
        |index| index.delete("year", 7).is_ok(),
        |index| index.replace("year", &book("rust").with("year", 7)).is_ok(),
        |index| index.execute(r#"{"delete_all":true}"#).is_ok(),
    ];
    for change in changes {
        let mut index = Index::with_schema(&fields())?;
        commit(&mut index)?;
        assert!(change(&mut index));
        drop(index.transaction()?);
        let begun = index.rollback()?;
        assert!(begun > 3, "what was uncommitted is lost: {begun}");
        assert_eq!(index.transaction()?.commit(), Ok(begun + 1..begun + 1));
    }
    let nothing: [fn(&mut Index) -> bool; 6] = [
        |index| index.add(&book("rust")).is_ok() && index.rollback().is_ok(),
        |index| index.add(&Document::new().with("year", "late")).is_err(),
        |index| index.add_many(&[Document::new().with("year", "late")]).is_err(),
        |index| index.execute_all(&[r#"{"add":{}}"#, r#"{"commit":true}"#]).is_err(),
        |index| index.replace("year", &book("rust").with("year", "late")).is_err(),
        |index| index.search("rust").is_ok(),
    ];
    for call in nothing {
        let mut index = Index::with_schema(&fields())?;
        commit(&mut index)?;
        assert!(call(&mut index));
        assert_eq!(index.transaction()?.commit(), Ok(3..3));
    }
    let mut index = Index::open()?;
    assert_eq!(index.transaction()?.commit(), Err(NotOne { line: 0, error: refused("NoSchema", 1) }));
    let mut transaction = index.transaction()?;
    transaction.delete_all()?;
    assert_eq!(transaction.commit(), Err(NotOne { line: 0, error: refused("NoSchema", 2) }));
    Ok(())
}

#[test]
fn a_transaction_takes_many_and_large_documents() -> Result<(), Error> {
    let mut index = Index::with_schema(&fields())?;
    let long = "a".repeat(1_048_576);
    let mut transaction = index.transaction()?;
    for year in 0..20_000u64 {
        transaction.add(&book("rust").with("year", year))?;
    }
    let longer = (0..5).fold(Document::new(), |document, _| document.with("title", long.as_str()));
    assert_eq!(transaction.add(&longer), Err(Error::LineTooLong));
    transaction.add(&book(&long))?;
    assert_eq!(transaction.commit(), Ok(1..20_002));
    assert_eq!((index.search("rust")?.count, index.search("*")?.count), (20_000, 20_001));
    Ok(())
}

#[test]
fn four_threads_have_an_index_each() -> Result<(), Error> {
    fn fill(mut index: Index, documents: u64) -> Result<Index, Error> {
        for _ in 0..documents {
            commit(&mut index)?;
        }
        Ok(index)
    }

    let mut threads = Vec::new();
    for number in 1..=4 {
        let index = Index::with_schema(&fields())?;
        threads.push((number, thread::spawn(move || fill(index, 50 * number))));
    }
    for (number, thread) in threads {
        let mut index = thread.join().expect("no thread panics")?;
        assert_eq!(index.search("rust")?.count, 50 * number);
    }
    Ok(())
}

#[test]
fn four_threads_search_their_own_searcher_while_the_writer_commits() -> Result<(), Error> {
    fn look(mut searcher: Searcher, count: u64) -> Result<(), Error> {
        for _ in 0..200 {
            assert_eq!(searcher.search("rust")?.count, count);
        }
        Ok(())
    }

    let mut index = Index::with_schema(&fields())?;
    let mut threads = Vec::new();
    for count in 1..=100 {
        commit(&mut index)?;
        if count % 25 == 1 {
            let searcher = index.searcher()?.again()?;
            threads.push(thread::spawn(move || look(searcher, count)));
        }
    }
    assert_eq!(threads.len(), 4);
    assert_eq!(index.search("rust")?.count, 100);
    drop(index);
    for thread in threads {
        thread.join().expect("no thread panics")?;
    }
    Ok(())
}

#[test]
fn a_searcher_is_one_commit_and_refuses_as_line_1() -> Result<(), Error> {
    let mut index = Index::with_schema(&fields())?;
    commit(&mut index)?;
    index.add(&book("rust"))?;
    let mut searcher = index.searcher()?;
    index.execute(r#"{"delete_all":true}"#)?;
    index.commit()?;
    assert_eq!(searcher.search("rust")?.count, 1);
    assert_eq!(searcher.search("rust OR"), Err(syntax(1, 5)));
    assert_eq!(index.search("rust")?.count, 0);
    assert_eq!(Index::open()?.searcher()?.search("rust"), Err(refused("NoSchema", 1)));
    Ok(())
}

#[test]
fn a_syntax_tells_its_byte() -> Result<(), Error> {
    let mut index = Index::with_schema(&fields())?;
    for (query, at) in [("", None), ("rust", None), ("titel:a", None), ("(rust", Some(5)), ("rust )", Some(5)),
                        ("яя \"a", Some(7)), ("year:[1 TO", Some(7)), ("title:>\"", Some(7)), ("--a", Some(1))] {
        let told = match index.search(query) {
            Err(Error::Refused(refusal)) => refusal.at,
            _ => None,
        };
        assert_eq!(told, at, "{query}");
    }
    let line = r#"{"search":{"query":"rust OR"}}"#;
    assert_eq!(index.execute(line), Err(refused("Syntax", 11)));
    assert_eq!(index.search("rust OR").map_err(|error| error.to_string()), Err("Syntax in line 12, byte 5".to_owned()));
    Ok(())
}

#[test]
fn many_are_added() -> Result<(), Error> {
    let mut index = Index::with_schema(&fields())?;
    let long = "a".repeat(1_048_576);
    let three = [book("one"), book("two"), book("three")];
    assert_eq!(index.add_many(&[]), Ok(vec![]));
    assert_eq!(index.add_many(&three), Ok(vec![1, 2, 3]));
    let mut some = vec![book("four"), Document::new().with("year", "late"), book("five")];
    some.push((0..5).fold(Document::new(), |document, _| document.with("title", long.as_str())));
    some.push(book("six"));
    let told = vec![Ok(4), Err(refused("WrongKind", 6)), Ok(5), Err(Error::LineTooLong), Ok(6)];
    assert_eq!(index.add_many(&some), Err(NotAll { told, stopped: None }));
    let many: Vec<Document> = (0..2500u64).map(|year| book("rust").with("year", year)).collect();
    assert_eq!(index.add_many(&many), Ok((7..2507).collect()));
    index.commit()?;
    assert_eq!((index.search("*")?.count, index.search("rust")?.count, index.search("six")?.count), (2506, 2500, 1));
    Ok(())
}

#[test]
fn stats_count_segments_and_documents() -> Result<(), Error> {
    let stats = |segments, documents, live| Stats { segments, documents, live };
    assert_eq!(Index::open()?.stats(), Ok(stats(0, 0, 0)));
    let mut index = Index::with_schema(&fields())?;
    assert_eq!(index.stats(), Ok(stats(0, 0, 0)));
    index.add_many(&(1..=4u64).map(|year| book("rust").with("year", year)).collect::<Vec<_>>()).expect("four books");
    assert_eq!(index.stats(), Ok(stats(0, 0, 0)));
    index.commit()?;
    let mut searcher = index.searcher()?;
    index.delete("year", 1)?;
    index.add(&book("rust"))?;
    index.commit()?;
    assert_eq!(index.stats(), Ok(stats(2, 5, 4)));
    assert_eq!(searcher.stats(), Ok(stats(1, 4, 4)));
    index.execute(r#"{"merge":true}"#)?;
    assert_eq!(index.stats(), Ok(stats(1, 4, 4)));
    Ok(())
}

#[test]
fn merges_run_beside_the_index() -> Result<(), Error> {
    let mut index = Index::open()?;
    assert_eq!(index.limit_merges(Some(0)), Err(Error::NoSchema));
    assert!(index.begin_merge()?.is_none());
    let mut index = Index::with_schema(&fields())?;
    index.limit_merges(Some(0))?;
    for year in 0..8u64 {
        index.add(&book("rust").with("year", year))?;
        index.commit()?;
    }
    let mut merge = index.begin_merge()?.expect("eight segments are due");
    assert!(!index.end_merge()?);
    let thread = std::thread::spawn(move || merge.run());
    index.delete("year", 0)?;
    index.commit()?;
    thread.join().expect("no panic")?;
    assert!(index.end_merge()?);
    assert!(!index.end_merge()?);
    assert_eq!((index.stats()?.segments, index.search("rust")?.count), (1, 7));
    index.limit_merges(None)
}

#[test]
fn refusals_and_codes_leave_the_index_as_it_was() -> Result<(), Error> {
    assert_eq!(Index::open()?.search("rust"), Err(refused("NoSchema", 1)));
    let mut index = Index::with_schema(&fields())?;
    assert_eq!(index.execute(b"{\"add\":{\"title\":\"\xff\"}}"), Err(refused("BadJson", 2)));
    assert_eq!(index.execute(vec![b' '; 4_194_305]), Err(Error::LineTooLong));
    assert_eq!(index.add(&Document::new().with("colour", "red")), Err(refused("UnknownField", 3)));
    assert_eq!(index.execute(" \t\r"), Ok(""));
    assert_eq!(index.add(&book("rust")), Ok(1));
    let long = "я".repeat(500_000);
    assert_eq!(index.add(&book(&long)), Ok(2));
    Ok(())
}

#[test]
fn the_deepest_query_fits_into_512_kib() -> Result<(), Error> {
    let deep = format!("{}rust{}", "(a b AND c OR (".repeat(16), "))".repeat(16));
    let mut index = Index::with_schema(&fields())?;
    commit(&mut index)?;
    let look = move || index.search(deep.as_str()).map(|answer| answer.count);
    let thread = thread::Builder::new().stack_size(512 * 1024).spawn(look).expect("a thread");
    assert_eq!(thread.join().expect("no panic"), Ok(1));
    Ok(())
}

#[test]
fn groups_may_have_a_limit() -> Result<(), Error> {
    let mut index = Index::with_schema(&fields())?;
    for (shelf, year) in [("b", 1), ("a", 2), ("c", 2), ("a", 3), ("b", 4)] {
        index.add(&Document::new().with("shelf", shelf).with("year", year))?;
    }
    index.commit()?;
    let mut searcher = index.searcher()?;
    let all = [(Value::from("a"), 2), (Value::from("b"), 2), (Value::from("c"), 1)];
    for limit in 0..4 {
        let search = Search::new("*").most_frequent("shelf", limit).top("year", 1, Order::Rising);
        let cut = search.clone().fields(&["year"]);
        for answer in [index.search(search.clone())?, searcher.search(search)?] {
            assert_eq!((answer.count, &answer.groups[..]), (5, &all[..limit]));
            assert_eq!(answer.hits[0].document, Document::new().with("shelf", "b").with("year", 1));
        }
        for answer in [index.search(cut.clone())?, searcher.search(cut)?] {
            assert_eq!((answer.count, &answer.groups[..]), (5, &all[..limit]));
            assert_eq!(answer.hits[0].document, Document::new().with("year", 1));
        }
    }
    Ok(())
}
