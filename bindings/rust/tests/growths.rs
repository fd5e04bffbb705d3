//! Each growth is refused in turn, of the library and of this crate: a call that finds no memory changes nothing, so
//! each document is there once. The refusals are those of bindings/refuse.c, if LD_PRELOAD names it, as it is built.
use dilforec::{Document, Error, Field, Index, NotAll, Order, Search};
use std::ffi::{c_char, c_long, c_void, CStr};

const DOCUMENTS: u64 = 200;

extern "C" {
    fn dlsym(handle: *mut c_void, name: *const c_char) -> *mut c_void;
}

type Refuse = extern "C" fn(c_long, *const c_char) -> c_long;

fn refuse() -> Option<Refuse> {
    let name = CStr::from_bytes_with_nul(b"refuse_growth\0").expect("a name");
    // SAFETY: a null handle means all objects of the process, and the function has this type.
    unsafe { std::mem::transmute(dlsym(std::ptr::null_mut(), name.as_ptr())) }
}

/// What a call gives once it is granted all growths: the first time none, then one, then two and so on.
fn again<T>(refuse: Refuse, refusals: &mut u64, mut call: impl FnMut() -> Result<T, Error>) -> Result<T, Error> {
    for growth in 1.. {
        refuse(growth, std::ptr::null());
        let told = call();
        refuse(0, std::ptr::null());
        match told {
            Err(Error::Memory) => *refusals += 1,
            told => return told,
        }
    }
    unreachable!("a call ends")
}

#[test]
fn each_document_is_there_once() -> Result<(), Error> {
    let Some(refuse) = refuse() else {
        println!("nothing is refused: LD_PRELOAD doesn't name bindings/refuse.c");
        return Ok(());
    };
    let mut refusals = 0;
    let fields = [Field::text("title").default(), Field::u64("year")];
    let mut index = again(refuse, &mut refusals, || Index::with_schema(&fields))?;
    for year in 0..DOCUMENTS {
        let document = Document::new().with("title", "rust").with("year", year);
        assert_eq!(again(refuse, &mut refusals, || index.add(&document))?, year + 1);
    }
    for year in 0..DOCUMENTS {
        let document = Document::new().with("title", "more rust").with("year", year);
        assert_eq!(again(refuse, &mut refusals, || index.replace("year", &document))?, DOCUMENTS + 2 * year + 2);
    }
    again(refuse, &mut refusals, || index.commit())?;
    let search = Search::new("more").groups("year").top("year", 100, Order::Rising);
    let answer = again(refuse, &mut refusals, || index.search(search.clone()))?;
    assert_eq!((answer.count, answer.groups.len() as u64, answer.hits.len()), (DOCUMENTS, DOCUMENTS, 100));
    let mut searcher = again(refuse, &mut refusals, || index.searcher())?;
    assert_eq!(again(refuse, &mut refusals, || searcher.search(search.clone()))?, answer);
    assert_eq!(index.search("*")?.count, DOCUMENTS);
    refusals += many_are_there_once(refuse)?;
    refusals += a_transaction_is_done_once(refuse)?;
    assert!(refusals > 1000);
    println!("{refusals} refusals");
    Ok(())
}

/// Each growth of a block is refused in turn; what was done is told, and the call goes on after it. Tells the refusals.
fn many_are_there_once(refuse: Refuse) -> Result<u64, Error> {
    let book = |year| Document::new().with("title", "rust").with("year", year);
    let books: Vec<Document> = (0..DOCUMENTS).map(book).collect();
    let mut index = Index::with_schema(&[Field::text("title").default(), Field::u64("year")])?;
    let (mut stamps, mut refusals, mut growth) = (Vec::with_capacity(books.len()), 0, 1);
    while stamps.len() < books.len() {
        refuse(growth, std::ptr::null());
        let told = index.add_many(&books[stamps.len()..]);
        refuse(0, std::ptr::null());
        let done = match told {
            Ok(done) => done,
            Err(NotAll { told, stopped }) => {
                assert_eq!(stopped, Some(Error::Memory));
                refusals += 1;
                told.into_iter().collect::<Result<_, _>>()?
            }
        };
        growth = if done.is_empty() { growth + 1 } else { 1 };
        stamps.extend(done);
    }
    assert!(stamps.into_iter().eq(1..=DOCUMENTS));
    index.commit()?;
    assert_eq!(index.search("*")?.count, DOCUMENTS);
    Ok(refusals)
}

/// Each growth of a transaction is refused in turn, and then nothing of it stays. Tells the refusals.
fn a_transaction_is_done_once(refuse: Refuse) -> Result<u64, Error> {
    let mut index = Index::with_schema(&[Field::text("title").default(), Field::u64("year")])?;
    index.add(&Document::new().with("title", "before"))?;
    let mut refusals = 0;
    let stamps = again(refuse, &mut refusals, || {
        let mut transaction = index.transaction()?;
        transaction.delete("title", "before")?;
        for year in 0..DOCUMENTS {
            transaction.add(&Document::new().with("title", "rust").with("year", year))?;
        }
        transaction.commit().map_err(|none| none.error)
    })?;
    assert_eq!((stamps, index.search("*")?.count), (3..DOCUMENTS + 4, DOCUMENTS));
    assert_eq!(index.commit()?, DOCUMENTS + 5);
    Ok(refusals)
}
