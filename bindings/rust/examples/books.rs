//! An index of two books, and one search.
use dilforec::{Document, Error, Field, Index, Order, Search};

fn main() -> Result<(), Error> {
    let mut index = Index::with_schema(&[Field::text("title").default(), Field::u64("year")])?;
    index.add(&Document::new().with("title", "Programming Pearls").with("year", 1986))?;
    index.add(&Document::new().with("title", "Managing Gigabytes").with("year", 1994))?;
    index.commit()?;
    let answer = index.search(Search::new("pearls OR year:>1990").top("year", 9, Order::Falling))?;
    println!("{} books", answer.count);
    for hit in &answer.hits {
        let title = hit.document.get("title").and_then(|title| title.as_str());
        println!("{} {}", hit.value, title.unwrap_or_default());
    }
    Ok(())
}
