//! A space that lasts, from Rust: a job is put and taken, and what is left is saved as pages and read again.

use btspace::{Field, Operation, Refusal, Space, Value, Version};

fn job(number: i64) -> Vec<Value> {
    vec!["job".into(), number.into()]
}

fn main() -> Result<(), Refusal> {
    let take = Operation::Inp(vec!["job".into(), Field::AnyNumber]);
    let mut space = Space::new(Version::One)?;
    for operation in [Operation::Out(job(1)), Operation::Out(job(2)), take.clone()] {
        println!("{:?}", space.apply(&operation)?);
    }

    // The pages and the header are the whole space.
    let (pages, header) = (space.pages()?, space.header(1)?);
    drop(space);

    let (mut other, _number) = Space::from_pages(&pages, &header)?;
    for _ in 0..2 {
        println!("{:?}", other.apply(&take)?);
    }
    Ok(())
}
