//! A lock, from Rust: ann asks for it, ben asks too, ann lets go, and ben gets it.

use btspace::{answers, Field, Operation, Value, Version};

fn holder(name: &str) -> Vec<Value> {
    vec!["lock".into(), "printer".into(), 0.into(), name.into()]
}

fn ask(name: &str) -> Operation {
    let anybody = vec!["lock".into(), "printer".into(), Field::Any, Field::Any];
    Operation::Cas(anybody, holder(name))
}

fn release(name: &str) -> Operation {
    Operation::Inp(holder(name).into_iter().map(Field::from).collect())
}

fn main() {
    let script = [ask("ann"), ask("ben"), release("ann"), ask("ben")];
    match answers(Version::One, &script) {
        Ok(answers) => answers.iter().for_each(|answer| println!("{answer:?}")),
        Err((number, refusal)) => eprintln!("operation {number}: {refusal:?}"),
    }
}
