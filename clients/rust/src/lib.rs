//! One space of btspace, a Linda tuple space, over its static library: a function from operations to their answers, and
//! a space that lasts ([`Space`]).
//!
//! ```
//! use btspace::{answers, Answer, Field, Operation, Value, Version};
//!
//! let job = |number| vec![Value::from("job"), Value::Number(number)];
//! let any_job = vec![Field::from("job"), Field::AnyNumber];
//! let script = [Operation::Out(job(1)), Operation::Inp(any_job.clone()), Operation::Inp(any_job)];
//! assert_eq!(answers(Version::One, &script).unwrap(), [Answer::Done, Answer::Found(job(1)), Answer::Absent]);
//! ```
//!
//! What is behind it is proved (`crates/space_library`). This crate is not.

mod bytes;
mod space;
mod values;

pub use bytes::Malformed;
pub use space::{Pages, Space, HEADER_LEN, PAGES};
pub use values::{Answer, Field, Operation, Value, Version};

/// Why a run ended before the end of its operations, or why nothing was done to a space.
#[derive(Clone, Copy, Debug, PartialEq, Eq)]
pub enum Refusal {
    /// 4, memory ran out.
    NoMemory,
    /// 5, no front of the rest spells an operation: it is outside the limits of docs/formats.md. Or the pages are no
    /// space's.
    Malformed,
    /// 7, the answer may not fit.
    TooLarge,
    /// Another number.
    Other(u8),
}

impl Refusal {
    fn of(number: u8) -> Refusal {
        match number {
            4 => Refusal::NoMemory,
            5 => Refusal::Malformed,
            7 => Refusal::TooLarge,
            _ => Refusal::Other(number),
        }
    }
}

/// How far a run came.
#[repr(C)]
#[derive(Clone, Copy, Debug, Default, PartialEq, Eq)]
pub struct Ran {
    /// So many bytes of the operations were applied.
    pub read: usize,
    /// So many bytes of the results are their answers.
    pub written: usize,
}

extern "C" {
    fn btspace_run(
        version: u8,
        operations: *const u8,
        operations_len: usize,
        results: *mut u8,
        results_len: usize,
        ran: *mut Ran,
    ) -> u8;
}

/// Applies operations, whose encodings stand one behind another, to a new space, and writes their answers' encodings. It
/// tells how far it came, and why it ended there if it wasn't at the end.
pub fn run(version: Version, operations: &[u8], results: &mut [u8]) -> (Ran, Result<(), Refusal>) {
    let mut ran = Ran::default();
    // SAFETY: a slice's pointer isn't null, so many bytes are there, and the borrows keep others from them.
    let number = unsafe {
        btspace_run(
            version as u8,
            operations.as_ptr(),
            operations.len(),
            results.as_mut_ptr(),
            results.len(),
            &mut ran,
        )
    };
    (ran, if number == 0 { Ok(()) } else { Err(Refusal::of(number)) })
}

/// The answers to operations on a new space, or the number of the operation that was refused, from 0, and why.
pub fn answers(version: Version, operations: &[Operation]) -> Result<Vec<Answer>, (usize, Refusal)> {
    let mut script = Vec::new();
    let mut most = 0;
    for operation in operations {
        operation.encode(&mut script);
        most += operation.most_answer();
    }
    let mut results = vec![0; most];
    let (ran, end) = run(version, &script, &mut results);
    let answers = Answer::decode_all(&results[..ran.written]).expect("the library spells answers");
    match end {
        Ok(()) => Ok(answers),
        Err(refusal) => Err((answers.len(), refusal)),
    }
}
