//! Tuples, templates, operations and answers (docs/formats.md).

/// The version of a space.
#[derive(Clone, Copy, Debug, PartialEq, Eq)]
pub enum Version {
    /// At most 8,192 tuples, and no wide numbers.
    One = 1,
    /// At most 12,288 tuples, wide numbers, and `inAll`.
    Two = 2,
}

/// A value of a tuple.
#[derive(Clone, Debug, PartialEq, Eq)]
pub enum Value {
    Number(i64),
    Wide(i128),
    Text(String),
    Bytes(Vec<u8>),
    Truth(bool),
    Tuple(Vec<Value>),
}

/// A field of a template.
#[derive(Clone, Debug, PartialEq, Eq)]
pub enum Field {
    /// Matches this value alone. A nested tuple is a [`Field::Template`].
    Actual(Value),
    Template(Vec<Field>),
    Any,
    AnyNumber,
    AnyWide,
    AnyText,
    AnyBytes,
    AnyTruth,
    AnyTuple,
}

/// An operation on a space. A count is 1 to 64.
#[derive(Clone, Debug, PartialEq, Eq)]
pub enum Operation {
    Out(Vec<Value>),
    Rdp(Vec<Field>),
    Inp(Vec<Field>),
    Cas(Vec<Field>, Vec<Value>),
    RdAll(u8, Vec<Field>),
    InAll(u8, Vec<Field>),
    Upgrade,
}

/// The answer to an operation.
#[derive(Clone, Debug, PartialEq, Eq)]
pub enum Answer {
    Done,
    Found(Vec<Value>),
    Absent,
    Swapped(bool),
    All(Vec<Vec<Value>>),
    Full,
    Refused,
}

impl From<&str> for Value {
    fn from(text: &str) -> Value {
        Value::Text(text.to_owned())
    }
}

impl From<i64> for Value {
    fn from(number: i64) -> Value {
        Value::Number(number)
    }
}

impl From<Value> for Field {
    fn from(value: Value) -> Field {
        Field::Actual(value)
    }
}

impl From<&str> for Field {
    fn from(text: &str) -> Field {
        Field::Actual(text.into())
    }
}

impl From<i64> for Field {
    fn from(number: i64) -> Field {
        Field::Actual(number.into())
    }
}

impl Operation {
    /// How many bytes its answer has at most.
    pub fn most_answer(&self) -> usize {
        match self {
            Operation::Out(_) | Operation::Cas(..) | Operation::Upgrade => 2,
            Operation::Rdp(_) | Operation::Inp(_) => 1 + 1024,
            Operation::RdAll(count, _) | Operation::InAll(count, _) => 2 + 1024 * usize::from(*count),
        }
    }
}
