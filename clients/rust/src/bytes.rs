//! The encodings of operations, and the reading of answers (docs/formats.md, "Bytes").

use crate::values::{Answer, Field, Operation, Value};

/// Bytes that spell no answer.
#[derive(Clone, Copy, Debug, PartialEq, Eq)]
pub struct Malformed;

impl Operation {
    /// Appends the encoding. What is outside the limits is refused by the library as malformed.
    pub fn encode(&self, out: &mut Vec<u8>) {
        match self {
            Operation::Out(tuple) => put_tagged(0x21, tuple, out),
            Operation::Rdp(template) => put_tagged(0x22, template, out),
            Operation::Inp(template) => put_tagged(0x23, template, out),
            Operation::Cas(template, tuple) => {
                put_tagged(0x24, template, out);
                put_list(tuple, out);
            }
            Operation::RdAll(count, template) => {
                out.extend([0x25, *count]);
                put_list(template, out);
            }
            Operation::InAll(count, template) => {
                out.extend([0x26, *count]);
                put_list(template, out);
            }
            Operation::Upgrade => out.push(0x27),
        }
    }
}

trait Item {
    fn put(&self, out: &mut Vec<u8>);
}

fn put_tagged<T: Item>(tag: u8, items: &[T], out: &mut Vec<u8>) {
    out.push(tag);
    put_list(items, out);
}

// A list that is too long has a count that no list has, so it is refused.
fn put_list<T: Item>(items: &[T], out: &mut Vec<u8>) {
    out.push(items.len().try_into().unwrap_or(u8::MAX));
    for item in items {
        item.put(out);
    }
}

impl Item for Value {
    fn put(&self, out: &mut Vec<u8>) {
        match self {
            Value::Number(number) => {
                out.push(0x01);
                out.extend(number.to_be_bytes());
            }
            Value::Text(text) => put_string(0x02, text.as_bytes(), out),
            Value::Bytes(bytes) => put_string(0x03, bytes, out),
            Value::Truth(truth) => out.extend([0x04, u8::from(*truth)]),
            Value::Tuple(values) => put_tagged(0x05, values, out),
            Value::Wide(number) => {
                out.push(0x06);
                out.extend(number.to_be_bytes());
            }
        }
    }
}

impl Item for Field {
    fn put(&self, out: &mut Vec<u8>) {
        match self {
            Field::Actual(value) => value.put(out),
            Field::Template(fields) => put_tagged(0x05, fields, out),
            Field::Any => out.push(0x10),
            Field::AnyNumber => out.push(0x11),
            Field::AnyText => out.push(0x12),
            Field::AnyBytes => out.push(0x13),
            Field::AnyTruth => out.push(0x14),
            Field::AnyTuple => out.push(0x15),
            Field::AnyWide => out.push(0x16),
        }
    }
}

// One that is too long has the greatest length, which is beyond the limit of the whole.
fn put_string(tag: u8, bytes: &[u8], out: &mut Vec<u8>) {
    let len = u16::try_from(bytes.len()).unwrap_or(u16::MAX);
    out.push(tag);
    out.extend(len.to_be_bytes());
    out.extend(bytes);
}

impl Answer {
    /// The answers whose encodings stand one behind another in these bytes.
    pub fn decode_all(mut bytes: &[u8]) -> Result<Vec<Answer>, Malformed> {
        let mut answers = Vec::new();
        while !bytes.is_empty() {
            answers.push(read_answer(&mut bytes)?);
        }
        Ok(answers)
    }
}

fn read_answer(bytes: &mut &[u8]) -> Result<Answer, Malformed> {
    Ok(match byte(bytes)? {
        0x31 => Answer::Done,
        0x32 => Answer::Found(read_tuple(bytes)?),
        0x33 => Answer::Absent,
        0x34 => Answer::Swapped(read_truth(bytes)?),
        0x35 => {
            let count = byte(bytes)?;
            Answer::All((0..count).map(|_| read_tuple(bytes)).collect::<Result<_, _>>()?)
        }
        0x36 => Answer::Full,
        0x37 => Answer::Refused,
        _ => return Err(Malformed),
    })
}

fn read_tuple(bytes: &mut &[u8]) -> Result<Vec<Value>, Malformed> {
    let count = byte(bytes)?;
    (0..count).map(|_| read_value(bytes)).collect()
}

fn read_value(bytes: &mut &[u8]) -> Result<Value, Malformed> {
    Ok(match byte(bytes)? {
        0x01 => Value::Number(i64::from_be_bytes(array(bytes)?)),
        0x02 => Value::Text(String::from_utf8(string(bytes)?.to_vec()).map_err(|_| Malformed)?),
        0x03 => Value::Bytes(string(bytes)?.to_vec()),
        0x04 => Value::Truth(read_truth(bytes)?),
        0x05 => Value::Tuple(read_tuple(bytes)?),
        0x06 => Value::Wide(i128::from_be_bytes(array(bytes)?)),
        _ => return Err(Malformed),
    })
}

fn read_truth(bytes: &mut &[u8]) -> Result<bool, Malformed> {
    match byte(bytes)? {
        0 => Ok(false),
        1 => Ok(true),
        _ => Err(Malformed),
    }
}

fn string<'a>(bytes: &mut &'a [u8]) -> Result<&'a [u8], Malformed> {
    let len = u16::from_be_bytes(array(bytes)?);
    front(bytes, len.into())
}

fn byte(bytes: &mut &[u8]) -> Result<u8, Malformed> {
    Ok(front(bytes, 1)?[0])
}

fn array<const N: usize>(bytes: &mut &[u8]) -> Result<[u8; N], Malformed> {
    front(bytes, N)?.try_into().map_err(|_| Malformed)
}

fn front<'a>(bytes: &mut &'a [u8], len: usize) -> Result<&'a [u8], Malformed> {
    if len > bytes.len() {
        return Err(Malformed);
    }
    let (front, rest) = bytes.split_at(len);
    *bytes = rest;
    Ok(front)
}
