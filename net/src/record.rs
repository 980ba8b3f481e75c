//! Records in a stream: a length of four bytes, a kind, and a content.
//!
//! Between a carrier and its child they are those of `docs/formats.md`. Between two carriers the same frame records
//! go, and three kinds more: who dials says so first, who accepted tells how many frames came, and who dialled asks
//! for that.

use std::fmt;

/// The kinds of records between a carrier and its child.
pub const FRAME: u8 = 1;
pub const TIMER: u8 = 2;
pub const LINKS: u8 = 3;

/// The kinds of records between carriers, beside [`FRAME`]: who dials (2 bytes), how many frames came over this link
/// (8 bytes), and a question for the latter.
pub const HELLO: u8 = 0;
pub const ACKNOWLEDGED: u8 = 2;
pub const QUESTION: u8 = 3;

/// The most bytes of a record without its length: a kind and the longest frame.
pub const LONGEST: usize = 1 + 4_194_304;

/// The most that the child writes in a record: the longest frame for ten receivers.
pub const LONGEST_OF_CHILD: usize = LONGEST + 1 + 2 * 10;

/// The most of a client: a request of 2,407 bytes.
pub const LONGEST_OF_CLIENT: usize = 1 + 2_407;

/// Room for reading that a stream has at least, in bytes.
const PIECE: usize = 65_536;

/// Bytes that a record's length and its kind take.
const HEAD: usize = 5;

/// A record that came whole.
#[derive(Debug, PartialEq, Eq)]
pub struct Record<'a> {
    pub kind: u8,
    pub content: &'a [u8],
    /// The record with its length.
    pub bytes: &'a [u8],
}

/// A length that no record has here.
#[derive(Debug, PartialEq, Eq)]
pub struct WrongLength(pub u32);

impl fmt::Display for WrongLength {
    fn fmt(&self, f: &mut fmt::Formatter<'_>) -> fmt::Result {
        write!(f, "a record of {} bytes", self.0)
    }
}

/// Takes records from the bytes of a stream. It keeps a piece, or the one record that hasn't come whole; and of that
/// only bytes that came, not those that its length promises.
pub struct Records {
    bytes: Vec<u8>,
    start: usize,
    end: usize,
    longest: usize,
    piece: usize,
}

impl Records {
    /// For records of so many bytes at most, without their length.
    pub fn new(longest: usize) -> Records {
        let piece = PIECE.min(4 * longest);
        Records { bytes: vec![0; piece], start: 0, end: 0, longest, piece }
    }

    /// Where the next bytes of the stream are to be put. It isn't empty.
    pub fn room(&mut self) -> &mut [u8] {
        if self.start > 0 {
            self.bytes.copy_within(self.start..self.end, 0);
            self.end -= self.start;
            self.start = 0;
        }
        if self.end == 0 && self.bytes.len() > self.piece {
            self.bytes = vec![0; self.piece];
        }
        if self.end == self.bytes.len() {
            let longer = (2 * self.end).min(HEAD + self.longest);
            self.bytes.resize(longer.max(self.end + 1), 0);
        }
        &mut self.bytes[self.end..]
    }

    /// So many bytes were put there.
    pub fn came(&mut self, count: usize) {
        self.end += count;
    }

    /// The next record that came whole.
    pub fn next(&mut self) -> Result<Option<Record<'_>>, WrongLength> {
        let waiting = &self.bytes[self.start..self.end];
        let Some(&[a, b, c, d]) = waiting.get(..4).and_then(|it| <&[u8; 4]>::try_from(it).ok()) else {
            return Ok(None);
        };
        let length = u32::from_be_bytes([a, b, c, d]);
        if length == 0 || length as usize > self.longest {
            return Err(WrongLength(length));
        }
        let Some(bytes) = waiting.get(..4 + length as usize) else {
            return Ok(None);
        };
        self.start += bytes.len();
        Ok(Some(Record { kind: bytes[4], content: &bytes[HEAD..], bytes }))
    }
}

/// Appends a record of this kind, and with these parts as its content.
pub fn put_record(kind: u8, parts: &[&[u8]], text: &mut Vec<u8>) {
    let length: usize = parts.iter().map(|it| it.len()).sum();
    text.extend_from_slice(&(1 + length as u32).to_be_bytes());
    text.push(kind);
    for part in parts {
        text.extend_from_slice(part);
    }
}

#[cfg(test)]
mod tests {
    use super::*;

    fn put(records: &mut Records, mut bytes: &[u8]) {
        while !bytes.is_empty() {
            let room = records.room();
            let count = room.len().min(bytes.len());
            room[..count].copy_from_slice(&bytes[..count]);
            records.came(count);
            bytes = &bytes[count..];
        }
    }

    #[test]
    fn records_in_pieces_of_each_length() {
        let mut text = Vec::new();
        put_record(FRAME, &[b"\xa1", b"\xb2\xc3"], &mut text);
        put_record(TIMER, &[&7u64.to_be_bytes()], &mut text);
        // As docs/formats.md has them.
        assert_eq!(text, b"\0\0\0\x04\x01\xa1\xb2\xc3\0\0\0\x09\x02\0\0\0\0\0\0\0\x07");
        for length in 1..=text.len() {
            let (mut records, mut found) = (Records::new(20), Vec::new());
            for piece in text.chunks(length) {
                put(&mut records, piece);
                while let Some(record) = records.next().unwrap() {
                    found.push((record.kind, record.content.to_vec(), record.bytes.len()));
                }
            }
            let wanted = [(FRAME, b"\xa1\xb2\xc3".to_vec(), 8), (TIMER, 7u64.to_be_bytes().to_vec(), 13)];
            assert_eq!(found, wanted);
        }
    }

    #[test]
    fn lengths_that_no_record_has() {
        for (length, fault) in [(0u32, true), (1, false), (20, false), (21, true), (u32::MAX, true)] {
            let mut records = Records::new(20);
            put(&mut records, &length.to_be_bytes());
            assert_eq!(records.next().is_err(), fault, "{length}");
        }
    }

    #[test]
    fn a_long_record_takes_what_came_of_it() {
        let mut records = Records::new(LONGEST);
        put(&mut records, &(LONGEST as u32).to_be_bytes());
        put(&mut records, &[FRAME; 1000]);
        assert_eq!(records.next(), Ok(None));
        assert_eq!(records.bytes.len(), PIECE);
        put(&mut records, &vec![FRAME; LONGEST - 1000]);
        assert_eq!(records.next().unwrap().unwrap().content.len(), LONGEST - 1);
        assert!(records.bytes.len() <= HEAD + LONGEST);
        records.room();
        assert_eq!(records.bytes.len(), PIECE);
    }
}
