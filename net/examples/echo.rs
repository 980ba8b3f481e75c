//! Stands in the place of `btspace` for `net/bench`. It computes nothing, so that the carriers' own time is left.
//!
//! `echo replica KEYS` hands each frame on to the next party that stands in it. `echo client KEYS IN OUT` sends a frame
//! for each line by as many hops as a write takes, and prints `done` once it has come back. `docs/formats.md` has the
//! records.

use std::fs::File;
use std::io::{self, BufRead, BufReader, Read, Write};
use std::path::Path;

const FRAME: u8 = 1;
const FIRST_CLIENT: u16 = 256;

/// Between which replicas a request, a pre-prepare, a prepare, a commit and a reply go.
const ROUTE: [u16; 4] = [0, 1, 2, 0];

/// Bytes of a frame, about those of a vote.
const LENGTH: usize = 164;

/// The kind and the content of the next record, or nothing at the end.
fn next_record(input: &mut impl Read) -> io::Result<Option<(u8, Vec<u8>)>> {
    let mut length = [0; 4];
    match input.read_exact(&mut length) {
        Err(error) if error.kind() == io::ErrorKind::UnexpectedEof => return Ok(None),
        read => read?,
    }
    let mut record = vec![0; u32::from_be_bytes(length) as usize];
    input.read_exact(&mut record)?;
    let kind = record.remove(0);
    Ok(Some((kind, record)))
}

/// Writes a record: the frame is to go to this party.
fn send(output: &mut impl Write, receiver: u16, frame: &[u8]) -> io::Result<()> {
    let mut record = Vec::with_capacity(8 + frame.len());
    record.extend_from_slice(&(4 + frame.len() as u32).to_be_bytes());
    record.extend_from_slice(&[FRAME, 1]);
    record.extend_from_slice(&receiver.to_be_bytes());
    record.extend_from_slice(frame);
    output.write_all(&record)?;
    output.flush()
}

/// A frame has a place, and the parties of its route. It goes to the party at the place.
fn hand_on(frame: &mut [u8], output: &mut impl Write) -> io::Result<()> {
    let place = 1 + 2 * usize::from(frame[0]);
    let receiver = u16::from_be_bytes([frame[place], frame[place + 1]]);
    frame[0] += 1;
    send(output, receiver, frame)
}

fn replica() -> io::Result<()> {
    let (mut input, mut output) = (BufReader::new(io::stdin().lock()), io::stdout().lock());
    while let Some((kind, mut content)) = next_record(&mut input)? {
        if kind == FRAME {
            hand_on(&mut content, &mut output)?;
        }
    }
    Ok(())
}

fn client(me: u16, input: &str, output: &str) -> io::Result<()> {
    let mut input = BufReader::new(File::open(input)?);
    let mut output = File::options().write(true).open(output)?;
    let mut frame = vec![0; LENGTH];
    for (place, party) in ROUTE.iter().chain(&[me]).enumerate() {
        frame[1 + 2 * place..3 + 2 * place].copy_from_slice(&party.to_be_bytes());
    }
    for line in io::stdin().lock().lines() {
        line?;
        hand_on(&mut frame.clone(), &mut output)?;
        while !matches!(next_record(&mut input)?, Some((FRAME, _))) {}
        let mut results = io::stdout().lock();
        results.write_all(b"done\n")?;
        results.flush()?;
    }
    Ok(())
}

/// The number of the client whose file this is, as `c0.toml`.
fn number_of(keys: &str) -> Option<u16> {
    let name = Path::new(keys).file_stem()?.to_str()?;
    Some(FIRST_CLIENT + name.strip_prefix('c')?.parse::<u16>().ok()?)
}

fn main() -> io::Result<()> {
    let words: Vec<String> = std::env::args().skip(1).collect();
    let words: Vec<&str> = words.iter().map(String::as_str).collect();
    match words[..] {
        ["replica", _] => replica(),
        ["client", keys, input, output] => match number_of(keys) {
            Some(me) => client(me, input, output),
            None => Err(io::Error::other("the file of keys has no name as c0.toml")),
        },
        _ => Err(io::Error::other("use: echo replica KEYS, or echo client KEYS IN OUT")),
    }
}
