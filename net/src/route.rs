//! What the child writes goes where it belongs. The child is always read, so it never waits for a peer.

use std::fmt;
use std::io;

use tokio::io::{AsyncRead, AsyncReadExt};

use crate::node::Node;
use crate::outbox::Shared;
use crate::party::Party;
use crate::record::{put_record, Records, WrongLength, FRAME, LONGEST_OF_CHILD, TIMER};

/// Why the child's records end.
#[derive(Debug)]
pub enum RouteEnd {
    /// The child closed them.
    Closed,
    Read(io::Error),
    /// The child wrote no record.
    Length(WrongLength),
}

impl fmt::Display for RouteEnd {
    fn fmt(&self, f: &mut fmt::Formatter<'_>) -> fmt::Result {
        match self {
            RouteEnd::Closed => f.write_str("closed"),
            RouteEnd::Read(error) => error.fmt(f),
            RouteEnd::Length(wrong) => wrong.fmt(f),
        }
    }
}

/// Takes the child's records until they end.
pub async fn route(node: &Node, mut child: impl AsyncRead + Unpin) -> RouteEnd {
    let mut records = Records::new(LONGEST_OF_CHILD);
    let mut text = Vec::new();
    loop {
        match child.read(records.room()).await {
            Ok(0) => return RouteEnd::Closed,
            Ok(count) => records.came(count),
            Err(error) => return RouteEnd::Read(error),
        }
        loop {
            match records.next() {
                Ok(Some(record)) => act_on(node, record.kind, record.content, &mut text),
                Ok(None) => break,
                Err(wrong) => return RouteEnd::Length(wrong),
            }
        }
    }
}

fn act_on(node: &Node, kind: u8, content: &[u8], text: &mut Vec<u8>) {
    node.records_of_child.add(1);
    match (kind, content) {
        (FRAME, [count, rest @ ..]) if rest.len() >= 2 * usize::from(*count) => {
            let (receivers, frame) = rest.split_at(2 * usize::from(*count));
            node.observed.note(frame);
            text.clear();
            put_record(FRAME, &[frame], text);
            let record = Shared::from(text.as_slice());
            for receiver in receivers.chunks_exact(2) {
                node.send(Party(u16::from_be_bytes([receiver[0], receiver[1]])), &record);
            }
        }
        (TIMER, [a, b, c, d, e, f, g, h, milliseconds @ ..]) if milliseconds.len() == 4 => {
            let number = u64::from_be_bytes([*a, *b, *c, *d, *e, *f, *g, *h]);
            let milliseconds = milliseconds.iter().fold(0, |sum, byte| sum << 8 | u32::from(*byte));
            node.timer.begin(number, milliseconds);
        }
        _ => node.unknown_records.add(1),
    }
}

#[cfg(test)]
mod tests {
    use super::*;

    /// How the records end, and the bytes that wait for each replica.
    async fn routed(node: &Node, text: &[u8]) -> (String, Vec<usize>) {
        let end = route(node, text).await;
        (end.to_string(), node.replicas.iter().map(|it| it.outbox.bytes()).collect())
    }

    #[tokio::test(flavor = "current_thread")]
    async fn frames_go_to_their_receivers() {
        let node = Node::of_client();
        // That of docs/formats.md, to replicas 0 and 3 and to client 0; then an unknown one, and one with too few
        // receivers.
        let text = b"\0\0\0\x0a\x01\x03\0\0\0\x03\x01\0\xaa\xbb\0\0\0\x02\x80\x01\0\0\0\x02\x01\x09";
        assert_eq!(routed(&node, text).await, ("closed".into(), vec![7, 0, 0, 7]));
        assert_eq!((node.unroutable.get(), node.unknown_records.get()), (1, 2));
    }

    #[tokio::test(flavor = "current_thread")]
    async fn a_child_that_writes_no_records() {
        let (end, _) = routed(&Node::of_client(), b"\xff\xff\xff\xff\x01").await;
        assert_eq!(end, "a record of 4294967295 bytes");
    }
}
