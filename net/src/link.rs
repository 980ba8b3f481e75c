//! What both ends of a link do: they write what waits for the peer, and take what comes from it.

use std::convert::Infallible;
use std::fmt;
use std::future::Future;
use std::io;
use std::sync::atomic::{AtomicBool, Ordering};
use std::sync::Arc;
use std::time::Duration;

use tokio::io::{AsyncRead, AsyncReadExt, AsyncWrite, AsyncWriteExt};
use tokio::task::JoinSet;

use crate::clock::sleep;
use crate::intake::Lane;
use crate::node::Node;
use crate::outbox::Outbox;
use crate::party::Party;
use crate::record::{Record, Records, WrongLength, ACKNOWLEDGED, FRAME, LONGEST, LONGEST_OF_CLIENT, QUESTION};
use crate::secure::Stream;
use crate::traffic::Traffic;

/// How long a link may take to begin.
pub const BEGINNING: Duration = Duration::from_secs(5);

/// A link ends if nothing came in a whole one of these.
pub const SILENCE: Duration = Duration::from_secs(5);

/// A peer is told how many frames came once so many more did, or so many bytes more, or if it asks.
const FRAMES_TOLD: u64 = 64;
const BYTES_TOLD: usize = 32_768;

/// Why a link ended, or didn't begin.
#[derive(Debug)]
pub enum LinkEnd {
    Closed,
    Silent,
    Slow,
    Replaced,
    /// The other end is no carrier of this cluster.
    NoCarrier,
    /// The party may not dial, or its certificate has another name.
    Refused(Party),
    Io(io::Error),
    Length(WrongLength),
}

impl fmt::Display for LinkEnd {
    fn fmt(&self, f: &mut fmt::Formatter<'_>) -> fmt::Result {
        match self {
            LinkEnd::Closed => f.write_str("closed"),
            LinkEnd::Silent => write!(f, "silent for {} s", SILENCE.as_secs()),
            LinkEnd::Slow => write!(f, "not begun within {} s", BEGINNING.as_secs()),
            LinkEnd::Replaced => f.write_str("replaced by newer links"),
            LinkEnd::NoCarrier => f.write_str("the other end is no carrier"),
            LinkEnd::Refused(party) => write!(f, "the other end may not be {party}"),
            LinkEnd::Io(error) => error.fmt(f),
            LinkEnd::Length(wrong) => wrong.fmt(f),
        }
    }
}

impl From<io::Error> for LinkEnd {
    fn from(error: io::Error) -> LinkEnd {
        LinkEnd::Io(error)
    }
}

impl From<WrongLength> for LinkEnd {
    fn from(wrong: WrongLength) -> LinkEnd {
        LinkEnd::Length(wrong)
    }
}

/// Carries what goes and comes over a link until one of both ends, or until it is told to end. Each is a task of its
/// own, so that a wake has one of them to look at.
pub async fn carry(
    receiver: Receiver,
    stream: Stream,
    told_to_end: impl Future<Output = LinkEnd> + Send + 'static,
) -> LinkEnd {
    let mut tasks = JoinSet::new();
    tasks.spawn(send(receiver.outbox.clone(), stream.writer));
    tasks.spawn(watch(receiver.is_heard.clone()));
    tasks.spawn(receiver.receive(stream.reader));
    tasks.spawn(told_to_end);
    // The others end with the set.
    match tasks.join_next().await {
        Some(Ok(end)) => end,
        _ => LinkEnd::Closed,
    }
}

/// Waits until nothing came for a while.
async fn watch(is_heard: Arc<AtomicBool>) -> LinkEnd {
    // A timer for each read would cost more than what it watches.
    loop {
        sleep(SILENCE).await;
        if !is_heard.swap(false, Ordering::Relaxed) {
            return LinkEnd::Silent;
        }
    }
}

/// Writes what waits for the peer until that fails. What is ready goes in one write.
async fn send(outbox: Arc<Outbox>, mut link: impl AsyncWrite + Unpin) -> LinkEnd {
    let mut text = Vec::new();
    loop {
        outbox.take(&mut text).await;
        let written = async {
            link.write_all(&text).await?;
            link.flush().await
        };
        if let Err(error) = written.await {
            return error.into();
        }
    }
}

/// Takes what comes from a party over a link. Frames are all that the child gets of it.
pub struct Receiver {
    lane: Arc<Lane>,
    traffic: Arc<Traffic>,
    outbox: Arc<Outbox>,
    /// Whether something came since it was last looked at.
    is_heard: Arc<AtomicBool>,
    longest: usize,
    frames_came: u64,
    frames_told: u64,
    bytes_untold: usize,
}

impl Receiver {
    pub fn new(node: &Node, party: Party, outbox: &Arc<Outbox>) -> Receiver {
        Receiver {
            lane: node.lane_of(party),
            traffic: node.traffic_of(party),
            outbox: outbox.clone(),
            is_heard: Arc::default(),
            longest: if party.is_replica() { LONGEST } else { LONGEST_OF_CLIENT },
            frames_came: 0,
            frames_told: 0,
            bytes_untold: 0,
        }
    }

    /// Takes records until the link ends. While the child is full, nothing is read.
    async fn receive(mut self, link: impl AsyncRead + Unpin) -> LinkEnd {
        match self.take_all(link).await {
            Ok(never) => match never {},
            Err(end) => end,
        }
    }

    async fn take_all(&mut self, mut link: impl AsyncRead + Unpin) -> Result<Infallible, LinkEnd> {
        let mut records = Records::new(self.longest);
        loop {
            match link.read(records.room()).await? {
                0 => return Err(LinkEnd::Closed),
                count => records.came(count),
            }
            self.is_heard.store(true, Ordering::Relaxed);
            self.take_records(&mut records).await?;
        }
    }

    async fn take_records(&mut self, records: &mut Records) -> Result<(), WrongLength> {
        let mut has_asked = false;
        while let Some(record) = records.next()? {
            has_asked |= record.kind == QUESTION;
            self.take(&record).await;
        }
        self.acknowledge(has_asked);
        Ok(())
    }

    async fn take(&mut self, record: &Record<'_>) {
        match record.kind {
            FRAME => {
                self.lane.put(record.bytes).await;
                self.frames_came += 1;
                self.bytes_untold += record.bytes.len();
                self.traffic.received(record.bytes.len());
            }
            ACKNOWLEDGED => {
                if let Ok(number) = record.content.try_into() {
                    self.outbox.acknowledged(u64::from_be_bytes(number));
                }
            }
            _ => {}
        }
    }

    fn acknowledge(&mut self, has_asked: bool) {
        if has_asked || self.frames_came - self.frames_told >= FRAMES_TOLD || self.bytes_untold >= BYTES_TOLD {
            self.outbox.acknowledge(self.frames_came);
            self.frames_told = self.frames_came;
            self.bytes_untold = 0;
        }
    }
}

#[cfg(test)]
mod tests {
    use super::*;
    use crate::record::{put_record, HELLO, LINKS};

    /// How a link of this party ends over which these bytes come, what the child gets, and what the peer is told.
    async fn received(party: Party, bytes: &[u8]) -> (String, Vec<u8>, Vec<u8>) {
        let node = Node::of_client();
        let outbox = Outbox::of_accepted(&node.budget, node.traffic_of(party));
        let end = Receiver::new(&node, party, &outbox).receive(bytes).await;
        (end.to_string(), node.intake.next(), outbox.next())
    }

    #[tokio::test(flavor = "current_thread")]
    async fn frames_alone_reach_the_child() {
        let (mut text, mut frames) = (Vec::new(), Vec::new());
        for kind in [HELLO, FRAME, LINKS, FRAME, 0x80, QUESTION] {
            put_record(kind, &[b"ab"], &mut text);
            if kind == FRAME {
                put_record(kind, &[b"ab"], &mut frames);
            }
        }
        // Two frames came, and the peer asked.
        let told = b"\0\0\0\x09\x02\0\0\0\0\0\0\0\x02".to_vec();
        assert_eq!(received(Party(0), &text).await, ("closed".into(), frames, told));
    }

    #[tokio::test(flavor = "current_thread")]
    async fn a_peer_is_told_of_64_frames_without_asking() {
        for (count, is_told) in [(63, false), (64, true)] {
            let mut text = Vec::new();
            (0..count).for_each(|_| put_record(FRAME, &[b"ab"], &mut text));
            let (_, child, peer) = received(Party(0), &text).await;
            assert_eq!((child.len(), !peer.is_empty()), (text.len(), is_told));
        }
    }

    #[tokio::test(flavor = "current_thread")]
    async fn a_client_has_short_frames() {
        for (party, length, wanted) in
            [(256, 2_408, "closed"), (256, 2_409, "a record of 2409 bytes"), (0, 2_409, "closed")]
        {
            let mut text = Vec::new();
            put_record(FRAME, &[&vec![7; length - 1]], &mut text);
            assert_eq!(received(Party(party), &text).await.0, wanted);
        }
    }
}
