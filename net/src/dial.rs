//! Links to replicas, which are dialled again and again.

use std::future::pending;
use std::sync::Arc;
use std::time::{Duration, Instant};

use tokio::io::{AsyncReadExt, AsyncWriteExt};
use tokio::net::TcpStream;

use crate::clock::{sleep, timeout};
use crate::link::{self, LinkEnd, Receiver, BEGINNING};
use crate::log::{event, Level};
use crate::node::{Node, Replica};
use crate::record::{put_record, ACKNOWLEDGED, HELLO};
use crate::secure::Stream;

/// The pauses between two dials: the first, and the longest.
const FIRST_PAUSE: Duration = Duration::from_millis(50);
const LONGEST_PAUSE: Duration = Duration::from_secs(2);

/// How often a peer is asked how many frames came. So a peer that lives is never silent.
const ASKING: Duration = Duration::from_secs(2);

/// The head of the acceptor's first word: so many frames came.
const FIRST_WORD: [u8; 5] = [0, 0, 0, 9, ACKNOWLEDGED];

/// Dials a replica for ever. The pause doubles with each dial that comes to nothing, or to a link that ends at once.
pub async fn keep_dialling(node: Arc<Node>, replica: Arc<Replica>) {
    let mut pause = FIRST_PAUSE;
    loop {
        match begin_link(&node, &replica).await {
            Ok(stream) => {
                let begin = Instant::now();
                carry(&node, &replica, stream).await;
                if begin.elapsed() > LONGEST_PAUSE {
                    pause = FIRST_PAUSE;
                }
            }
            Err(end) => {
                let level = if pause == FIRST_PAUSE { Level::Info } else { Level::Debug };
                let (peer, address, reason) = (replica.party, &replica.address, end.to_string());
                event(level, "dial.failed", format_args!("peer={peer} address={address} reason={reason:?}"));
            }
        }
        sleep(pause).await;
        pause = LONGEST_PAUSE.min(2 * pause);
    }
}

/// A link on which the replica has answered.
async fn begin_link(node: &Node, replica: &Replica) -> Result<Stream, LinkEnd> {
    let begun = async {
        let stream = TcpStream::connect((replica.address.host.as_str(), replica.address.port)).await?;
        stream.set_nodelay(true)?;
        let mut stream = node.security.dialled(stream, replica.party).await?;
        let mut hello = Vec::new();
        put_record(HELLO, &[&node.me.0.to_be_bytes()], &mut hello);
        stream.writer.write_all(&hello).await?;
        stream.writer.flush().await?;
        let mut word = [0; 13];
        stream.reader.read_exact(&mut word).await?;
        if word.starts_with(&FIRST_WORD) {
            Ok(stream)
        } else {
            Err(LinkEnd::NoCarrier)
        }
    };
    timeout(BEGINNING, begun).await.unwrap_or(Err(LinkEnd::Slow))
}

/// Carries frames over the link until it ends.
async fn carry(node: &Node, replica: &Replica, stream: Stream) {
    let (peer, address, traffic) = (replica.party, &replica.address, node.traffic_of(replica.party));
    event(Level::Info, "link.up", format_args!("peer={peer} address={address}"));
    replica.outbox.begin_link();
    replica.set_reached(true);
    traffic.link_begins();
    node.tell_links();
    let end = link::carry(Receiver::new(node, peer, &replica.outbox), stream, pending()).await;
    replica.outbox.end_link();
    replica.set_reached(false);
    traffic.link_ends();
    node.tell_links();
    let reason = end.to_string();
    event(Level::Info, "link.down", format_args!("peer={peer} address={address} reason={reason:?}"));
}

/// Asks each replica again and again.
pub async fn keep_asking(node: Arc<Node>) {
    loop {
        sleep(ASKING).await;
        node.replicas.iter().for_each(|it| it.outbox.ask());
    }
}
