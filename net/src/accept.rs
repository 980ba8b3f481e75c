//! Links that other parties dial.

use std::net::SocketAddr;
use std::sync::Arc;

use tokio::io::AsyncReadExt;
use tokio::net::{TcpListener, TcpStream};
use tokio::task::spawn;

use crate::clock::timeout;
use crate::link::{self, LinkEnd, Receiver, BEGINNING};
use crate::log::Level;
use crate::node::Node;
use crate::party::Party;
use crate::record::HELLO;
use crate::secure::Stream;
use crate::welcome::keep_accepting;

/// The head of the dialler's first word: its number.
const FIRST_WORD: [u8; 5] = [0, 0, 0, 3, HELLO];

/// Lets links of parties begin, for ever.
pub async fn keep_meeting(node: Arc<Node>, listener: TcpListener) {
    keep_accepting(listener, &node.strangers, |stream, from| meet(node.clone(), stream, from)).await;
}

/// Learns who dials, and lets the link begin.
async fn meet(node: Arc<Node>, stream: TcpStream, from: SocketAddr) {
    let met = timeout(BEGINNING, greet(&node, stream)).await;
    match met.unwrap_or(Err(LinkEnd::Slow)) {
        Ok((party, stream)) => {
            spawn(async move { carry(&node, party, stream, from).await });
        }
        Err(end) => {
            let reason = end.to_string();
            node.strangers.event(Level::Warn, "link.refused", format_args!("address={from} reason={reason:?}"));
        }
    }
}

async fn greet(node: &Node, stream: TcpStream) -> Result<(Party, Stream), LinkEnd> {
    stream.set_nodelay(true)?;
    let (mut stream, shown) = node.security.accepted(stream).await?;
    let mut word = [0; 7];
    stream.reader.read_exact(&mut word).await?;
    let party = Party(u16::from_be_bytes([word[5], word[6]]));
    if !word.starts_with(&FIRST_WORD) {
        Err(LinkEnd::NoCarrier)
    } else if node.may_dial(party) && shown.allows(party) {
        Ok((party, stream))
    } else {
        Err(LinkEnd::Refused(party))
    }
}

/// Carries frames over the link until it ends.
async fn carry(node: &Node, peer: Party, stream: Stream, from: SocketAddr) {
    let (link, traffic) = (node.accept(peer), node.traffic_of(peer));
    let level = if peer.is_replica() { Level::Info } else { Level::Debug };
    traffic.quota.event(level, "link.accepted", format_args!("peer={peer} address={from}"));
    // The dialler waits for a word.
    link.outbox.acknowledge(0);
    let own = link.clone();
    let replaced = async move {
        own.is_replaced.notified().await;
        LinkEnd::Replaced
    };
    let end = link::carry(Receiver::new(node, peer, &link.outbox), stream, replaced).await;
    node.leave(peer, &link);
    let reason = end.to_string();
    traffic.quota.event(level, "link.left", format_args!("peer={peer} address={from} reason={reason:?}"));
}
