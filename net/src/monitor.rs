//! What an operator sees of a running carrier: metrics in Prometheus' text form, and a word about its health, both
//! over HTTP on a port of loopback.

use std::fmt::{self, Write};
use std::io;
use std::net::SocketAddr;
use std::sync::Arc;
use std::time::Duration;

use tokio::io::{AsyncReadExt, AsyncWriteExt};
use tokio::net::{TcpListener, TcpStream};

use crate::clock::timeout;
use crate::node::Node;
use crate::traffic::Traffic;
use crate::welcome::keep_accepting;

/// The most bytes of a question, and how long it and its answer may take.
const LONGEST_QUESTION: usize = 8192;
const LONGEST_WAIT: Duration = Duration::from_secs(2);

/// How a party stands: how many replicas are linked to it, and how many it needs.
struct Health {
    linked: usize,
    needed: usize,
}

impl Health {
    fn of(node: &Node) -> Health {
        // Of 3f + 1 replicas a replica needs 2f others, and a client 2f + 1.
        let faults = node.replicas.len() / 3;
        let needed = if node.me.is_replica() { 2 * faults } else { 2 * faults + 1 };
        Health { linked: node.count_links(), needed }
    }

    fn is_good(&self) -> bool {
        self.linked >= self.needed
    }
}

impl fmt::Display for Health {
    fn fmt(&self, f: &mut fmt::Formatter<'_>) -> fmt::Result {
        let word = if self.is_good() { "ok" } else { "alone" };
        writeln!(f, "{word} linked={} needed={}", self.linked, self.needed)
    }
}

/// Answers questions for ever.
pub async fn keep_answering(node: Arc<Node>, listener: TcpListener) {
    let meet = |stream, _| {
        let node = node.clone();
        async move {
            let _ = timeout(LONGEST_WAIT, answer(&node, stream)).await;
        }
    };
    keep_accepting(listener, &node.strangers, meet).await;
}

/// Reads a question to the blank line behind its head. What is left unread would cut off the answer.
async fn read_question(stream: &mut TcpStream) -> io::Result<Vec<u8>> {
    let mut question = Vec::with_capacity(LONGEST_QUESTION);
    while !question.ends_with(b"\r\n\r\n") && question.len() < LONGEST_QUESTION {
        if stream.read_buf(&mut question).await? == 0 {
            break;
        }
    }
    Ok(question)
}

async fn answer(node: &Node, mut stream: TcpStream) -> io::Result<()> {
    let question = read_question(&mut stream).await?;
    let (status, text) = if question.starts_with(b"GET /metrics ") {
        ("200 OK", metrics(node))
    } else if question.starts_with(b"GET /health ") {
        let health = Health::of(node);
        (if health.is_good() { "200 OK" } else { "503 Service Unavailable" }, health.to_string())
    } else {
        ("404 Not Found", "/metrics and /health are here\n".to_string())
    };
    let head = format!(
        "HTTP/1.0 {status}\r\nContent-Type: text/plain; version=0.0.4\r\nContent-Length: {}\r\n\r\n",
        text.len()
    );
    stream.write_all(head.as_bytes()).await?;
    stream.write_all(text.as_bytes()).await?;
    stream.shutdown().await
}

/// Asks the carrier at this address for its health: the line, and whether it is good.
pub async fn ask_health(address: SocketAddr) -> io::Result<(String, bool)> {
    let asked = async {
        let mut stream = TcpStream::connect(address).await?;
        stream.write_all(b"GET /health HTTP/1.0\r\n\r\n").await?;
        let mut text = String::new();
        stream.take(1 << 16).read_to_string(&mut text).await?;
        let line = text.split("\r\n\r\n").nth(1).unwrap_or_default().trim_end().to_string();
        Ok((line, text.starts_with("HTTP/1.0 200 ")))
    };
    timeout(LONGEST_WAIT, asked).await.unwrap_or_else(|| Err(io::ErrorKind::TimedOut.into()))
}

/// One metric: its name, its type, what it tells, and its values by their labels.
struct Metric<'a> {
    name: &'a str,
    kind: &'a str,
    help: &'a str,
    values: Vec<(String, u64)>,
}

impl fmt::Display for Metric<'_> {
    fn fmt(&self, f: &mut fmt::Formatter<'_>) -> fmt::Result {
        let Metric { name, kind, help, values } = self;
        writeln!(f, "# HELP btspace_{name} {help}\n# TYPE btspace_{name} {kind}")?;
        values.iter().try_for_each(|(labels, value)| writeln!(f, "btspace_{name}{labels} {value}"))
    }
}

fn metrics(node: &Node) -> String {
    let mut text = String::new();
    for metric in of_party(node).into_iter().chain(by_peer(node)) {
        let _ = write!(text, "{metric}");
    }
    text
}

/// The metrics with one value each.
fn of_party(node: &Node) -> Vec<Metric<'static>> {
    let observed = &node.observed;
    let gauges = [
        ("linked_replicas", "Other replicas that are linked", node.count_links() as u64),
        ("queue_bytes", "Bytes that wait for all peers", node.budget.used()),
        ("view", "Greatest view of a vote or new view that the replica sent", observed.view.get()),
        ("view_wanted", "Greatest view for which it sent a view change", observed.wanted_view.get()),
        ("executed_number", "Greatest number whose batch it executed", observed.executed.get()),
        ("checkpoint_number", "Greatest number of its own checkpoints", observed.checkpoint.get()),
        ("signatures_spent", "Of its 64 signatures those that were used", observed.signatures.get()),
    ];
    let counters = [
        ("view_changes_total", "View changes that it sent, repeated ones among them", observed.view_changes.get()),
        ("unroutable_frames_total", "Frames for parties that aren't linked", node.unroutable.get()),
        ("unknown_records_total", "Records of the replica that this carrier doesn't know", node.unknown_records.get()),
    ];
    let one = |kind| move |(name, help, value)| Metric { name, kind, help, values: vec![(String::new(), value)] };
    gauges.into_iter().map(one("gauge")).chain(counters.into_iter().map(one("counter"))).collect()
}

/// The metrics with a value for each peer.
fn by_peer(node: &Node) -> Vec<Metric<'static>> {
    let traffic = node.traffic();
    let read = |name, kind, help, value: fn(&Traffic) -> u64| Metric {
        name,
        kind,
        help,
        values: traffic.iter().map(|(party, it)| (format!("{{peer=\"{party}\"}}"), value(it))).collect(),
    };
    vec![
        read("links", "gauge", "Links at present, in both directions", |it| it.links.get()),
        read("links_total", "counter", "Links that began", |it| it.links_begun.get()),
        read("frames_sent_total", "counter", "Frames that were written", |it| it.frames_sent.get()),
        read("bytes_sent_total", "counter", "Bytes that were written", |it| it.bytes_sent.get()),
        read("frames_received_total", "counter", "Frames that came", |it| it.frames_received.get()),
        read("bytes_received_total", "counter", "Bytes of frames that came", |it| it.bytes_received.get()),
        read("frames_dropped_total", "counter", "Frames that had no room", |it| it.frames_dropped.get()),
    ]
}
