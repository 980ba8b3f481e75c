//! A client at a terminal: a prompt before each line, and the result behind it.

use std::io::{self, BufRead, Write};
use std::sync::Arc;
use std::time::Duration;

use tokio::io::{AsyncBufReadExt, AsyncWriteExt, BufReader};
use tokio::process::{ChildStdin, ChildStdout};
use tokio::sync::mpsc;

use crate::clock::sleep;
use crate::node::Node;

const PROMPT: &str = "> ";

/// After so long without an answer a person is told how many replicas are linked.
const WORRY: Duration = Duration::from_secs(5);

const HELP: &str = "\
out TUPLE              puts the tuple             out (\"job\" 7)
rdp TEMPLATE           reads the oldest match     rdp (\"job\" ?int)
inp TEMPLATE           takes the oldest match     inp (\"job\" ?int)
cas TEMPLATE TUPLE     puts it if nothing matches cas (\"lock\" *) (\"lock\" 1)
rdAll N TEMPLATE       reads up to N matches      rdAll 64 (\"job\" *)
inAll N TEMPLATE       takes up to N matches      inAll 64 (\"job\" *)
upgrade                moves the space to version 2
";

/// Reads the terminal's lines until its end. One that is at work waits for its answer.
pub async fn converse(node: Arc<Node>, lines: (ChildStdin, ChildStdout)) -> io::Result<()> {
    let (mut script, results) = lines;
    let mut results = BufReader::new(results);
    let mut typed = typed_lines();
    loop {
        show(PROMPT)?;
        let Some(line) = typed.recv().await else {
            return show("\n");
        };
        if line == b"help\n" {
            show(HELP)?;
            continue;
        }
        script.write_all(&line).await?;
        if has_result(&line) {
            let result = next_result(&node, &mut results).await?;
            io::stdout().write_all(&result)?;
            io::stdout().flush()?;
        }
    }
}

/// The lines that a person types, each with its line feed. A thread of its own waits for them.
fn typed_lines() -> mpsc::Receiver<Vec<u8>> {
    let (sender, receiver) = mpsc::channel(1);
    std::thread::spawn(move || {
        let mut input = io::stdin().lock();
        loop {
            let mut line = Vec::new();
            if !matches!(input.read_until(b'\n', &mut line), Ok(count) if count > 0) {
                return;
            }
            if line.last() != Some(&b'\n') {
                line.push(b'\n');
            }
            if sender.blocking_send(line).is_err() {
                return;
            }
        }
    });
    receiver
}

/// Whether the client answers such a line: blank ones and comments have no result.
fn has_result(line: &[u8]) -> bool {
    let line = line.strip_suffix(b"\n").unwrap_or(line);
    let line = line.strip_suffix(b"\r").unwrap_or(line);
    line.first() != Some(&b'#') && line.iter().any(|byte| *byte != b' ')
}

/// Waits for the next result, and tells a person of replicas that can't be reached.
async fn next_result(node: &Node, results: &mut BufReader<ChildStdout>) -> io::Result<Vec<u8>> {
    let mut result = Vec::new();
    let mut reading = Box::pin(results.read_until(b'\n', &mut result));
    loop {
        tokio::select! {
            read = &mut reading => {
                let count = read?;
                drop(reading);
                return if count == 0 { Err(io::ErrorKind::UnexpectedEof.into()) } else { Ok(result) };
            }
            _ = sleep(WORRY) => {
                let (linked, all) = (node.count_links(), node.replicas.len());
                show(&format!("no answer yet: {linked} of {all} replicas are linked\n"))?;
            }
        }
    }
}

fn show(text: &str) -> io::Result<()> {
    io::stderr().write_all(text.as_bytes())
}

#[cfg(test)]
mod tests {
    use super::*;

    #[test]
    fn lines_without_a_result() {
        for line in ["\n", "\r\n", "   \n", "# out (1)\n", "#\n"] {
            assert!(!has_result(line.as_bytes()), "{line:?}");
        }
        for line in ["out (1)\n", " # \n", "\t\n", " out (1)"] {
            assert!(has_result(line.as_bytes()), "{line:?}");
        }
    }
}
