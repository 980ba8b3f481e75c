//! Runs clients for `net/bench`, one call after another each, and times their calls.
//!
//! `callers FILE` starts a client for each line of FILE: the path of its script, that of its log, and the words of its
//! program, with tabs between them. Each line of a script is a call, and has one line as its answer.
//!
//! After their first answers clients wait for each other. Then it prints a line, and goes on once it reads one. When all
//! calls are answered it prints `ended N MICROSECONDS`: so many were answered in this time, until a client had nine
//! tenths of its answers. The clients end with standard input. Then it prints the microseconds that each call took.

use std::fs::{read_to_string, File};
use std::io::{self, BufRead, BufReader, Read, Write};
use std::process::{exit, Child, ChildStdin, Command, Stdio};
use std::sync::atomic::{AtomicUsize, Ordering};
use std::sync::{Barrier, OnceLock};
use std::thread::scope;
use std::time::Instant;

/// What the clients have in common.
struct Progress {
    waiting: Barrier,
    begin: OnceLock<Instant>,
    answered: AtomicUsize,
    window: OnceLock<(usize, u128)>,
}

fn tell(line: &str) {
    let mut output = io::stdout().lock();
    // If this fails, who reads it has ended, and then nobody needs it.
    let _ = writeln!(output, "{line}").and_then(|()| output.flush());
}

impl Progress {
    fn new(clients: usize) -> Progress {
        let (waiting, answered) = (Barrier::new(clients), AtomicUsize::new(0));
        Progress { waiting, begin: OnceLock::new(), answered, window: OnceLock::new() }
    }

    /// Waits until all clients have their first answers, and a line has come.
    fn begin(&self) {
        if self.waiting.wait().is_leader() {
            tell("begun");
            let _ = io::stdin().lock().read_line(&mut String::new());
            self.begin.get_or_init(Instant::now);
        }
        self.waiting.wait();
    }

    /// A client got a later answer, and has so many of its calls' answers.
    fn note(&self, answers: usize, calls: usize) {
        let answered = 1 + self.answered.fetch_add(1, Ordering::SeqCst);
        if let (true, Some(begin)) = (10 * answers >= 9 * calls, self.begin.get()) {
            self.window.get_or_init(|| (answered, begin.elapsed().as_micros()));
        }
    }
}

/// A client that runs: its process, and its lines, which end with the writer.
struct Client {
    process: Child,
    input: ChildStdin,
    /// The microseconds of its calls.
    took: Vec<u128>,
}

fn run(client: &str, progress: &Progress) -> io::Result<Client> {
    let fields: Vec<&str> = client.split('\t').collect();
    let [script, log, program, words @ ..] = fields.as_slice() else {
        return Err(io::Error::other("a client takes a script, a log, and a program"));
    };
    let script = read_to_string(script)?;
    let mut command = Command::new(program);
    command.args(words).stdin(Stdio::piped()).stdout(Stdio::piped()).stderr(File::create(log)?);
    let mut process = command.spawn()?;
    let piped = process.stdin.take().zip(process.stdout.take());
    let (mut input, output) = piped.ok_or_else(|| io::Error::other("the client has no pipes"))?;
    let (mut output, mut answer, mut took) = (BufReader::new(output), String::new(), Vec::new());
    let calls = script.lines().count();
    for line in script.split_inclusive('\n') {
        let begin = Instant::now();
        input.write_all(line.as_bytes())?;
        answer.clear();
        if output.read_line(&mut answer)? == 0 {
            return Err(io::Error::other(format!("no answer to {line:?}")));
        }
        took.push(begin.elapsed().as_micros());
        match took.len() {
            1 => progress.begin(),
            answers => progress.note(answers, calls),
        }
    }
    Ok(Client { process, input, took })
}

/// Nothing is left of a run in which a client fails, since the others may wait for it.
fn run_or_end(client: &str, progress: &Progress) -> Client {
    run(client, progress).unwrap_or_else(|error| {
        eprintln!("{error}");
        exit(1)
    })
}

fn main() -> io::Result<()> {
    let path = std::env::args().nth(1).ok_or_else(|| io::Error::other("use: callers FILE"))?;
    let file = read_to_string(path)?;
    let lines: Vec<&str> = file.lines().collect();
    let progress = Progress::new(lines.len());
    let clients: Vec<Client> = scope(|scope| {
        let threads: Vec<_> = lines.iter().map(|it| scope.spawn(|| run_or_end(it, &progress))).collect();
        threads.into_iter().filter_map(|it| it.join().ok()).collect()
    });
    let (answered, microseconds) = progress.window.get().copied().unwrap_or_default();
    tell(&format!("ended {answered} {microseconds}"));
    io::stdin().lock().read_to_end(&mut Vec::new())?;
    for Client { mut process, input, took } in clients {
        // It ends with its lines.
        drop(input);
        process.wait()?;
        let words: Vec<String> = took.iter().map(u128::to_string).collect();
        tell(&words.join(" "));
    }
    Ok(())
}
