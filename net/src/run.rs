//! A carrier's life: from its settings to the status with which it ends.

use std::fmt;
use std::fs::File;
use std::future::pending;
use std::io;
use std::net::SocketAddr;
use std::path::PathBuf;
use std::process::ExitStatus;
use std::sync::Arc;
use std::time::{Duration, Instant};

use tokio::net::TcpListener;
use tokio::process::Child;
use tokio::signal::unix::{signal, Signal, SignalKind};
use tokio::task::{spawn, JoinHandle};

use crate::accept::keep_meeting;
use crate::child::{claim, leave_mark, mark_of, Program, Started};
use crate::clock::{sleep, timeout};
use crate::dial::{keep_asking, keep_dialling};
use crate::hosts::{Address, Hosts};
use crate::log::{event, Level};
use crate::monitor::keep_answering;
use crate::node::Node;
use crate::party::Party;
use crate::prompt;
use crate::route::{route, RouteEnd};
use crate::secure::{Security, TlsFault};

/// How long the child has to end once its input has, and how long its last frames have to go out.
const ENDING: Duration = Duration::from_secs(3);
const LAST_FRAMES: Duration = Duration::from_secs(1);

/// The status of a carrier whose child was killed.
const KILLED: u8 = 3;

/// What a carrier is told to do.
pub struct Settings {
    pub party: Party,
    pub role: Role,
    pub hosts: Hosts,
    pub btspace: PathBuf,
    pub keys: PathBuf,
    pub metrics: Option<SocketAddr>,
}

/// What the party is, and what is told of such a one alone.
pub enum Role {
    Replica {
        /// Where it listens, if not where others dial it.
        listen: Option<Address>,
    },
    Client {
        /// The timestamp above which it begins, if not above those of the clock.
        above: Option<u64>,
        /// Whether a person types its lines.
        has_prompt: bool,
    },
}

impl Role {
    pub fn is_replica(&self) -> bool {
        matches!(self, Role::Replica { .. })
    }
}

/// Why a carrier doesn't begin.
#[derive(Debug)]
pub enum StartFault {
    Tls(TlsFault),
    Listen(String, io::Error),
    AtWork(PathBuf),
    Keys(PathBuf, io::Error),
    StartedBefore(PathBuf),
    Mark(PathBuf, io::Error),
    Program(PathBuf, io::Error),
    System(io::Error),
}

impl fmt::Display for StartFault {
    fn fmt(&self, f: &mut fmt::Formatter<'_>) -> fmt::Result {
        match self {
            StartFault::Tls(fault) => fault.fmt(f),
            StartFault::Listen(address, error) => write!(f, "can't listen at {address}: {error}"),
            StartFault::AtWork(keys) => write!(f, "another carrier is at work for {}", keys.display()),
            StartFault::Keys(keys, error) => write!(f, "can't open {}: {error}", keys.display()),
            StartFault::StartedBefore(mark) => write!(
                f,
                "this replica was started before, as {} tells, and has lost what it sent: it counts as faulty now",
                mark.display()
            ),
            StartFault::Mark(mark, error) => write!(f, "can't write {}: {error}", mark.display()),
            StartFault::Program(path, error) => write!(f, "can't start {}: {error}", path.display()),
            StartFault::System(error) => error.fmt(f),
        }
    }
}

impl std::error::Error for StartFault {}

impl From<io::Error> for StartFault {
    fn from(error: io::Error) -> StartFault {
        StartFault::System(error)
    }
}

/// Carries the party's frames until its child ends, or a signal comes. Gives the status to end with.
pub async fn run(settings: &Settings) -> Result<u8, StartFault> {
    let files = settings.hosts.tls_files(settings.party);
    let security = Security::new(files.as_ref()).map_err(StartFault::Tls)?;
    let node = Node::new(settings.party, &settings.hosts.replicas, security);
    let stops = Stops::new()?;
    let _claim = settings.claim()?;
    let listener = listen_for_links(settings).await?;
    if let Some(address) = settings.metrics {
        let listener = listen(&address.to_string()).await?;
        spawn(keep_answering(node.clone(), listener));
    }
    let started = start_child(settings)?;
    if let Some(listener) = listener {
        spawn(keep_meeting(node.clone(), listener));
    }
    for replica in &node.replicas {
        spawn(keep_dialling(node.clone(), replica.clone()));
    }
    spawn(keep_asking(node.clone()));
    let status = live(&node, started, stops).await;
    if node.records_of_child.get() == 0 {
        // A replica that did nothing may start again.
        settings.take_mark();
    }
    Ok(status)
}

impl Settings {
    /// Keeps other carriers from the party while this one lives.
    fn claim(&self) -> Result<File, StartFault> {
        claim(&self.keys).map_err(|error| match error.kind() {
            io::ErrorKind::WouldBlock => StartFault::AtWork(self.keys.clone()),
            _ => StartFault::Keys(self.keys.clone(), error),
        })
    }

    /// Leaves the mark of a replica, which starts once. A client may start again: its timestamps tell its lives apart.
    fn leave_mark(&self) -> Result<(), StartFault> {
        if !self.role.is_replica() {
            return Ok(());
        }
        leave_mark(&self.keys).map_err(|error| match error.kind() {
            io::ErrorKind::AlreadyExists => StartFault::StartedBefore(mark_of(&self.keys)),
            _ => StartFault::Mark(mark_of(&self.keys), error),
        })
    }

    /// Takes the mark that was left.
    fn take_mark(&self) {
        if self.role.is_replica() {
            let _ = std::fs::remove_file(mark_of(&self.keys));
        }
    }
}

async fn listen_for_links(settings: &Settings) -> Result<Option<TcpListener>, StartFault> {
    let Role::Replica { listen: given } = &settings.role else {
        return Ok(None);
    };
    let own = &settings.hosts.replicas[usize::from(settings.party.0)];
    let address = given.as_ref().unwrap_or(own).to_string();
    let listener = listen(&address).await?;
    event(Level::Info, "listens", format_args!("address={address}"));
    Ok(Some(listener))
}

async fn listen(address: &str) -> Result<TcpListener, StartFault> {
    TcpListener::bind(address).await.map_err(|error| StartFault::Listen(address.to_string(), error))
}

fn start_child(settings: &Settings) -> Result<Started, StartFault> {
    let Settings { btspace, keys, role, .. } = settings;
    settings.leave_mark()?;
    let program = Program { btspace, keys, role };
    program.start().map_err(|error| {
        settings.take_mark();
        StartFault::Program(btspace.clone(), error)
    })
}

/// The signals that end a carrier in order.
struct Stops {
    terminate: Signal,
    interrupt: Signal,
}

impl Stops {
    fn new() -> io::Result<Stops> {
        Ok(Stops { terminate: signal(SignalKind::terminate())?, interrupt: signal(SignalKind::interrupt())? })
    }

    async fn next(&mut self) -> &'static str {
        tokio::select! {
            _ = self.terminate.recv() => "SIGTERM",
            _ = self.interrupt.recv() => "SIGINT",
        }
    }
}

/// Serves the child until it ends or has to, and gives the status to end with.
async fn live(node: &Arc<Node>, started: Started, mut stops: Stops) -> u8 {
    let Started { mut process, records_in, records_out, lines } = started;
    let of_route = node.clone();
    let routing = spawn(async move { tell_end(&route(&of_route, records_out).await) });
    let of_feed = node.clone();
    let mut feeding = spawn(async move { of_feed.intake.feed(records_in).await });
    let of_timer = node.clone();
    spawn(async move { of_timer.timer.run(&of_timer.intake).await });
    let talking = async {
        if let Some(lines) = lines {
            prompt::converse(node.clone(), lines).await.unwrap_or_default();
        }
        // Once a person's lines end, so do the child's, and then it ends.
        pending::<()>().await
    };
    let is_stopped = tokio::select! {
        status = process.wait() => return ended_with(status),
        _ = &mut feeding => false,
        _ = talking => false,
        name = stops.next() => {
            event(Level::Info, "stops", format_args!("signal={name}"));
            true
        }
    };
    // Once the feeding task is gone, the child's input has ended.
    feeding.abort();
    if is_stopped && !node.me.is_replica() {
        // It may wait for a line, and nothing of it is to go out.
        let _ = process.kill().await;
        return KILLED;
    }
    let status = end_child(&mut process, routing).await;
    if is_stopped {
        let_frames_go(node).await;
        return 0;
    }
    status
}

/// The child's records end with the child. Another end leaves a child that can't go on.
fn tell_end(end: &RouteEnd) {
    if !matches!(end, RouteEnd::Closed) {
        let reason = end.to_string();
        event(Level::Error, "child.unread", format_args!("reason={reason:?}"));
    }
}

/// Waits for the end of a child whose input has ended, and of its records. It is killed if it doesn't end.
async fn end_child(process: &mut Child, mut routing: JoinHandle<()>) -> u8 {
    if timeout(ENDING, &mut routing).await.is_none() {
        routing.abort();
    }
    match timeout(ENDING, process.wait()).await {
        Some(status) => ended_with(status),
        None => {
            event(Level::Warn, "child.killed", format_args!("reason=\"it didn't end with its input\""));
            let _ = process.kill().await;
            KILLED
        }
    }
}

fn ended_with(status: io::Result<ExitStatus>) -> u8 {
    let code = status.as_ref().ok().and_then(ExitStatus::code);
    let level = if code == Some(0) { Level::Info } else { Level::Error };
    match &status {
        Ok(status) => event(level, "child.ended", format_args!("status={:?}", status.to_string())),
        Err(error) => event(level, "child.ended", format_args!("reason={:?}", error.to_string())),
    }
    code.and_then(|it| u8::try_from(it).ok()).unwrap_or(KILLED)
}

/// Waits until the replicas that are linked have what was sent to them, but not for long.
async fn let_frames_go(node: &Node) {
    let end = Instant::now() + LAST_FRAMES;
    let is_waiting = || node.replicas.iter().any(|it| it.is_reached() && !it.outbox.is_settled());
    while is_waiting() && Instant::now() < end {
        node.replicas.iter().for_each(|it| it.outbox.ask());
        sleep(Duration::from_millis(20)).await;
    }
}
