//! `btspace-node`: carries the frames of one party over a network.
//!
//! It starts `btspace replica` or `btspace client` as its child, dials the replicas, and copies records between links
//! and pipes. Nothing of it is proved, and nothing has to be: it never has a key of the protocol, and the protocol
//! holds whatever frames are lost, repeated, reordered or invented.
//!
//! One thread runs all tasks, by one clock ([`clock`]). They share a [`node::Node`]:
//!
//! - [`dial`] and [`accept`] begin links of parties, [`welcome`] meets strangers, and [`link`] is what both ends of a
//!   link have in common;
//! - [`outbox`] has what waits for a peer, [`intake`] what waits for the child;
//! - [`route`] takes what the child writes, and [`timer`] keeps its time;
//! - [`run`] starts the child and ends it in order.
//!
//! # What it keeps
//!
//! 64 MB for all peers together ([`outbox`]). Of what comes, 64 KB and a record for each party, and for each link the
//! record that hasn't come whole: a replica's has 4 MB at most, and a client's 2.4 KB. Another replica has four
//! accepted links at most, and a client two. At each of two ports there are 64 that haven't said whose they are.

mod accept;
mod child;
mod clock;
mod counter;
mod dial;
mod hosts;
mod intake;
mod link;
mod log;
mod monitor;
mod node;
mod observed;
mod outbox;
mod party;
mod pipe;
mod prompt;
mod record;
mod route;
mod run;
mod secure;
mod timer;
mod traffic;
mod welcome;
mod words;

use std::io::IsTerminal;
use std::net::SocketAddr;
use std::process::ExitCode;

use clap::Parser;
use tokio::runtime::{Builder, Runtime};

use crate::hosts::Hosts;
use crate::log::Level;
use crate::run::{Role, Settings};
use crate::words::{Common, Request, Words};

/// Statuses: a file or the party is refused; words are wrong; the carrier can't begin. `clap` has 2 as well.
const REFUSED: u8 = 1;
const WRONG_WORDS: u8 = 2;
const NOT_BEGUN: u8 = 3;

fn main() -> ExitCode {
    end_with_any_task();
    let status = match Words::parse().request {
        Request::Replica { listen, common } => carry(common, Role::Replica { listen }),
        Request::Client { above, common } => {
            carry(common, Role::Client { above, has_prompt: std::io::stdin().is_terminal() })
        }
        Request::Health { address } => tell_health(address),
    };
    ExitCode::from(status)
}

/// A carrier one of whose tasks is gone serves nobody, so a fault in one ends all. Its child ends with it.
fn end_with_any_task() {
    let tell = std::panic::take_hook();
    std::panic::set_hook(Box::new(move |fault| {
        tell(fault);
        std::process::abort();
    }));
}

fn complain(status: u8, why: impl std::fmt::Display) -> u8 {
    eprintln!("error: {why}");
    status
}

/// Carries the frames of a party until it ends.
fn carry(common: Common, role: Role) -> u8 {
    // A client tells of links only if it is asked to.
    let level = common.log.unwrap_or(if role.is_replica() { Level::Info } else { Level::Warn });
    let settings = match settings_of(common, role) {
        Ok(settings) => settings,
        Err((status, why)) => return complain(status, why),
    };
    log::begin(settings.party, level);
    match runtime().map(|it| it.block_on(run::run(&settings))) {
        Ok(Ok(status)) => status,
        Ok(Err(fault)) => complain(NOT_BEGUN, fault),
        Err(error) => complain(NOT_BEGUN, error),
    }
}

/// What the words and the file of hosts tell, or the status to end with, and why.
fn settings_of(common: Common, role: Role) -> Result<Settings, (u8, String)> {
    let party = common.party().map_err(|why| (WRONG_WORDS, why))?;
    if party.is_replica() != role.is_replica() {
        let kind = if role.is_replica() { "replica" } else { "client" };
        return Err((WRONG_WORDS, format!("{party} is no {kind}")));
    }
    let Common { hosts: path, keys, btspace, metrics, .. } = common;
    let hosts = Hosts::read(&path).map_err(|why| (REFUSED, format!("{}: {why}", path.display())))?;
    let count = hosts.replicas.len();
    if !party.is_of(count) {
        return Err((REFUSED, format!("there is no {party} among {count} replicas")));
    }
    Ok(Settings { party, role, hosts, btspace, keys, metrics })
}

fn tell_health(address: SocketAddr) -> u8 {
    let asked = runtime().and_then(|it| it.block_on(monitor::ask_health(address)));
    match asked {
        Ok((line, is_good)) => {
            println!("{line}");
            u8::from(!is_good)
        }
        Err(error) => complain(NOT_BEGUN, format_args!("{address}: {error}")),
    }
}

fn runtime() -> std::io::Result<Runtime> {
    Builder::new_current_thread().enable_io().build()
}
