//! The words of the command line.

use std::net::SocketAddr;
use std::path::{Path, PathBuf};

use clap::{Args, Parser, Subcommand};

use crate::hosts::Address;
use crate::log::Level;
use crate::party::Party;

/// Carries the frames of one party of a btspace cluster over a network.
///
/// It starts `btspace` as a child, which is proved and has the keys. HOSTS is the file that tells where the replicas
/// listen, and KEYS the party's file of keys, as `btspace keys` writes it.
#[derive(Debug, Parser)]
#[command(name = "btspace-node", version, arg_required_else_help = true)]
pub struct Words {
    #[command(subcommand)]
    pub request: Request,
}

#[derive(Debug, Subcommand)]
pub enum Request {
    /// Serve a replica
    Replica {
        /// Listen at HOST:PORT in place of the replica's address in HOSTS
        #[arg(long, value_name = "HOST:PORT")]
        listen: Option<Address>,
        #[command(flatten)]
        common: Common,
    },
    /// Run a client: script lines at standard input, a result line for each at standard output
    Client {
        /// Begin above this timestamp, if the clock was set back since the client's last life
        #[arg(long, value_name = "TIMESTAMP")]
        above: Option<u64>,
        #[command(flatten)]
        common: Common,
    },
    /// Ask the carrier whose metrics are at this address for its health; the status is 0 if it is good
    Health {
        #[arg(value_name = "HOST:PORT")]
        address: SocketAddr,
    },
}

/// What replicas and clients are told alike.
#[derive(Args, Debug)]
pub struct Common {
    /// The file that tells where the replicas listen
    pub hosts: PathBuf,
    /// The party's file of keys. It is left to btspace, and not read here
    pub keys: PathBuf,
    /// The program that is proved
    #[arg(long, value_name = "PATH", default_value = "btspace")]
    pub btspace: PathBuf,
    /// The party, as r0 or c0, if the name of KEYS doesn't tell it
    #[arg(long, value_name = "NAME")]
    pub party: Option<Party>,
    /// Answer /metrics and /health by HTTP at this address of loopback
    #[arg(long, value_name = "HOST:PORT", value_parser = loopback)]
    pub metrics: Option<SocketAddr>,
    /// Tell events up to this level: error, warn, info or debug
    #[arg(long, value_name = "LEVEL", env = "RUST_LOG")]
    pub log: Option<Level>,
}

fn loopback(text: &str) -> Result<SocketAddr, String> {
    match text.parse::<SocketAddr>() {
        Ok(address) if address.ip().is_loopback() => Ok(address),
        Ok(_) => Err("it has to be on loopback".to_string()),
        Err(error) => Err(error.to_string()),
    }
}

impl Common {
    /// The party of these words. `btspace keys` names the file of replica 0 `r0.toml`, and that of client 0 `c0.toml`.
    pub fn party(&self) -> Result<Party, String> {
        if let Some(party) = self.party {
            return Ok(party);
        }
        let name = self.keys.file_stem().and_then(|it| it.to_str()).unwrap_or_default();
        name.parse().map_err(|_| {
            let shown = self.keys.file_name().map(Path::new).unwrap_or(&self.keys).display().to_string();
            format!("the file {shown:?} has no name as r0.toml or c0.toml, so --party has to name the party")
        })
    }
}

#[cfg(test)]
mod tests {
    use super::*;

    fn party_of(words: &[&str]) -> Result<Party, String> {
        let all = ["btspace-node", "replica", "hosts.toml"].iter().chain(words);
        match Words::try_parse_from(all).map_err(|it| it.to_string())?.request {
            Request::Replica { common, .. } => common.party(),
            _ => Err("another word".to_string()),
        }
    }

    #[test]
    fn the_name_of_the_file_tells_the_party() {
        assert_eq!(party_of(&["/etc/keys/r3.toml"]), Ok(Party(3)));
        assert_eq!(party_of(&["mine.toml", "--party", "r1"]), Ok(Party(1)));
        assert!(party_of(&["mine.toml"]).unwrap_err().contains("--party"));
        assert!(party_of(&["r3.toml", "--party", "x1"]).unwrap_err().contains("no party"));
        assert!(party_of(&["r3.toml", "--metrics", "10.0.0.1:9000"]).unwrap_err().contains("loopback"));
    }
}
