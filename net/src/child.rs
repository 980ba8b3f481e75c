//! The proved process of the party, started as a child. It alone reads the party's keys.

use std::fs::{File, OpenOptions};
use std::io::{self, Write};
use std::os::unix::fs::OpenOptionsExt;
use std::os::unix::io::{AsRawFd, OwnedFd};
use std::path::{Path, PathBuf};
use std::process::Stdio;

use tokio::process::{Child, ChildStdin, ChildStdout, Command};

use crate::pipe::{inherit, pipe, PipeEnd};
use crate::run::Role;

/// What to start.
pub struct Program<'a> {
    pub btspace: &'a Path,
    pub keys: &'a Path,
    pub role: &'a Role,
}

/// A child that runs, and our ends of the pipes with its records.
pub struct Started {
    pub process: Child,
    pub records_in: PipeEnd,
    pub records_out: PipeEnd,
    pub lines: Option<(ChildStdin, ChildStdout)>,
}

impl Program<'_> {
    pub fn start(&self) -> io::Result<Started> {
        let (childs_input, records_in) = pipe()?;
        let (records_out, childs_output) = pipe()?;
        let mut command = Command::new(self.btspace);
        command.kill_on_drop(true);
        // SAFETY: it is one system call, which may follow a fork.
        unsafe { command.pre_exec(leave_our_group) };
        match self.role {
            Role::Replica { .. } => self.be_replica(&mut command, childs_input, childs_output),
            Role::Client { above, has_prompt } => {
                self.be_client(&mut command, childs_input, childs_output);
                command.args(above.iter().flat_map(|it| ["--above".to_string(), it.to_string()]));
                if *has_prompt {
                    // Its lines come from us in place of our own standard input.
                    command.stdin(Stdio::piped()).stdout(Stdio::piped());
                }
            }
        }
        let mut process = command.spawn()?;
        // The command has the child's ends, and closes ours of them.
        drop(command);
        let lines = process.stdin.take().zip(process.stdout.take());
        Ok(Started { process, records_in: PipeEnd::new(records_in)?, records_out: PipeEnd::new(records_out)?, lines })
    }

    /// A replica has its records at standard input and output.
    fn be_replica(&self, command: &mut Command, input: OwnedFd, output: OwnedFd) {
        command.arg("replica").arg(self.keys).stdin(Stdio::from(input)).stdout(Stdio::from(output));
    }

    /// A client has its script and results there, and opens its records by their paths.
    fn be_client(&self, command: &mut Command, input: OwnedFd, output: OwnedFd) {
        let (reads, writes) = (input.as_raw_fd(), output.as_raw_fd());
        command.arg("client").arg(self.keys).arg(format!("/dev/fd/{reads}")).arg(format!("/dev/fd/{writes}"));
        let keep_open = move || {
            // The closure has both, so that they live as long as the command.
            inherit(input.as_raw_fd())?;
            inherit(output.as_raw_fd())
        };
        // SAFETY: after the fork it only sets flags of two descriptors, and takes no memory.
        unsafe { command.pre_exec(keep_open) };
    }
}

/// Signals of a terminal come to the carrier alone, so that it ends its child in order.
fn leave_our_group() -> io::Result<()> {
    // SAFETY: the call only moves this process to a group of its own, or fails.
    match unsafe { libc::setpgid(0, 0) } {
        0 => Ok(()),
        _ => Err(io::Error::last_os_error()),
    }
}

/// Opens the file of keys, and keeps other carriers of this machine from the party for as long as it is open. It fails
/// with `WouldBlock` if another one has it.
pub fn claim(keys: &Path) -> io::Result<File> {
    let file = File::open(keys)?;
    // SAFETY: the call only locks an open file, or fails.
    match unsafe { libc::flock(file.as_raw_fd(), libc::LOCK_EX | libc::LOCK_NB) } {
        0 => Ok(file),
        _ => Err(io::Error::last_os_error()),
    }
}

/// Where a mark says that the replica of this file was started once.
pub fn mark_of(keys: &Path) -> PathBuf {
    let mut name = keys.as_os_str().to_os_string();
    name.push(".started");
    PathBuf::from(name)
}

/// Leaves the mark, which outlasts a crash. It fails with `AlreadyExists` if the replica was started before.
pub fn leave_mark(keys: &Path) -> io::Result<()> {
    let path = mark_of(keys);
    let mut mark = OpenOptions::new().write(true).create_new(true).mode(0o600).open(&path)?;
    mark.write_all(
        b"This replica was started. It has lost what it knew, and must not start again with the same keys.\n",
    )?;
    mark.sync_all()?;
    let folder = match path.parent() {
        Some(folder) if folder != Path::new("") => folder,
        _ => Path::new("."),
    };
    File::open(folder)?.sync_all()
}

#[cfg(test)]
mod tests {
    use super::*;

    /// Acts in a folder of its own.
    fn in_folder<T>(name: &str, act: impl FnOnce(&Path) -> T) -> T {
        let folder = std::env::temp_dir().join(format!("btspace-node-{name}-{}", std::process::id()));
        std::fs::create_dir(&folder).unwrap();
        let given = act(&folder);
        std::fs::remove_dir_all(&folder).unwrap();
        given
    }

    #[test]
    fn a_replica_starts_once() {
        let marks = |folder: &Path| [leave_mark(&folder.join("r0.toml")), leave_mark(&folder.join("r0.toml"))];
        let [first, second] = in_folder("mark", marks);
        first.unwrap();
        assert_eq!(second.unwrap_err().kind(), io::ErrorKind::AlreadyExists);
    }

    #[test]
    fn a_party_is_carried_once_at_a_time() {
        in_folder("claim", |folder| {
            let keys = folder.join("c0.toml");
            assert_eq!(claim(&keys).unwrap_err().kind(), io::ErrorKind::NotFound);
            File::create(&keys).unwrap();
            let first = claim(&keys).unwrap();
            assert_eq!(claim(&keys).unwrap_err().kind(), io::ErrorKind::WouldBlock);
            drop(first);
            assert!(claim(&keys).is_ok());
        });
    }
}
