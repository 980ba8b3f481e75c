//! One line an event on standard error, in a fixed form:
//!
//! ```text
//! 2026-11-30T22:00:00.123Z INFO r0 link.up peer=r1 address=10.0.0.2:7000
//! ```
//!
//! These are the time, the level, the party, the event, and its fields. What others chose, such as the reasons of
//! errors, is quoted and escaped, so that an event is one line.

use std::fmt;
use std::io::Write;
use std::os::unix::io::AsRawFd;
use std::str::FromStr;
use std::sync::atomic::{AtomicU16, AtomicU64, AtomicU8, Ordering};
use std::time::{SystemTime, UNIX_EPOCH};

use crate::party::Party;

/// How much an event matters.
#[derive(Clone, Copy, Debug, PartialEq, Eq, PartialOrd, Ord)]
pub enum Level {
    Error = 1,
    Warn,
    Info,
    Debug,
}

static MOST: AtomicU8 = AtomicU8::new(Level::Info as u8);
static PARTY: AtomicU16 = AtomicU16::new(0);

impl FromStr for Level {
    type Err = String;

    fn from_str(text: &str) -> Result<Level, String> {
        match text {
            "error" => Ok(Level::Error),
            "warn" => Ok(Level::Warn),
            "info" => Ok(Level::Info),
            "debug" => Ok(Level::Debug),
            _ => Err("it has to be error, warn, info or debug".to_string()),
        }
    }
}

impl fmt::Display for Level {
    fn fmt(&self, f: &mut fmt::Formatter<'_>) -> fmt::Result {
        f.write_str(match self {
            Level::Error => "ERROR",
            Level::Warn => "WARN",
            Level::Info => "INFO",
            Level::Debug => "DEBUG",
        })
    }
}

/// From now on events up to this level are told, as those of this party.
pub fn begin(party: Party, most: Level) {
    MOST.store(most as u8, Ordering::Relaxed);
    PARTY.store(party.0, Ordering::Relaxed);
}

/// Tells an event. Nothing comes of it if standard error can't be written, or if nobody reads it.
pub fn event(level: Level, name: &str, fields: fmt::Arguments<'_>) {
    if level as u8 > MOST.load(Ordering::Relaxed) || !takes_a_line(&std::io::stderr()) {
        return;
    }
    let now = SystemTime::now().duration_since(UNIX_EPOCH).unwrap_or_default();
    let party = Party(PARTY.load(Ordering::Relaxed));
    let time = Time { seconds: now.as_secs(), milliseconds: now.subsec_millis() };
    let line = format!("{time} {level} {party} {name} {fields}");
    let _ = writeln!(std::io::stderr().lock(), "{}", line.trim_end());
}

/// Whether a line can be written at once. A full pipe would hold up all that the carrier does.
fn takes_a_line(file: &impl AsRawFd) -> bool {
    let mut end = libc::pollfd { fd: file.as_raw_fd(), events: libc::POLLOUT, revents: 0 };
    // SAFETY: the call reads and writes one structure, and doesn't wait.
    unsafe { libc::poll(&mut end, 1, 0) == 1 }
}

/// Bounds how many events a second strangers can cause.
#[derive(Default)]
pub struct Quota {
    second: AtomicU64,
    told: AtomicU64,
}

impl Quota {
    const EACH_SECOND: u64 = 10;

    /// Tells an event that a stranger caused, if there were few in this second. Of the others their number is told.
    pub fn event(&self, level: Level, name: &str, fields: fmt::Arguments<'_>) {
        let now = SystemTime::now().duration_since(UNIX_EPOCH).unwrap_or_default().as_secs();
        if self.second.swap(now, Ordering::Relaxed) != now {
            let told = self.told.swap(0, Ordering::Relaxed);
            if told > Quota::EACH_SECOND {
                event(Level::Warn, "log.suppressed", format_args!("events={}", told - Quota::EACH_SECOND));
            }
        }
        if self.told.fetch_add(1, Ordering::Relaxed) < Quota::EACH_SECOND {
            event(level, name, fields);
        }
    }
}

/// A moment of the UTC calendar since 1970.
struct Time {
    seconds: u64,
    milliseconds: u32,
}

impl fmt::Display for Time {
    fn fmt(&self, f: &mut fmt::Formatter<'_>) -> fmt::Result {
        let (day, second) = (self.seconds / 86_400, self.seconds % 86_400);
        let (year, month, of_month) = date_of(day);
        let (hour, minute) = (second / 3_600, second / 60 % 60);
        write!(
            f,
            "{year:04}-{month:02}-{of_month:02}T{hour:02}:{minute:02}:{:02}.{:03}Z",
            second % 60,
            self.milliseconds
        )
    }
}

/// The date of a day that is counted from 1970. Years are counted from March on, so that a leap day ends one.
fn date_of(day: u64) -> (u64, u64, u64) {
    // Days from the first of March of the year 0, and eras of 400 years.
    let shifted = day + 719_468;
    let (era, of_era) = (shifted / 146_097, shifted % 146_097);
    let year_of_era = (of_era - of_era / 1_460 + of_era / 36_524 - of_era / 146_096) / 365;
    let of_year = of_era - (365 * year_of_era + year_of_era / 4 - year_of_era / 100);
    let march_month = (5 * of_year + 2) / 153;
    let of_month = of_year - (153 * march_month + 2) / 5 + 1;
    let month = if march_month < 10 { march_month + 3 } else { march_month - 9 };
    (400 * era + year_of_era + u64::from(month <= 2), month, of_month)
}

#[cfg(test)]
mod tests {
    use super::*;

    #[test]
    fn a_pipe_that_nobody_reads_is_full_once() {
        let (reader, writer) = crate::pipe::pipe().unwrap();
        let mut file = std::fs::File::from(writer);
        let mut lines = 0;
        while takes_a_line(&file) {
            file.write_all(&[b'a'; 4096]).unwrap();
            lines += 1;
        }
        assert!(lines > 0);
        drop(reader);
        // Then a line fails at once.
        assert!(takes_a_line(&file) && file.write_all(b"a").is_err());
    }

    #[test]
    fn times_of_the_calendar() {
        // By `date -u -d @SECONDS`.
        let rows = [
            (0, "1970-01-01T00:00:00.007Z"),
            (951_782_400, "2000-02-29T00:00:00.007Z"),
            (1_078_012_799, "2004-02-28T23:59:59.007Z"),
            (4_107_542_400, "2100-03-01T00:00:00.007Z"),
            (1_796_076_000, "2026-11-30T22:00:00.007Z"),
        ];
        for (seconds, wanted) in rows {
            assert_eq!(Time { seconds, milliseconds: 7 }.to_string(), wanted);
        }
    }
}
