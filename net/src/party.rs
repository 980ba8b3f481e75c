//! The parties of a cluster, by the numbers that their frames have.

use std::fmt;
use std::str::FromStr;

/// The number of client 0. Those below are replicas' numbers.
pub const FIRST_CLIENT: u16 = 256;

/// The most clients of a cluster.
pub const MAX_CLIENTS: u16 = 256;

/// A replica or a client. Replica 0 is shown as `r0`, and client 0 as `c0`.
#[derive(Clone, Copy, Debug, PartialEq, Eq, PartialOrd, Ord, Hash)]
pub struct Party(pub u16);

impl Party {
    pub fn is_replica(self) -> bool {
        self.0 < FIRST_CLIENT
    }

    /// Whether a cluster of so many replicas may have this party.
    pub fn is_of(self, replicas: usize) -> bool {
        if self.is_replica() {
            usize::from(self.0) < replicas
        } else {
            self.0 - FIRST_CLIENT < MAX_CLIENTS
        }
    }

    /// The name that the party's certificate has.
    pub fn certified_name(self) -> String {
        format!("{self}.btspace")
    }
}

impl fmt::Display for Party {
    fn fmt(&self, f: &mut fmt::Formatter<'_>) -> fmt::Result {
        if self.is_replica() {
            write!(f, "r{}", self.0)
        } else {
            write!(f, "c{}", self.0 - FIRST_CLIENT)
        }
    }
}

impl FromStr for Party {
    type Err = String;

    fn from_str(text: &str) -> Result<Party, String> {
        let no_party = || format!("{text:?} is no party, as r0 or c0");
        let digits = text.get(1..).filter(|it| it.bytes().all(|byte| byte.is_ascii_digit()));
        let number: u16 = digits.and_then(|it| it.parse().ok()).ok_or_else(no_party)?;
        match text.as_bytes()[0] {
            b'r' if number < FIRST_CLIENT => Ok(Party(number)),
            b'c' if number < MAX_CLIENTS => Ok(Party(FIRST_CLIENT + number)),
            _ => Err(no_party()),
        }
    }
}

#[cfg(test)]
mod tests {
    use super::*;

    #[test]
    fn names_and_numbers() {
        for (name, number) in [("r0", 0), ("r9", 9), ("c0", 256), ("c255", 511)] {
            assert_eq!(name.parse(), Ok(Party(number)));
            assert_eq!(Party(number).to_string(), name);
        }
        for name in ["", "r", "x0", "r-1", "r+1", "c256", "r256", "r99999", "é"] {
            assert!(name.parse::<Party>().is_err(), "{name}");
        }
    }

    #[test]
    fn parties_of_four_replicas() {
        let found: Vec<u16> = (0..=u16::MAX).filter(|it| Party(*it).is_of(4)).collect();
        let wanted: Vec<u16> = (0..4).chain(256..512).collect();
        assert_eq!(found, wanted);
    }
}
