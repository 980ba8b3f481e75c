//! `hosts.toml`: where the replicas listen, and the files for TLS.

use std::fmt;
use std::fs::File;
use std::io::Read;
use std::net::IpAddr;
use std::path::{Path, PathBuf};

use serde::de::{Deserialize, Deserializer, MapAccess, Visitor};
use toml::Value;

use crate::party::Party;

/// Replicas of the clusters that there are: `3f + 1`, for `f` from 1 to 3.
const SIZES: [usize; 3] = [4, 7, 10];

/// The most bytes of the file.
const LONGEST: u64 = 65_536;

/// Where a replica listens.
#[derive(Clone, Debug, PartialEq, Eq)]
pub struct Address {
    pub host: String,
    pub port: u16,
}

/// The files of a party for TLS.
#[derive(Clone, Debug, PartialEq, Eq)]
pub struct TlsFiles {
    pub authority: PathBuf,
    pub certificate: PathBuf,
    pub key: PathBuf,
}

/// What `hosts.toml` says.
#[derive(Clone, Debug, PartialEq, Eq)]
pub struct Hosts {
    /// Replica `r` listens at place `r`.
    pub replicas: Vec<Address>,
    /// The folder with the files for TLS. Without one all replicas are on loopback.
    certificates: Option<PathBuf>,
}

/// Why a file is refused.
#[derive(Debug, PartialEq, Eq)]
pub enum HostsFault {
    Unreadable(String),
    TooLong,
    NoToml(String),
    Unknown(String),
    Twice(String),
    Missing(&'static str),
    Field(String, String),
}

impl fmt::Display for HostsFault {
    fn fmt(&self, f: &mut fmt::Formatter<'_>) -> fmt::Result {
        match self {
            HostsFault::Unreadable(why) => write!(f, "{why}"),
            HostsFault::TooLong => write!(f, "the file has more than {LONGEST} bytes"),
            HostsFault::NoToml(why) => write!(f, "{why}"),
            HostsFault::Unknown(key) => write!(f, "`{}` is no field of this file", key.escape_debug()),
            HostsFault::Twice(key) => write!(f, "`{key}` stands twice"),
            HostsFault::Missing(key) => write!(f, "`{key}` is missing"),
            HostsFault::Field(key, why) => write!(f, "`{key}` {why}"),
        }
    }
}

impl std::error::Error for HostsFault {}

impl Address {
    /// Whether nothing but this machine reaches it.
    fn is_loopback(&self) -> bool {
        self.host == "localhost" || self.host.parse::<IpAddr>().is_ok_and(|it| it.is_loopback())
    }
}

impl fmt::Display for Address {
    fn fmt(&self, f: &mut fmt::Formatter<'_>) -> fmt::Result {
        if self.host.contains(':') {
            write!(f, "[{}]:{}", self.host, self.port)
        } else {
            write!(f, "{}:{}", self.host, self.port)
        }
    }
}

impl std::str::FromStr for Address {
    type Err = String;

    /// `HOST:PORT`, where a numeric host of version 6 has brackets.
    fn from_str(text: &str) -> Result<Address, String> {
        let wrong = |why: &str| format!("is {text:?}, and {why}");
        let (host, port) = text.rsplit_once(':').ok_or_else(|| wrong("has to be \"HOST:PORT\""))?;
        let port = match port.parse::<u16>() {
            Ok(port) if port > 0 => port,
            _ => return Err(wrong("its port has to be from 1 to 65535")),
        };
        let host = match host.strip_prefix('[').and_then(|it| it.strip_suffix(']')) {
            Some(inner) if inner.parse::<std::net::Ipv6Addr>().is_ok() => inner,
            Some(_) => return Err(wrong("has no address of version 6 between its brackets")),
            None => host,
        };
        let is_name = |it: &str| it.bytes().all(|byte| byte.is_ascii_alphanumeric() || b"-._".contains(&byte));
        if host.is_empty() || !(is_name(host) || host.parse::<IpAddr>().is_ok()) {
            return Err(wrong("its host has to be a name or an address"));
        }
        Ok(Address { host: host.to_string(), port })
    }
}

impl Hosts {
    /// Reads the file. The folder of certificates is relative to that of the file.
    pub fn read(path: &Path) -> Result<Hosts, HostsFault> {
        let unreadable = |error: std::io::Error| HostsFault::Unreadable(error.to_string());
        let mut text = String::new();
        // A path may be that of a file without an end.
        let file = File::open(path).map_err(unreadable)?;
        file.take(LONGEST + 1).read_to_string(&mut text).map_err(unreadable)?;
        if text.len() as u64 > LONGEST {
            return Err(HostsFault::TooLong);
        }
        Hosts::from_text(&text, path.parent().unwrap_or_else(|| Path::new("")))
    }

    fn from_text(text: &str, folder: &Path) -> Result<Hosts, HostsFault> {
        let fields: Fields = toml::from_str(text).map_err(|error| HostsFault::NoToml(error.to_string()))?;
        fields.check(&["replicas", "certificates"])?;
        let replicas = addresses(fields.get("replicas").ok_or(HostsFault::Missing("replicas"))?)?;
        let certificates = match fields.get("certificates") {
            Some(Value::String(name)) if !name.is_empty() => Some(folder.join(name)),
            Some(Value::String(_)) => return Err(field("certificates", "is empty, and has to name a folder")),
            Some(_) => return Err(field("certificates", "is no string")),
            None => None,
        };
        let far = replicas.iter().enumerate().find(|(_, it)| !it.is_loopback());
        if let (None, Some((place, address))) = (&certificates, far) {
            let why = format!("is {address}, which is not on loopback: so `certificates` has to name a folder");
            return Err(HostsFault::Field(format!("replicas[{place}]"), why));
        }
        Ok(Hosts { replicas, certificates })
    }

    /// The party's files for TLS, if there is TLS.
    pub fn tls_files(&self, party: Party) -> Option<TlsFiles> {
        let folder = self.certificates.as_ref()?;
        Some(TlsFiles {
            authority: folder.join("ca.pem"),
            certificate: folder.join(format!("{party}.pem")),
            key: folder.join(format!("{party}.key")),
        })
    }
}

/// The fields of the file as they stand there. A table would keep one of two with the same key.
struct Fields(Vec<(String, Value)>);

impl Fields {
    fn get(&self, key: &str) -> Option<&Value> {
        self.0.iter().find(|(name, _)| name == key).map(|(_, value)| value)
    }

    /// Each field is one of these, and stands once.
    fn check(&self, known: &[&str]) -> Result<(), HostsFault> {
        for (place, (key, _)) in self.0.iter().enumerate() {
            if !known.contains(&key.as_str()) {
                return Err(HostsFault::Unknown(key.clone()));
            }
            if self.0[..place].iter().any(|(other, _)| other == key) {
                return Err(HostsFault::Twice(key.clone()));
            }
        }
        Ok(())
    }
}

impl<'de> Deserialize<'de> for Fields {
    fn deserialize<D: Deserializer<'de>>(deserializer: D) -> Result<Fields, D::Error> {
        struct Entries;

        impl<'de> Visitor<'de> for Entries {
            type Value = Fields;

            fn expecting(&self, f: &mut fmt::Formatter<'_>) -> fmt::Result {
                f.write_str("fields")
            }

            fn visit_map<M: MapAccess<'de>>(self, mut map: M) -> Result<Fields, M::Error> {
                let mut fields = Vec::new();
                while let Some(entry) = map.next_entry()? {
                    fields.push(entry);
                }
                Ok(Fields(fields))
            }
        }

        deserializer.deserialize_map(Entries)
    }
}

fn field(key: &str, why: &str) -> HostsFault {
    HostsFault::Field(key.to_string(), why.to_string())
}

fn addresses(value: &Value) -> Result<Vec<Address>, HostsFault> {
    let values = value.as_array().ok_or_else(|| field("replicas", "is no array"))?;
    if !SIZES.contains(&values.len()) {
        let why = format!("has {} addresses, and has to have 4, 7 or 10", values.len());
        return Err(field("replicas", &why));
    }
    let mut found: Vec<Address> = Vec::new();
    for (place, value) in values.iter().enumerate() {
        let key = format!("replicas[{place}]");
        let text = value.as_str().ok_or_else(|| field(&key, "is no string"))?;
        let address = text.parse::<Address>().map_err(|why| HostsFault::Field(key.clone(), why))?;
        if let Some(other) = found.iter().position(|it| *it == address) {
            return Err(HostsFault::Field(key, format!("is that of `replicas[{other}]`")));
        }
        found.push(address);
    }
    Ok(found)
}

#[cfg(test)]
mod tests {
    use super::*;

    const FOUR: &str = r#"replicas = ["127.0.0.1:7000", "localhost:7001", "[::1]:7002", "127.9.9.9:7003"]"#;

    fn refusal(text: &str) -> String {
        Hosts::from_text(text, Path::new("")).map_or_else(|why| why.to_string(), |_| "taken".to_string())
    }

    #[test]
    fn a_file_without_an_end() {
        assert!(matches!(Hosts::read(Path::new("/dev/zero")), Err(HostsFault::TooLong)));
    }

    #[test]
    fn four_on_loopback() {
        let hosts = Hosts::from_text(FOUR, Path::new("")).unwrap();
        let shown: Vec<String> = hosts.replicas.iter().map(Address::to_string).collect();
        assert_eq!(shown, ["127.0.0.1:7000", "localhost:7001", "[::1]:7002", "127.9.9.9:7003"]);
        assert_eq!(hosts.tls_files(Party(0)), None);
    }

    #[test]
    fn far_machines_have_certificates_beside_the_file() {
        let text = FOUR.replace("127.9.9.9", "replica3.example") + "\ncertificates = \"tls\"";
        let hosts = Hosts::from_text(&text, Path::new("/etc/btspace")).unwrap();
        let files = hosts.tls_files(Party(256)).unwrap();
        assert_eq!(files.authority, Path::new("/etc/btspace/tls/ca.pem"));
        assert_eq!(files.certificate, Path::new("/etc/btspace/tls/c0.pem"));
        assert_eq!(files.key, Path::new("/etc/btspace/tls/c0.key"));
    }

    #[test]
    fn each_field_is_refused_by_its_name_and_a_reason() {
        let port = "its port has to be from 1 to 65535";
        let rows: [(&str, String); 15] = [
            ("", "`replicas` is missing".to_string()),
            ("replica = []", "`replica` is no field of this file".into()),
            ("\"a\\u001b\" = 1", "`a\\u{1b}` is no field of this file".into()),
            ("replicas = 4", "`replicas` is no array".into()),
            ("replicas = [\"a:1\"]", "`replicas` has 1 addresses, and has to have 4, 7 or 10".into()),
            (&FOUR.replace("\"[::1]:7002\"", "7"), "`replicas[2]` is no string".into()),
            (&FOUR.replace("127.9.9.9:7003", "x"), "`replicas[3]` is \"x\", and has to be \"HOST:PORT\"".into()),
            (&FOUR.replace("7001", "0"), format!("`replicas[1]` is \"localhost:0\", and {port}")),
            (&FOUR.replace("7001", "65536"), format!("`replicas[1]` is \"localhost:65536\", and {port}")),
            (
                &FOUR.replace("[::1]", "[x]"),
                "`replicas[2]` is \"[x]:7002\", and has no address of version 6 between its brackets".into(),
            ),
            (
                &FOUR.replace("localhost", "a b"),
                "`replicas[1]` is \"a b:7001\", and its host has to be a name or an address".into(),
            ),
            (&FOUR.replace("localhost:7001", "127.0.0.1:7000"), "`replicas[1]` is that of `replicas[0]`".into()),
            (
                &FOUR.replace("127.9.9.9", "10.0.0.4"),
                "`replicas[3]` is 10.0.0.4:7003, which is not on loopback: so `certificates` has to name a folder"
                    .into(),
            ),
            (&format!("{FOUR}\ncertificates = 1"), "`certificates` is no string".into()),
            (&format!("{FOUR}\ncertificates = \"\""), "`certificates` is empty, and has to name a folder".into()),
        ];
        for (text, wanted) in rows {
            assert_eq!(refusal(text), wanted, "{text}");
        }
        assert!(refusal("replicas = ").contains("line 1"));
        assert_eq!(refusal(&format!("{FOUR}\n{FOUR}")), "`replicas` stands twice");
    }
}
