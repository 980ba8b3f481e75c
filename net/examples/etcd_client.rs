//! A client of etcd for `net/bench`, of the shape of `btspace-node client`: one call after another, a line for each.
//!
//! `etcd_client PORT [TLS]` dials a member at this port of localhost. TLS is a folder with `ca.pem`, `c0.pem` and
//! `c0.key`. A line `put KEY VALUE` or `get KEY` is a call. It prints `done`, `found VALUE` or `absent`.
//!
//! It speaks as much of HTTP/2 and gRPC as that takes: header fields without a table, and streams one after another.

use std::fs::File;
use std::io::{self, BufRead, BufReader, Read, Write};
use std::net::TcpStream;
use std::path::Path;
use std::sync::Arc;

use tokio_rustls::rustls::{Certificate, ClientConfig, ClientConnection, PrivateKey, RootCertStore, StreamOwned};

/// Frames of HTTP/2 (RFC 9113, section 6), and their flags.
const DATA: u8 = 0;
const HEADERS: u8 = 1;
const RESET: u8 = 3;
const SETTINGS: u8 = 4;
const PING: u8 = 6;
const GO_AWAY: u8 = 7;
const WINDOW_UPDATE: u8 = 8;
const END_STREAM: u8 = 1;
const ACK: u8 = 1;
const END_HEADERS: u8 = 4;

/// Bytes that the member may send in all: more than it does.
const WINDOW: u32 = 1 << 30;

trait Stream: Read + Write {}

impl<S: Read + Write> Stream for S {}

struct Client {
    link: BufReader<Box<dyn Stream>>,
    scheme: &'static str,
    next_stream: u32,
}

fn frame(kind: u8, flags: u8, stream: u32, content: &[u8]) -> Vec<u8> {
    let mut text = (content.len() as u32).to_be_bytes()[1..].to_vec();
    text.extend_from_slice(&[kind, flags]);
    text.extend_from_slice(&stream.to_be_bytes());
    text.extend_from_slice(content);
    text
}

/// Fields that no table has (RFC 7541, section 6.2.2).
fn header_fields(fields: &[(&str, &str)]) -> Vec<u8> {
    let mut text = Vec::new();
    for (name, value) in fields {
        text.push(0);
        for it in [name, value] {
            text.push(it.len() as u8);
            text.extend_from_slice(it.as_bytes());
        }
    }
    text
}

/// A message of Protobuf whose fields, from 1 on, are these texts.
fn message(fields: &[&str]) -> Vec<u8> {
    let mut text = Vec::new();
    for (tag, field) in (1u8..).zip(fields) {
        text.extend_from_slice(&[tag << 3 | 2, field.len() as u8]);
        text.extend_from_slice(field.as_bytes());
    }
    text
}

/// The value in an answer to `get`, if the key is there. Behind the key stand three numbers, and then the value by its
/// head. Nobody here needs the value, so a number that has the byte of that head may be taken for it.
fn value_in(answer: &[u8], key: &str) -> Option<String> {
    let place = answer.windows(key.len()).position(|it| it == key.as_bytes())? + key.len();
    let rest = &answer[place..];
    let begin = rest.iter().position(|it| *it == (5 << 3 | 2))? + 2;
    let end = begin + usize::from(*rest.get(begin - 1)?);
    Some(String::from_utf8_lossy(rest.get(begin..end)?).into_owned())
}

impl Client {
    fn new(link: Box<dyn Stream>, scheme: &'static str) -> io::Result<Client> {
        let mut client = Client { link: BufReader::new(link), scheme, next_stream: 1 };
        let mut text = b"PRI * HTTP/2.0\r\n\r\nSM\r\n\r\n".to_vec();
        text.extend(frame(SETTINGS, 0, 0, &[]));
        text.extend(frame(WINDOW_UPDATE, 0, 0, &WINDOW.to_be_bytes()));
        client.write(&text)?;
        Ok(client)
    }

    fn write(&mut self, text: &[u8]) -> io::Result<()> {
        let link = self.link.get_mut();
        link.write_all(text)?;
        link.flush()
    }

    fn next_frame(&mut self) -> io::Result<(u8, u8, u32, Vec<u8>)> {
        let mut head = [0; 9];
        self.link.read_exact(&mut head)?;
        let [a, b, c, kind, flags, stream @ ..] = head;
        let mut content = vec![0; u32::from_be_bytes([0, a, b, c]) as usize];
        self.link.read_exact(&mut content)?;
        Ok((kind, flags, u32::from_be_bytes(stream), content))
    }

    /// Calls a method of etcd's, and gives its answer.
    fn call(&mut self, path: &str, request: &[u8]) -> io::Result<Vec<u8>> {
        let stream = self.next_stream;
        self.next_stream += 2;
        let fields = header_fields(&[
            (":method", "POST"),
            (":scheme", self.scheme),
            (":path", path),
            (":authority", "localhost"),
            ("content-type", "application/grpc"),
            ("te", "trailers"),
        ]);
        let mut content = vec![0];
        content.extend_from_slice(&(request.len() as u32).to_be_bytes());
        content.extend_from_slice(request);
        let mut text = frame(HEADERS, END_HEADERS, stream, &fields);
        text.extend(frame(DATA, END_STREAM, stream, &content));
        self.write(&text)?;
        self.answer_on(stream)
    }

    fn answer_on(&mut self, stream: u32) -> io::Result<Vec<u8>> {
        let mut answer = Vec::new();
        loop {
            let (kind, flags, number, content) = self.next_frame()?;
            match kind {
                SETTINGS if flags & ACK == 0 => self.write(&frame(SETTINGS, ACK, 0, &[]))?,
                PING if flags & ACK == 0 => self.write(&frame(PING, ACK, 0, &content))?,
                RESET | GO_AWAY => return Err(io::Error::other("the member ended the stream")),
                DATA if number == stream => answer.extend(content),
                HEADERS if number == stream && flags & END_STREAM != 0 => break,
                _ => {}
            }
        }
        // A call that failed has a status and no message.
        if answer.len() < 5 {
            return Err(io::Error::other("the call failed"));
        }
        Ok(answer.split_off(5))
    }

    fn answer_line(&mut self, line: &str) -> io::Result<String> {
        match line.split(' ').collect::<Vec<_>>()[..] {
            ["put", key, value] => {
                self.call("/etcdserverpb.KV/Put", &message(&[key, value]))?;
                Ok("done".to_string())
            }
            ["get", key] => {
                let answer = self.call("/etcdserverpb.KV/Range", &message(&[key]))?;
                Ok(value_in(&answer, key).map_or("absent".to_string(), |it| format!("found {it}")))
            }
            _ => Err(io::Error::other(format!("{line:?} is no call"))),
        }
    }
}

fn open(path: &Path) -> io::Result<BufReader<File>> {
    File::open(path).map(BufReader::new)
}

fn secured(socket: TcpStream, folder: &Path) -> io::Result<Box<dyn Stream>> {
    let mut roots = RootCertStore::empty();
    for it in rustls_pemfile::certs(&mut open(&folder.join("ca.pem"))?)? {
        roots.add(&Certificate(it)).map_err(io::Error::other)?;
    }
    let chain = rustls_pemfile::certs(&mut open(&folder.join("c0.pem"))?)?.into_iter().map(Certificate).collect();
    let keys = rustls_pemfile::pkcs8_private_keys(&mut open(&folder.join("c0.key"))?)?;
    let key = keys.into_iter().next().ok_or_else(|| io::Error::other("c0.key has no key"))?;
    let builder = ClientConfig::builder().with_safe_defaults().with_root_certificates(roots);
    let mut config = builder.with_single_cert(chain, PrivateKey(key)).map_err(io::Error::other)?;
    config.alpn_protocols = vec![b"h2".to_vec()];
    let name = "localhost".try_into().map_err(io::Error::other)?;
    let session = ClientConnection::new(Arc::new(config), name).map_err(io::Error::other)?;
    Ok(Box::new(StreamOwned::new(session, socket)))
}

fn main() -> io::Result<()> {
    let words: Vec<String> = std::env::args().skip(1).collect();
    let port = words.first().and_then(|it| it.parse::<u16>().ok());
    let port = port.ok_or_else(|| io::Error::other("use: etcd_client PORT [TLS]"))?;
    let socket = TcpStream::connect(("localhost", port))?;
    socket.set_nodelay(true)?;
    let mut client = match words.get(1) {
        Some(folder) => Client::new(secured(socket, Path::new(folder))?, "https")?,
        None => Client::new(Box::new(socket), "http")?,
    };
    for line in io::stdin().lock().lines() {
        let answer = client.answer_line(&line?)?;
        let mut results = io::stdout().lock();
        writeln!(results, "{answer}")?;
        results.flush()?;
    }
    Ok(())
}
