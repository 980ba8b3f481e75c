//! Links, with TLS or without.
//!
//! Each party has a certificate of the cluster's own authority, for the name `r0.btspace` or `c0.btspace`. Both ends
//! show theirs. Who dials a replica wants that replica's name, and who accepts wants the name of the party that the
//! dialler says it is.

use std::fmt;
use std::fs::File;
use std::io::{self, BufReader};
use std::path::Path;
use std::sync::Arc;

use tokio::io::{split, AsyncRead, AsyncWrite};
use tokio::net::TcpStream;
use tokio_rustls::rustls::server::AllowAnyAuthenticatedClient;
use tokio_rustls::rustls::{self, Certificate, ClientConfig, PrivateKey, RootCertStore, ServerConfig, ServerName};
use tokio_rustls::{TlsAcceptor, TlsConnector};

use crate::hosts::TlsFiles;
use crate::party::Party;

/// Both directions of a link.
pub struct Stream {
    pub reader: Box<dyn AsyncRead + Send + Unpin>,
    pub writer: Box<dyn AsyncWrite + Send + Unpin>,
}

impl Stream {
    /// The directions of a socket have no lock in common.
    fn plain(socket: TcpStream) -> Stream {
        let (reader, writer) = socket.into_split();
        Stream { reader: Box::new(reader), writer: Box::new(writer) }
    }

    fn secured(session: impl AsyncRead + AsyncWrite + Send + 'static) -> Stream {
        let (reader, writer) = split(session);
        Stream { reader: Box::new(reader), writer: Box::new(writer) }
    }
}

/// How links begin at both ends. Without TLS they are as the network brings them.
#[derive(Clone)]
pub struct Security {
    tls: Option<(TlsConnector, TlsAcceptor)>,
}

/// The certificate that the other end showed. Without TLS it shows none.
pub struct Shown(Option<Certificate>);

/// Why the files for TLS are refused.
#[derive(Debug)]
pub struct TlsFault {
    file: String,
    why: String,
}

impl fmt::Display for TlsFault {
    fn fmt(&self, f: &mut fmt::Formatter<'_>) -> fmt::Result {
        write!(f, "{}: {}", self.file, self.why)
    }
}

impl std::error::Error for TlsFault {}

impl Security {
    pub fn new(files: Option<&TlsFiles>) -> Result<Security, TlsFault> {
        let tls = files.map(connector_and_acceptor).transpose()?;
        Ok(Security { tls })
    }

    /// Begins a link that was dialled to a replica.
    pub async fn dialled(&self, stream: TcpStream, replica: Party) -> io::Result<Stream> {
        let Some((connector, _)) = &self.tls else {
            return Ok(Stream::plain(stream));
        };
        let name = ServerName::try_from(replica.certified_name().as_str()).map_err(io::Error::other)?;
        Ok(Stream::secured(connector.connect(name, stream).await?))
    }

    /// Begins a link that was accepted.
    pub async fn accepted(&self, stream: TcpStream) -> io::Result<(Stream, Shown)> {
        let Some((_, acceptor)) = &self.tls else {
            return Ok((Stream::plain(stream), Shown(None)));
        };
        let stream = acceptor.accept(stream).await?;
        let certificates = stream.get_ref().1.peer_certificates();
        let shown = certificates.and_then(|it| it.first()).cloned();
        let shown = shown.ok_or_else(|| io::Error::other("no certificate was shown"))?;
        Ok((Stream::secured(stream), Shown(Some(shown))))
    }
}

impl Shown {
    /// Whether the other end may be this party.
    pub fn allows(&self, party: Party) -> bool {
        let Shown(Some(certificate)) = self else {
            return true;
        };
        let name = party.certified_name();
        let name = webpki::DnsNameRef::try_from_ascii_str(&name);
        let certificate = webpki::EndEntityCert::try_from(certificate.0.as_slice());
        matches!((certificate, name), (Ok(it), Ok(name)) if it.verify_is_valid_for_dns_name(name).is_ok())
    }
}

fn connector_and_acceptor(files: &TlsFiles) -> Result<(TlsConnector, TlsAcceptor), TlsFault> {
    let mut roots = RootCertStore::empty();
    for root in certificates(&files.authority)? {
        roots.add(&root).map_err(|why| fault(&files.authority, why))?;
    }
    let chain = certificates(&files.certificate)?;
    let key = private_key(&files.key)?;
    let own = |why: rustls::Error| fault(&files.certificate, why);
    let client = ClientConfig::builder()
        .with_safe_defaults()
        .with_root_certificates(roots.clone())
        .with_single_cert(chain.clone(), key.clone())
        .map_err(own)?;
    let server = ServerConfig::builder()
        .with_safe_defaults()
        .with_client_cert_verifier(AllowAnyAuthenticatedClient::new(roots))
        .with_single_cert(chain, key)
        .map_err(own)?;
    Ok((TlsConnector::from(Arc::new(client)), TlsAcceptor::from(Arc::new(server))))
}

fn fault(file: &Path, why: impl fmt::Display) -> TlsFault {
    TlsFault { file: file.display().to_string(), why: why.to_string() }
}

fn open(path: &Path) -> Result<BufReader<File>, TlsFault> {
    File::open(path).map(BufReader::new).map_err(|why| fault(path, why))
}

fn certificates(path: &Path) -> Result<Vec<Certificate>, TlsFault> {
    let found = rustls_pemfile::certs(&mut open(path)?).map_err(|why| fault(path, why))?;
    if found.is_empty() {
        return Err(fault(path, "it has no certificate"));
    }
    Ok(found.into_iter().map(Certificate).collect())
}

fn private_key(path: &Path) -> Result<PrivateKey, TlsFault> {
    let found = rustls_pemfile::pkcs8_private_keys(&mut open(path)?).map_err(|why| fault(path, why))?;
    match <[Vec<u8>; 1]>::try_from(found) {
        Ok([key]) => Ok(PrivateKey(key)),
        Err(found) => Err(fault(path, format_args!("it has {} keys of PKCS 8, and has to have one", found.len()))),
    }
}
