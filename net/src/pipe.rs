//! Pipes whose one end the child has, and whose other end doesn't block.

use std::io;
use std::os::unix::io::{AsRawFd, FromRawFd, OwnedFd, RawFd};
use std::pin::Pin;
use std::task::{Context, Poll};

use tokio::io::unix::AsyncFd;
use tokio::io::{AsyncRead, AsyncWrite, ReadBuf};

/// Our end of a pipe.
pub struct PipeEnd(AsyncFd<OwnedFd>);

/// A pipe: the end that is read, and the end that is written. No child inherits them.
pub fn pipe() -> io::Result<(OwnedFd, OwnedFd)> {
    let mut ends: [RawFd; 2] = [-1; 2];
    // SAFETY: the call writes two descriptors to an array of two.
    if unsafe { libc::pipe2(ends.as_mut_ptr(), libc::O_CLOEXEC) } != 0 {
        return Err(io::Error::last_os_error());
    }
    // SAFETY: both are open, and nobody else has them.
    Ok(unsafe { (OwnedFd::from_raw_fd(ends[0]), OwnedFd::from_raw_fd(ends[1])) })
}

/// Lets the programs that this process becomes or starts inherit the descriptor. It may be called after a fork.
pub fn inherit(descriptor: RawFd) -> io::Result<()> {
    // SAFETY: the call only sets a flag of a descriptor, or fails.
    match unsafe { libc::fcntl(descriptor, libc::F_SETFD, 0) } {
        0 => Ok(()),
        _ => Err(io::Error::last_os_error()),
    }
}

impl PipeEnd {
    pub fn new(end: OwnedFd) -> io::Result<PipeEnd> {
        // SAFETY: the call only sets a flag of an open descriptor, or fails.
        if unsafe { libc::fcntl(end.as_raw_fd(), libc::F_SETFL, libc::O_NONBLOCK) } != 0 {
            return Err(io::Error::last_os_error());
        }
        Ok(PipeEnd(AsyncFd::new(end)?))
    }
}

/// The count that a call returned, or its error.
fn counted(returned: isize) -> io::Result<usize> {
    usize::try_from(returned).map_err(|_| io::Error::last_os_error())
}

impl AsyncRead for PipeEnd {
    fn poll_read(self: Pin<&mut Self>, context: &mut Context<'_>, buffer: &mut ReadBuf<'_>) -> Poll<io::Result<()>> {
        loop {
            let mut guard = match self.0.poll_read_ready(context) {
                Poll::Ready(guard) => guard?,
                Poll::Pending => return Poll::Pending,
            };
            let room = buffer.initialize_unfilled();
            let read = guard.try_io(|end| {
                // SAFETY: the call writes at most as many bytes as the slice has.
                counted(unsafe { libc::read(end.as_raw_fd(), room.as_mut_ptr().cast(), room.len()) })
            });
            if let Ok(count) = read {
                let count = count?;
                if count < buffer.remaining() {
                    // It is empty now. Another read would only say so.
                    guard.clear_ready();
                }
                buffer.advance(count);
                return Poll::Ready(Ok(()));
            }
        }
    }
}

impl AsyncWrite for PipeEnd {
    fn poll_write(self: Pin<&mut Self>, context: &mut Context<'_>, bytes: &[u8]) -> Poll<io::Result<usize>> {
        loop {
            let mut guard = match self.0.poll_write_ready(context) {
                Poll::Ready(guard) => guard?,
                Poll::Pending => return Poll::Pending,
            };
            let written = guard.try_io(|end| {
                // SAFETY: the call reads at most as many bytes as the slice has.
                counted(unsafe { libc::write(end.as_raw_fd(), bytes.as_ptr().cast(), bytes.len()) })
            });
            if let Ok(count) = written {
                return Poll::Ready(count);
            }
        }
    }

    fn poll_flush(self: Pin<&mut Self>, _context: &mut Context<'_>) -> Poll<io::Result<()>> {
        Poll::Ready(Ok(()))
    }

    fn poll_shutdown(self: Pin<&mut Self>, _context: &mut Context<'_>) -> Poll<io::Result<()>> {
        Poll::Ready(Ok(()))
    }
}

#[cfg(test)]
mod tests {
    use super::*;
    use tokio::io::{AsyncReadExt, AsyncWriteExt};

    #[tokio::test(flavor = "current_thread")]
    async fn more_than_a_pipe_holds() {
        let (reader, writer) = pipe().unwrap();
        let (mut reader, mut writer) = (PipeEnd::new(reader).unwrap(), PipeEnd::new(writer).unwrap());
        let sent: Vec<u8> = (0..300_000u32).map(|it| it as u8).collect();
        let mut came = Vec::new();
        let write = async {
            writer.write_all(&sent).await.unwrap();
            drop(writer);
        };
        let (_, read) = tokio::join!(write, reader.read_to_end(&mut came));
        assert_eq!((read.unwrap(), came), (sent.len(), sent));
    }

    #[tokio::test(flavor = "current_thread")]
    async fn nobody_reads() {
        let (reader, writer) = pipe().unwrap();
        drop(reader);
        let failed = PipeEnd::new(writer).unwrap().write_all(b"a").await;
        assert_eq!(failed.unwrap_err().kind(), io::ErrorKind::BrokenPipe);
    }
}
