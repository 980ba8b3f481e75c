//! Links that strangers dial. Until one has said who it is, it is one of a few.

use std::collections::VecDeque;
use std::future::Future;
use std::net::{IpAddr, SocketAddr};
use std::time::Duration;

use tokio::net::{TcpListener, TcpStream};
use tokio::task::{spawn, JoinHandle};

use crate::clock::sleep;
use crate::log::{Level, Quota};

/// Strangers at one port. With one more the oldest of them goes, of the address that has most.
pub const STRANGERS: usize = 64;

/// How long to wait after a link could not be accepted, as when descriptors ran out.
const PAUSE: Duration = Duration::from_millis(100);

/// Accepts links for ever, and meets each in a task of its own.
pub async fn keep_accepting<T>(listener: TcpListener, quota: &Quota, meet: impl Fn(TcpStream, SocketAddr) -> T)
where
    T: Future<Output = ()> + Send + 'static,
{
    let mut strangers = Strangers::default();
    loop {
        match listener.accept().await {
            Ok((stream, from)) => strangers.add(from.ip(), meet(stream, from)),
            Err(error) => {
                let reason = error.to_string();
                quota.event(Level::Warn, "accept.failed", format_args!("reason={reason:?}"));
                sleep(PAUSE).await;
            }
        }
    }
}

/// The tasks that meet strangers, the oldest first, each with the address from which its link came.
#[derive(Default)]
struct Strangers(VecDeque<(IpAddr, JoinHandle<()>)>);

impl Strangers {
    fn add(&mut self, from: IpAddr, meeting: impl Future<Output = ()> + Send + 'static) {
        self.0.retain(|(_, it)| !it.is_finished());
        if self.0.len() == STRANGERS {
            self.end_one();
        }
        self.0.push_back((from, spawn(meeting)));
    }

    /// Who dials from many addresses shuts out others, and who dials from one shuts out only itself.
    fn end_one(&mut self) {
        let count = |from: IpAddr| self.0.iter().filter(|it| it.0 == from).count();
        let crowded = self.0.iter().map(|it| it.0).max_by_key(|it| count(*it));
        let oldest = self.0.iter().position(|it| Some(it.0) == crowded);
        if let Some((_, meeting)) = oldest.and_then(|it| self.0.remove(it)) {
            meeting.abort();
        }
    }
}

#[cfg(test)]
mod tests {
    use super::*;
    use std::future::pending;

    #[tokio::test(flavor = "current_thread")]
    async fn who_dials_often_shuts_out_itself() {
        let (one, other) = (IpAddr::from([10, 0, 0, 1]), IpAddr::from([10, 0, 0, 2]));
        let mut strangers = Strangers::default();
        strangers.add(one, pending());
        for _ in 0..2 * STRANGERS {
            strangers.add(other, pending());
        }
        strangers.add(one, pending());
        let of_one = strangers.0.iter().filter(|it| it.0 == one).count();
        assert_eq!((strangers.0.len(), of_one), (STRANGERS, 2));
    }

    #[tokio::test(flavor = "current_thread")]
    async fn who_was_met_leaves_its_place() {
        let mut strangers = Strangers::default();
        strangers.add(IpAddr::from([10, 0, 0, 1]), async {});
        tokio::task::yield_now().await;
        strangers.add(IpAddr::from([10, 0, 0, 2]), pending());
        assert_eq!(strangers.0.len(), 1);
    }
}
