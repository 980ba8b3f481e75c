//! Time: one timer of the system for all that tasks wait for.
//!
//! Tokio would look at its own timers whenever the carrier waits for something, thousands of times a second. What they
//! are for happens a few times a second.

use std::cell::RefCell;
use std::collections::BTreeMap;
use std::future::Future;
use std::io;
use std::os::unix::io::{AsRawFd, FromRawFd, OwnedFd};
use std::pin::Pin;
use std::sync::{Arc, Weak};
use std::task::{Context, Poll, Waker};
use std::time::{Duration, Instant};

use tokio::io::unix::AsyncFd;
use tokio::task::spawn;

/// A moment, and a number of the sleep that ends then.
type Place = (Instant, u64);

/// The sleeps of this thread's tasks.
#[derive(Default)]
struct Sleeping {
    wakers: BTreeMap<Place, Waker>,
    /// How many sleeps there were.
    count: u64,
    /// It lives as long as the task that wakes them.
    alarm: Weak<Alarm>,
}

thread_local! {
    static SLEEPING: RefCell<Sleeping> = RefCell::default();
}

/// A timer of the system.
struct Alarm(AsyncFd<OwnedFd>);

impl Alarm {
    fn new() -> io::Result<Alarm> {
        // SAFETY: the call only makes a descriptor, or fails.
        let timer = unsafe { libc::timerfd_create(libc::CLOCK_MONOTONIC, libc::TFD_CLOEXEC | libc::TFD_NONBLOCK) };
        if timer < 0 {
            return Err(io::Error::last_os_error());
        }
        // SAFETY: it is open, and nobody else has it.
        AsyncFd::new(unsafe { OwnedFd::from_raw_fd(timer) }).map(Alarm)
    }

    /// Lets it ring after this time, in place of when it was set to.
    fn set(&self, delay: Duration) {
        let never = libc::timespec { tv_sec: 0, tv_nsec: 0 };
        let mut time = libc::itimerspec { it_interval: never, it_value: never };
        time.it_value.tv_sec = delay.as_secs().try_into().unwrap_or(libc::time_t::MAX);
        // No time at all would mean that it never rings.
        time.it_value.tv_nsec = delay.subsec_nanos().max(1).into();
        // SAFETY: the call reads one structure, and writes none.
        unsafe { libc::timerfd_settime(self.0.get_ref().as_raw_fd(), 0, &time, std::ptr::null_mut()) };
    }

    async fn rings(&self) -> io::Result<()> {
        self.0.readable().await.map(|mut it| it.clear_ready())
    }
}

/// Wakes tasks, each at its moment.
async fn keep_waking(alarm: Arc<Alarm>) {
    while alarm.rings().await.is_ok() {
        let over = SLEEPING.with(|it| it.borrow_mut().take_over(&alarm));
        over.into_values().for_each(Waker::wake);
    }
}

impl Sleeping {
    /// Takes those whose moments have come, and sets the alarm to the next one's.
    fn take_over(&mut self, alarm: &Alarm) -> BTreeMap<Place, Waker> {
        let now = Instant::now();
        let later = self.wakers.split_off(&(now, u64::MAX));
        if let Some((next, _)) = later.keys().next() {
            alarm.set(*next - now);
        }
        std::mem::replace(&mut self.wakers, later)
    }

    fn new_place(&mut self, end: Instant) -> Place {
        self.count += 1;
        (end, self.count)
    }

    /// Wakes a task at this place. The waker that was there before is given back.
    fn put(&mut self, place: Place, waker: Waker) -> Option<Waker> {
        let before = self.wakers.insert(place, waker);
        if self.wakers.keys().next() == Some(&place) {
            self.alarm().set(place.0.saturating_duration_since(Instant::now()));
        }
        before
    }

    fn alarm(&mut self) -> Arc<Alarm> {
        self.alarm.upgrade().unwrap_or_else(|| {
            let alarm = Arc::new(Alarm::new().expect("the system has no timer left"));
            self.alarm = Arc::downgrade(&alarm);
            spawn(keep_waking(alarm.clone()));
            alarm
        })
    }
}

/// Is over at its moment.
pub struct Sleep {
    end: Instant,
    place: Option<Place>,
}

impl Future for Sleep {
    type Output = ();

    fn poll(mut self: Pin<&mut Self>, context: &mut Context<'_>) -> Poll<()> {
        let end = self.end;
        if Instant::now() >= end {
            return Poll::Ready(());
        }
        let waker = context.waker().clone();
        SLEEPING.with(|it| {
            let mut sleeping = it.borrow_mut();
            let place = *self.place.get_or_insert_with(|| sleeping.new_place(end));
            sleeping.put(place, waker)
        });
        Poll::Pending
    }
}

impl Drop for Sleep {
    fn drop(&mut self) {
        if let Some(place) = self.place {
            // At the end of the thread they may be gone.
            let _ = SLEEPING.try_with(|it| it.borrow_mut().wakers.remove(&place));
        }
    }
}

pub fn sleep_until(end: Instant) -> Sleep {
    Sleep { end, place: None }
}

pub fn sleep(duration: Duration) -> Sleep {
    sleep_until(Instant::now() + duration)
}

/// What the act gives, if it ends within this time.
pub async fn timeout<T>(duration: Duration, act: impl Future<Output = T>) -> Option<T> {
    tokio::select! {
        biased;
        given = act => Some(given),
        _ = sleep(duration) => None,
    }
}

#[cfg(test)]
mod tests {
    use super::*;
    use std::future::pending;
    use std::sync::atomic::{AtomicUsize, Ordering};
    use std::sync::Arc;

    #[tokio::test(flavor = "current_thread")]
    async fn sleeps_end_in_the_order_of_their_moments() {
        let (begin, place) = (Instant::now(), Arc::new(AtomicUsize::new(0)));
        let ends = [60, 20, 40].map(|it| {
            let place = place.clone();
            tokio::spawn(async move {
                sleep(Duration::from_millis(it)).await;
                place.fetch_add(1, Ordering::Relaxed)
            })
        });
        let mut found = Vec::new();
        for it in ends {
            found.push(it.await.unwrap());
        }
        assert_eq!(found, [2, 0, 1]);
        assert!(begin.elapsed() >= Duration::from_millis(60));
    }

    #[tokio::test(flavor = "current_thread")]
    async fn who_takes_too_long_gives_nothing() {
        assert_eq!(timeout(Duration::from_millis(5), pending::<()>()).await, None);
        assert_eq!(timeout(Duration::from_secs(600), async { 7 }).await, Some(7));
    }

    #[tokio::test(flavor = "current_thread")]
    async fn nothing_is_left_of_a_sleep_that_is_dropped() {
        let end = Instant::now() + Duration::from_secs(600);
        let has = |end| SLEEPING.with(|it| it.borrow().wakers.keys().any(|it| it.0 == end));
        tokio::select! {
            biased;
            _ = sleep_until(end) => {}
            _ = async { assert!(has(end)) } => {}
        }
        assert!(!has(end));
    }
}
