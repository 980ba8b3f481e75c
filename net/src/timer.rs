//! The child's timer. A new one takes the place of the last.

use std::sync::Mutex;
use std::time::{Duration, Instant};

use tokio::sync::Notify;

use crate::clock::sleep_until;
use crate::intake::Intake;

/// A timer that runs, if one does.
#[derive(Default)]
pub struct Timer {
    state: Mutex<State>,
    is_earlier: Notify,
}

#[derive(Default)]
struct State {
    /// Its number, and when it is over.
    running: Option<(u64, Instant)>,
    /// Until when the task sleeps that tells of its end.
    sleeps_until: Option<Instant>,
}

impl Timer {
    pub fn begin(&self, number: u64, milliseconds: u32) {
        let end = Instant::now() + Duration::from_millis(milliseconds.into());
        let mut state = self.state.lock().unwrap();
        state.running = Some((number, end));
        // Each call begins a timer, and few timers end: so a task that wakes early enough is left asleep.
        if state.sleeps_until.map_or(true, |it| it > end) {
            self.is_earlier.notify_one();
        }
    }

    /// Takes the timer if it is over, and gives when to look for it again.
    fn take_if_over(&self) -> (Option<u64>, Option<Instant>) {
        let mut state = self.state.lock().unwrap();
        let over = state.running.filter(|(_, end)| *end <= Instant::now());
        if over.is_some() {
            state.running = None;
        }
        state.sleeps_until = state.running.map(|(_, end)| end);
        (over.map(|(number, _)| number), state.sleeps_until)
    }

    /// Tells the child of each timer that is over.
    pub async fn run(&self, intake: &Intake) {
        loop {
            let (over, next) = self.take_if_over();
            if let Some(number) = over {
                intake.tell_timer(number);
            }
            match next {
                None => self.is_earlier.notified().await,
                Some(next) => tokio::select! {
                    _ = self.is_earlier.notified() => {}
                    _ = sleep_until(next) => {}
                },
            }
        }
    }
}

#[cfg(test)]
mod tests {
    use super::*;
    use crate::clock::{sleep, timeout};
    use std::sync::Arc;

    /// The number of which the child is told after so many milliseconds at most, if it is told of one.
    async fn told(intake: &Intake, milliseconds: u64) -> Option<u8> {
        let waiting = async {
            loop {
                if let [.., number] = *intake.next() {
                    return number;
                }
                sleep(Duration::from_millis(1)).await;
            }
        };
        timeout(Duration::from_millis(milliseconds), waiting).await
    }

    #[tokio::test(flavor = "current_thread")]
    async fn the_last_timer_counts() {
        let (timer, intake) = (Arc::new(Timer::default()), Arc::new(Intake::default()));
        let (of_timer, of_intake) = (timer.clone(), intake.clone());
        let running = tokio::spawn(async move { of_timer.run(&of_intake).await });
        timer.begin(1, 0);
        assert_eq!(told(&intake, 10_000).await, Some(1));
        // A later one takes the place of one that runs, whether it ends before that or behind it.
        for (number, first, second) in [(3, 60_000, 1), (5, 20, 40)] {
            timer.begin(u64::from(number) - 1, first);
            sleep(Duration::from_millis(5)).await;
            timer.begin(number.into(), second);
            assert_eq!(told(&intake, 10_000).await, Some(number));
        }
        assert_eq!(told(&intake, 50).await, None);
        running.abort();
    }
}
