//! What waits for the child. Each peer has a lane of its own, and they take turns: so a flood costs its own lane
//! alone.

use std::collections::VecDeque;
use std::future::poll_fn;
use std::io;
use std::sync::{Arc, Mutex, MutexGuard};
use std::task::{Context, Poll, Waker};

use tokio::io::{AsyncWrite, AsyncWriteExt};

use crate::record::{put_record, LINKS, TIMER};

/// Bytes of whole records that wait in a lane, beside the last one that was put there.
const ROOM: usize = 65_536;

/// Links of a peer that wait for room: more than it has. What is left of links that ended makes way.
const LINKS_OF_A_PEER: usize = 8;

/// The records of one peer that the child hasn't got.
pub struct Lane {
    ready: Mutex<Ready>,
    intake: Arc<Intake>,
}

#[derive(Default)]
struct Ready {
    records: Vec<u8>,
    has_turn: bool,
    /// Wakes the links of the peer that wait for room.
    links: Vec<Waker>,
}

/// All that waits for the child.
#[derive(Default)]
pub struct Intake {
    due: Mutex<Due>,
}

#[derive(Default)]
struct Due {
    turns: VecDeque<Arc<Lane>>,
    /// How many other replicas are linked, and which timer is over, if the child wasn't told yet. Of each the last
    /// counts.
    links: Option<u8>,
    timer: Option<u64>,
    /// Wakes the task that feeds the child, if it waits for something to be due.
    feeder: Option<Waker>,
}

impl Intake {
    pub fn lane(self: &Arc<Intake>) -> Arc<Lane> {
        Arc::new(Lane { ready: Mutex::default(), intake: self.clone() })
    }

    pub fn tell_links(&self, count: u8) {
        self.change(|due| due.links = Some(count));
    }

    pub fn tell_timer(&self, number: u64) {
        self.change(|due| due.timer = Some(number));
    }

    fn give_turn(&self, lane: &Arc<Lane>) {
        self.change(|due| due.turns.push_back(lane.clone()));
    }

    fn due(&self) -> MutexGuard<'_, Due> {
        self.due.lock().unwrap()
    }

    fn change(&self, act: impl FnOnce(&mut Due)) {
        let mut due = self.due();
        act(&mut due);
        if let Some(feeder) = due.feeder.take() {
            feeder.wake();
        }
    }

    /// Writes what comes to the child, until that fails.
    pub async fn feed(&self, mut child: impl AsyncWrite + Unpin) -> io::Error {
        let mut text = Vec::new();
        loop {
            poll_fn(|context| self.poll_take(&mut text, context)).await;
            if let Err(error) = child.write_all(&text).await {
                return error;
            }
        }
    }

    fn poll_take(&self, text: &mut Vec<u8>, context: &mut Context<'_>) -> Poll<()> {
        let mut due = self.due();
        due.take(text);
        if text.is_empty() {
            due.feeder = Some(context.waker().clone());
            return Poll::Pending;
        }
        Poll::Ready(())
    }

    /// What is due, taken.
    #[cfg(test)]
    pub fn next(&self) -> Vec<u8> {
        let mut text = Vec::new();
        self.due().take(&mut text);
        text
    }
}

impl Due {
    /// Puts what is due in place of the text, in turns of the lanes.
    fn take(&mut self, text: &mut Vec<u8>) {
        text.clear();
        text.shrink_to(2 * ROOM);
        if let Some(count) = self.links.take() {
            put_record(LINKS, &[&[count]], text);
        }
        if let Some(number) = self.timer.take() {
            put_record(TIMER, &[&number.to_be_bytes()], text);
        }
        while text.len() < ROOM {
            let Some(lane) = self.turns.pop_front() else {
                break;
            };
            lane.take(text);
        }
    }
}

impl Lane {
    /// Adds a whole record, once those before have left room.
    pub async fn put(self: &Arc<Lane>, record: &[u8]) {
        if poll_fn(|context| self.poll_add(record, context)).await {
            self.intake.give_turn(self);
        }
    }

    /// Adds the record if there is room, and gives whether the lane has to be given a turn.
    fn poll_add(&self, record: &[u8], context: &mut Context<'_>) -> Poll<bool> {
        let mut ready = self.ready.lock().unwrap();
        if ready.records.len() >= ROOM {
            if ready.links.len() == LINKS_OF_A_PEER {
                ready.links.remove(0).wake();
            }
            ready.links.push(context.waker().clone());
            return Poll::Pending;
        }
        ready.records.extend_from_slice(record);
        Poll::Ready(!std::mem::replace(&mut ready.has_turn, true))
    }

    /// Appends all records. This was the lane's turn.
    fn take(&self, text: &mut Vec<u8>) {
        let mut ready = self.ready.lock().unwrap();
        ready.has_turn = false;
        text.append(&mut ready.records);
        ready.records.shrink_to(ROOM);
        ready.links.drain(..).for_each(Waker::wake);
    }
}

#[cfg(test)]
mod tests {
    use super::*;

    /// Puts a record, and gives whether there was room at once.
    async fn put(lane: &Arc<Lane>, record: &[u8]) -> bool {
        tokio::select! {
            biased;
            _ = lane.put(record) => true,
            _ = std::future::ready(()) => false,
        }
    }

    #[tokio::test(flavor = "current_thread")]
    async fn lanes_take_turns() {
        let intake = Arc::new(Intake::default());
        let (flood, quiet) = (intake.lane(), intake.lane());
        assert!(put(&flood, &vec![1; ROOM]).await);
        assert!(!put(&flood, &[1]).await);
        assert!(put(&quiet, &[2]).await);
        assert_eq!(intake.next().len(), ROOM);
        assert!(put(&flood, &[3]).await);
        assert_eq!(intake.next(), [2, 3]);
        assert_eq!(intake.next(), []);
    }

    #[test]
    fn of_links_and_timers_the_last_counts() {
        let intake = Arc::new(Intake::default());
        for number in 1..4 {
            intake.tell_links(number);
            intake.tell_timer(number.into());
        }
        assert_eq!(intake.next(), b"\0\0\0\x02\x03\x03\0\0\0\x09\x02\0\0\0\0\0\0\0\x03");
    }
}
