//! What waits for a peer. It never blocks who puts something in: what has no room is dropped, the oldest first.

use std::collections::VecDeque;
use std::future::poll_fn;
use std::sync::{Arc, Mutex, MutexGuard, Weak};
use std::task::{Context, Poll, Waker};

use crate::counter::Counter;
use crate::record::{put_record, ACKNOWLEDGED, QUESTION};
use crate::traffic::Traffic;

/// Bytes that wait for a replica that is linked: at least the longest frame.
pub const ROOM: usize = 4 << 20;

/// Bytes that wait while a replica isn't linked. One record may be longer.
pub const ROOM_UNLINKED: usize = 256 << 10;

/// Bytes that wait for a client's link: a few of the longest replies, of 65,600 bytes.
pub const ROOM_OF_CLIENT: usize = 256 << 10;

/// Bytes that wait for all peers together.
pub const ROOM_IN_ALL: usize = 64 << 20;

/// Bytes that go in one write, unless a record is longer.
const PIECE: usize = 65_536;

/// A record, which the outboxes of several peers share.
pub type Shared = Arc<[u8]>;

/// What may wait for all peers together.
pub struct Budget {
    limit: usize,
    used: Counter,
    outboxes: Mutex<Vec<Weak<Outbox>>>,
}

impl Budget {
    pub fn new(limit: usize) -> Arc<Budget> {
        Arc::new(Budget { limit, used: Counter::default(), outboxes: Mutex::default() })
    }

    pub fn used(&self) -> u64 {
        self.used.get()
    }

    fn has_no_room(&self) -> bool {
        self.used() as usize > self.limit
    }

    /// Takes back what is above the limit: the peer for which most waits loses its oldest records.
    fn make_room(&self) {
        while self.has_no_room() {
            let outboxes = self.outboxes.lock().unwrap();
            let fullest = outboxes.iter().filter_map(Weak::upgrade).max_by_key(|it| it.waiting().bytes);
            if !fullest.is_some_and(|it| it.drop_oldest(&mut it.waiting())) {
                return;
            }
        }
    }
}

/// Records, of which the oldest goes first, and what is to be said of the link itself.
#[derive(Default)]
struct Waiting {
    room: usize,
    bytes: usize,
    /// Those that were written over this link, and that the peer hasn't acknowledged.
    written: VecDeque<Shared>,
    /// Those that are still to be written.
    unwritten: VecDeque<Shared>,
    /// How many were written over this link, and how many of these the peer acknowledged.
    count_written: u64,
    count_acknowledged: u64,
    /// How many frames came, if the peer is to be told, and whether it is to be asked for that.
    acknowledgement: Option<u64>,
    has_question: bool,
    /// Wakes the task that writes, if it waits for something to write.
    writer: Option<Waker>,
}

impl Waiting {
    fn with_room(room: usize) -> Waiting {
        Waiting { room, ..Waiting::default() }
    }

    fn pop_oldest(&mut self) -> Option<Shared> {
        let oldest = self.written.pop_front().or_else(|| self.unwritten.pop_front())?;
        self.bytes -= oldest.len();
        Some(oldest)
    }

    fn has_no_room(&self) -> bool {
        self.bytes > self.room
    }

    fn wake_writer(&mut self) {
        if let Some(writer) = self.writer.take() {
            writer.wake();
        }
    }
}

/// What waits for one link or one peer.
pub struct Outbox {
    waiting: Mutex<Waiting>,
    /// Whether what was written is kept until the peer acknowledges it.
    keeps_written: bool,
    budget: Arc<Budget>,
    traffic: Arc<Traffic>,
}

impl Outbox {
    /// For a peer that is dialled, and that acknowledges what comes.
    pub fn of_dialled(budget: &Arc<Budget>, traffic: Arc<Traffic>) -> Arc<Outbox> {
        Outbox::new(budget, traffic, ROOM_UNLINKED, true)
    }

    /// For a link that was accepted.
    pub fn of_accepted(budget: &Arc<Budget>, traffic: Arc<Traffic>) -> Arc<Outbox> {
        Outbox::new(budget, traffic, ROOM_OF_CLIENT, false)
    }

    fn new(budget: &Arc<Budget>, traffic: Arc<Traffic>, room: usize, keeps_written: bool) -> Arc<Outbox> {
        let waiting = Mutex::new(Waiting::with_room(room));
        let outbox = Arc::new(Outbox { waiting, keeps_written, budget: budget.clone(), traffic });
        let mut outboxes = budget.outboxes.lock().unwrap();
        outboxes.retain(|it| it.strong_count() > 0);
        outboxes.push(Arc::downgrade(&outbox));
        outbox
    }

    fn waiting(&self) -> MutexGuard<'_, Waiting> {
        self.waiting.lock().unwrap()
    }

    /// Adds a record. The oldest ones are dropped if there is no room.
    pub fn put(&self, record: &Shared) {
        let mut waiting = self.waiting();
        waiting.bytes += record.len();
        self.budget.used.add(record.len() as u64);
        while waiting.has_no_room() && self.drop_oldest(&mut waiting) {}
        waiting.unwritten.push_back(record.clone());
        waiting.wake_writer();
        drop(waiting);
        if self.budget.has_no_room() {
            self.budget.make_room();
        }
    }

    /// Drops the oldest record, and gives whether there was one.
    fn drop_oldest(&self, waiting: &mut Waiting) -> bool {
        let is_written = !waiting.written.is_empty();
        let Some(oldest) = waiting.pop_oldest() else {
            return false;
        };
        self.budget.used.subtract(oldest.len() as u64);
        if !is_written {
            self.traffic.dropped();
        }
        true
    }

    /// A link begins: what the peer didn't acknowledge over the last one goes again.
    pub fn begin_link(&self) {
        let mut waiting = self.waiting();
        let mut again = std::mem::take(&mut waiting.written);
        again.append(&mut waiting.unwritten);
        *waiting = Waiting { bytes: waiting.bytes, unwritten: again, ..Waiting::with_room(ROOM) };
    }

    /// The link ended. Little is kept until the next one begins.
    pub fn end_link(&self) {
        let mut waiting = self.waiting();
        waiting.room = ROOM_UNLINKED;
        while waiting.has_no_room() && self.drop_oldest(&mut waiting) {}
    }

    /// The peer tells that so many records came over this link. It can't acknowledge what wasn't written.
    pub fn acknowledged(&self, count: u64) {
        let mut waiting = self.waiting();
        let count = count.min(waiting.count_written);
        let first_kept = waiting.count_written - waiting.written.len() as u64;
        for _ in first_kept..count {
            if let Some(record) = waiting.pop_oldest() {
                self.budget.used.subtract(record.len() as u64);
            }
        }
        waiting.count_acknowledged = waiting.count_acknowledged.max(count);
    }

    /// Whether the peer acknowledged all that was written.
    pub fn is_settled(&self) -> bool {
        let waiting = self.waiting();
        waiting.unwritten.is_empty() && waiting.count_acknowledged == waiting.count_written
    }

    /// Tells the peer how many records came.
    pub fn acknowledge(&self, count: u64) {
        let mut waiting = self.waiting();
        waiting.acknowledgement = Some(count);
        waiting.wake_writer();
    }

    /// Asks the peer how many records came.
    pub fn ask(&self) {
        let mut waiting = self.waiting();
        waiting.has_question = true;
        waiting.wake_writer();
    }

    /// The bytes that wait, and those that aren't acknowledged.
    #[cfg(test)]
    pub fn bytes(&self) -> usize {
        self.waiting().bytes
    }

    /// What would be written next.
    #[cfg(test)]
    pub fn next(&self) -> Vec<u8> {
        let mut text = Vec::new();
        self.put_next(&mut self.waiting(), &mut text);
        text
    }

    /// Waits until something is to be written, and puts it in place of the text: all that fits into one piece.
    pub async fn take(&self, text: &mut Vec<u8>) {
        text.clear();
        text.shrink_to(2 * PIECE);
        poll_fn(|context| self.poll_next(text, context)).await;
    }

    fn poll_next(&self, text: &mut Vec<u8>, context: &mut Context<'_>) -> Poll<()> {
        let mut waiting = self.waiting();
        self.put_next(&mut waiting, text);
        if text.is_empty() {
            waiting.writer = Some(context.waker().clone());
            return Poll::Pending;
        }
        Poll::Ready(())
    }

    fn put_next(&self, waiting: &mut Waiting, text: &mut Vec<u8>) {
        if let Some(count) = waiting.acknowledgement.take() {
            put_record(ACKNOWLEDGED, &[&count.to_be_bytes()], text);
        }
        if std::mem::take(&mut waiting.has_question) {
            put_record(QUESTION, &[], text);
        }
        let mut count = 0;
        while let Some(record) = waiting.unwritten.pop_front() {
            if !text.is_empty() && text.len() + record.len() > PIECE {
                waiting.unwritten.push_front(record);
                break;
            }
            text.extend_from_slice(&record);
            count += 1;
            self.keep_or_forget(waiting, record);
        }
        waiting.count_written += count;
        self.traffic.sent(count, text.len());
    }

    fn keep_or_forget(&self, waiting: &mut Waiting, record: Shared) {
        if self.keeps_written {
            waiting.written.push_back(record);
        } else {
            waiting.bytes -= record.len();
            self.budget.used.subtract(record.len() as u64);
        }
    }
}

impl Drop for Outbox {
    fn drop(&mut self) {
        let bytes = self.waiting().bytes;
        self.budget.used.subtract(bytes as u64);
    }
}

#[cfg(test)]
mod tests {
    use super::*;

    fn dialled(budget: &Arc<Budget>) -> Arc<Outbox> {
        Outbox::of_dialled(budget, Arc::new(Traffic::default()))
    }

    fn put(outbox: &Outbox, text: &[u8]) {
        outbox.put(&Shared::from(text));
    }

    #[test]
    fn what_is_ready_goes_in_one_write() {
        let outbox = dialled(&Budget::new(100));
        put(&outbox, b"ab");
        put(&outbox, b"c");
        outbox.acknowledge(7);
        assert_eq!(outbox.next(), b"\0\0\0\x09\x02\0\0\0\0\0\0\0\x07abc");
        assert_eq!(outbox.next(), b"");
    }

    #[test]
    fn what_was_not_acknowledged_goes_again() {
        let budget = Budget::new(100);
        let outbox = dialled(&budget);
        outbox.begin_link();
        for text in [b"a", b"b", b"c"] {
            put(&outbox, text);
        }
        assert_eq!(outbox.next(), b"abc");
        outbox.acknowledged(1);
        assert!(!outbox.is_settled());
        put(&outbox, b"d");
        outbox.end_link();
        outbox.begin_link();
        assert_eq!(outbox.next(), b"bcd");
        outbox.acknowledged(9);
        assert!(outbox.is_settled());
        assert_eq!((outbox.bytes(), budget.used()), (0, 0));
    }

    #[test]
    fn the_oldest_has_to_go() {
        let budget = Budget::new(1 << 30);
        let outbox = dialled(&budget);
        let long = vec![7; ROOM_UNLINKED - 1];
        put(&outbox, b"ab");
        put(&outbox, &long);
        assert_eq!(outbox.bytes(), long.len());
        put(&outbox, b"c");
        assert_eq!(outbox.bytes(), ROOM_UNLINKED);
        outbox.begin_link();
        assert_eq!(outbox.next().len(), long.len());
        assert_eq!(outbox.next(), b"c");
        // One record may be longer than the room.
        let longest = vec![7; ROOM + 1];
        put(&outbox, &longest);
        assert_eq!((outbox.bytes(), budget.used()), (longest.len(), longest.len() as u64));
        drop(outbox);
        assert_eq!(budget.used(), 0);
    }

    #[test]
    fn of_all_the_fullest_loses() {
        let budget = Budget::new(10);
        let (first, second) = (dialled(&budget), dialled(&budget));
        for text in [b"aa", b"bb", b"cc"] {
            put(&first, text);
        }
        put(&second, b"dddd");
        put(&second, b"e");
        assert_eq!((first.bytes(), second.bytes(), budget.used()), (4, 5, 9));
        assert_eq!(first.next(), b"bbcc");
        assert_eq!(second.next(), b"dddde");
    }

    #[test]
    fn an_accepted_link_keeps_nothing_that_was_written() {
        let budget = Budget::new(100);
        let outbox = Outbox::of_accepted(&budget, Arc::new(Traffic::default()));
        put(&outbox, b"ab");
        assert_eq!(outbox.next(), b"ab");
        assert_eq!((outbox.bytes(), budget.used()), (0, 0));
    }
}
