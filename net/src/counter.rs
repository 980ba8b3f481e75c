//! Numbers that the carrier's tasks share.

use std::sync::atomic::{AtomicU64, Ordering};

/// A number that tasks raise and the metrics read. All tasks are of one thread, so nobody writes in between, and no
/// processor has to be kept from it.
#[derive(Default)]
pub struct Counter(AtomicU64);

impl Counter {
    pub fn get(&self) -> u64 {
        self.0.load(Ordering::Relaxed)
    }

    pub fn add(&self, count: u64) {
        self.0.store(self.get() + count, Ordering::Relaxed);
    }

    pub fn subtract(&self, count: u64) {
        self.0.store(self.get() - count, Ordering::Relaxed);
    }

    /// Keeps the greater one of the number and this value.
    pub fn raise(&self, value: u64) {
        self.0.store(self.get().max(value), Ordering::Relaxed);
    }
}
