//! What went to and came from a peer, counted for the metrics.

use crate::counter::Counter;
use crate::log::Quota;

/// Counts since the start, but for the links at present.
#[derive(Default)]
pub struct Traffic {
    /// For events that the peer causes.
    pub quota: Quota,
    pub frames_sent: Counter,
    pub bytes_sent: Counter,
    pub frames_received: Counter,
    pub bytes_received: Counter,
    /// Frames that were never written, since there was no room.
    pub frames_dropped: Counter,
    pub links_begun: Counter,
    pub links: Counter,
}

impl Traffic {
    pub fn sent(&self, frames: u64, bytes: usize) {
        self.frames_sent.add(frames);
        self.bytes_sent.add(bytes as u64);
    }

    pub fn received(&self, bytes: usize) {
        self.frames_received.add(1);
        self.bytes_received.add(bytes as u64);
    }

    pub fn dropped(&self) {
        self.frames_dropped.add(1);
    }

    pub fn link_begins(&self) {
        self.links_begun.add(1);
        self.links.add(1);
    }

    pub fn link_ends(&self) {
        self.links.subtract(1);
    }
}
