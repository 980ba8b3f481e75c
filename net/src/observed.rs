//! What the frames tell that a replica sends: how far it has come. Nothing depends on it but the metrics.
//!
//! `docs/formats.md` has the layout of frames. Bytes that are no frame tell nothing.

use crate::counter::Counter;

const PRE_PREPARE: u8 = 0x42;
const PREPARE: u8 = 0x43;
const COMMIT: u8 = 0x44;
const CHECKPOINT: u8 = 0x45;
const VIEW_CHANGE: u8 = 0x46;
const NEW_VIEW: u8 = 0x47;
const REPLY: u8 = 0x48;

/// The greatest that the frames told so far.
#[derive(Default)]
pub struct Observed {
    /// The view of a batch's votes or of an own new view.
    pub view: Counter,
    /// The view of an own view change.
    pub wanted_view: Counter,
    /// The number of a reply to an ordered request: its batch was executed.
    pub executed: Counter,
    /// The number of an own checkpoint, stable or not.
    pub checkpoint: Counter,
    /// How many of the 64 signatures were used.
    pub signatures: Counter,
    pub view_changes: Counter,
}

/// The fields of a frame's body.
struct Body<'a> {
    fields: &'a [u8],
    kind: u8,
    authenticator: &'a [u8],
}

impl<'a> Body<'a> {
    fn of(frame: &'a [u8]) -> Option<Body<'a>> {
        let length = u32::from_be_bytes(frame.get(..4)?.try_into().ok()?) as usize;
        let body = frame.get(4..4 + length)?;
        let authenticator = &frame[4 + length..];
        Some(Body { fields: body.get(3..)?, kind: *body.first()?, authenticator })
    }

    fn long_at(&self, place: usize) -> Option<u64> {
        let bytes = self.fields.get(place..place + 8)?;
        bytes.try_into().ok().map(u64::from_be_bytes)
    }
}

impl Observed {
    /// Notes a frame that the child sends.
    pub fn note(&self, frame: &[u8]) {
        if let Some(body) = Body::of(frame) {
            self.note_body(&body);
        }
    }

    fn note_body(&self, body: &Body<'_>) -> Option<()> {
        match body.kind {
            PRE_PREPARE | PREPARE | COMMIT => self.view.raise(body.long_at(0)?),
            CHECKPOINT => self.checkpoint.raise(body.long_at(0)?),
            VIEW_CHANGE => {
                self.view_changes.add(1);
                self.wanted_view.raise(body.long_at(0)?);
                self.note_signature(body);
            }
            NEW_VIEW => {
                self.view.raise(body.long_at(0)?);
                self.note_signature(body);
            }
            // Before the number stand the client, the timestamp and the mode, 0 if it is ordered.
            REPLY if body.fields.get(10) == Some(&0) => self.executed.raise(body.long_at(11)?),
            _ => {}
        }
        Some(())
    }

    fn note_signature(&self, body: &Body<'_>) {
        if let [1, leaf, ..] = body.authenticator {
            self.signatures.raise(u64::from(*leaf) + 1);
        }
    }
}

#[cfg(test)]
mod tests {
    use super::*;

    fn frame(kind: u8, fields: &[&[u8]], authenticator: &[u8]) -> Vec<u8> {
        let body = [&[kind, 0, 0], fields.concat().as_slice()].concat();
        [&(body.len() as u32).to_be_bytes(), body.as_slice(), authenticator].concat()
    }

    #[test]
    fn the_greatest_of_each_is_kept() {
        let observed = Observed::default();
        let long = |it: u64| it.to_be_bytes();
        observed.note(&frame(COMMIT, &[&long(3), &long(40)], &[0]));
        observed.note(&frame(PREPARE, &[&long(2), &long(41)], &[0]));
        observed.note(&frame(CHECKPOINT, &[&long(32)], &[0]));
        observed.note(&frame(VIEW_CHANGE, &[&long(4)], &[1, 6]));
        observed.note(&frame(REPLY, &[&[1, 0], &long(9), &[0], &long(39)], &[0]));
        observed.note(&frame(REPLY, &[&[1, 0], &long(9), &[1], &long(50)], &[0]));
        let found =
            [&observed.view, &observed.checkpoint, &observed.wanted_view, &observed.signatures, &observed.executed];
        assert_eq!(found.map(Counter::get), [3, 32, 4, 7, 39]);
    }

    #[test]
    fn no_frame_tells_nothing() {
        let observed = Observed::default();
        let whole = frame(VIEW_CHANGE, &[&[0xff; 8]], &[1, 9]);
        for end in 0..4 + 11 {
            observed.note(&whole[..end]);
        }
        assert_eq!((observed.wanted_view.get(), observed.signatures.get()), (0, 0));
    }
}
