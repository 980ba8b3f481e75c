//! A space that lasts.

use crate::bytes::Malformed;
use crate::values::{Answer, Operation, Version};
use crate::Refusal;
use std::marker::PhantomData;
use std::ptr::null_mut;

/// How many pages a space has.
pub const PAGES: usize = 256;

/// How many bytes a header has.
pub const HEADER_LEN: usize = 17;

// The longest answer, and the longest page.
const MOST_ANSWER: usize = 65_538;
const MOST_PAGE: usize = 66_176;

// `struct btspace` of btspace.h.
#[repr(C)]
struct Handle {
    space: *mut u8,
    // A handle stays on its thread.
    stays: PhantomData<*mut u8>,
}

extern "C" {
    fn btspace_open(version: u8, space: *mut Handle) -> u8;
    fn btspace_close(space: *mut Handle);
    fn btspace_apply(
        space: *mut Handle,
        operation: *const u8,
        operation_len: usize,
        answer: *mut u8,
        answer_len: usize,
        written: *mut usize,
    ) -> u8;
    fn btspace_page(space: *mut Handle, page: usize, text: *mut u8, text_len: usize, written: *mut usize) -> u8;
    fn btspace_header(space: *mut Handle, number: u64, header: *mut u8) -> u8;
    fn btspace_from_pages(
        texts: *const u8,
        texts_len: usize,
        lengths: *const usize,
        header: *const u8,
        header_len: usize,
        space: *mut Handle,
        number: *mut u64,
    ) -> u8;
}

/// A space that lasts until it is dropped.
///
/// ```
/// use btspace::{Answer, Field, Operation, Space, Version};
///
/// let mut space = Space::new(Version::One).unwrap();
/// space.apply(&Operation::Out(vec!["job".into(), 1.into()])).unwrap();
/// let any_job = vec![Field::from("job"), Field::AnyNumber];
/// assert_eq!(space.apply(&Operation::Inp(any_job)).unwrap(), Answer::Found(vec!["job".into(), 1.into()]));
/// ```
///
/// It stays on its thread:
///
/// ```compile_fail
/// let space = btspace::Space::new(btspace::Version::One).unwrap();
/// std::thread::spawn(move || drop(space));
/// ```
pub struct Space {
    handle: Handle,
    // What is asked and answered, so that a call takes no memory of its own.
    asked: Vec<u8>,
    told: Box<[u8]>,
}

/// The texts of a space's pages, one behind another, with the length of each.
#[derive(Clone, Debug, PartialEq, Eq)]
pub struct Pages {
    pub texts: Vec<u8>,
    pub lengths: [usize; PAGES],
}

impl Space {
    /// A new space.
    pub fn new(version: Version) -> Result<Space, Refusal> {
        let mut space = Space::closed();
        // SAFETY: the handle is closed, and the borrow keeps others from it.
        refusal(unsafe { btspace_open(version as u8, &mut space.handle) })?;
        Ok(space)
    }

    /// The space with these pages and this header, and the header's number.
    pub fn from_pages(pages: &Pages, header: &[u8]) -> Result<(Space, u64), Refusal> {
        let mut space = Space::closed();
        let mut number = 0;
        // SAFETY: a slice's pointer isn't null, so many bytes are there, and the handle is closed.
        refusal(unsafe {
            btspace_from_pages(
                pages.texts.as_ptr(),
                pages.texts.len(),
                pages.lengths.as_ptr(),
                header.as_ptr(),
                header.len(),
                &mut space.handle,
                &mut number,
            )
        })?;
        Ok((space, number))
    }

    fn closed() -> Space {
        Space {
            handle: Handle {
                space: null_mut(),
                stays: PhantomData,
            },
            asked: Vec::new(),
            told: vec![0; MOST_ANSWER].into_boxed_slice(),
        }
    }

    /// Applies an operation, and gives its answer. A refusal changes nothing.
    pub fn apply(&mut self, operation: &Operation) -> Result<Answer, Refusal> {
        self.asked.clear();
        operation.encode(&mut self.asked);
        // SAFETY: as of `apply_bytes`.
        let len = unsafe { apply_bytes(&mut self.handle, &self.asked, &mut self.told) }?;
        Ok(Answer::decode(&self.told[..len]).expect("the library spells an answer"))
    }

    /// Applies the operation that the bytes spell, writes its answer in front of `answer`, and gives how many bytes it
    /// has. A refusal changes nothing.
    pub fn apply_bytes(&mut self, operation: &[u8], answer: &mut [u8]) -> Result<usize, Refusal> {
        // SAFETY: the handle is the library's own, and the borrows keep others from it and from the bytes.
        unsafe { apply_bytes(&mut self.handle, operation, answer) }
    }

    /// The texts of all pages.
    pub fn pages(&mut self) -> Result<Pages, Refusal> {
        let mut text = vec![0; MOST_PAGE];
        let mut texts = Vec::new();
        let mut lengths = [0; PAGES];
        for (page, len) in lengths.iter_mut().enumerate() {
            // SAFETY: as of `apply_bytes`.
            refusal(unsafe { btspace_page(&mut self.handle, page, text.as_mut_ptr(), text.len(), len) })?;
            texts.extend(&text[..*len]);
        }
        Ok(Pages { texts, lengths })
    }

    /// The text of the header. To be read again, the number has to be below 2^48, and at least a sixteenth of the number
    /// of operations so far.
    pub fn header(&mut self, number: u64) -> Result<[u8; HEADER_LEN], Refusal> {
        let mut header = [0; HEADER_LEN];
        // SAFETY: as of `apply_bytes`, and so many bytes are there.
        refusal(unsafe { btspace_header(&mut self.handle, number, header.as_mut_ptr()) })?;
        Ok(header)
    }
}

impl Drop for Space {
    fn drop(&mut self) {
        // SAFETY: the handle is the library's own, and nobody has it any more.
        unsafe { btspace_close(&mut self.handle) }
    }
}

// The handle is one of the library's.
unsafe fn apply_bytes(handle: &mut Handle, operation: &[u8], answer: &mut [u8]) -> Result<usize, Refusal> {
    let mut written = 0;
    refusal(btspace_apply(
        handle,
        operation.as_ptr(),
        operation.len(),
        answer.as_mut_ptr(),
        answer.len(),
        &mut written,
    ))?;
    Ok(written)
}

fn refusal(number: u8) -> Result<(), Refusal> {
    if number == 0 {
        Ok(())
    } else {
        Err(Refusal::of(number))
    }
}

impl Answer {
    /// The answer that these bytes, all of them, spell.
    pub fn decode(bytes: &[u8]) -> Result<Answer, Malformed> {
        let mut answers = Answer::decode_all(bytes)?;
        match answers.pop() {
            Some(answer) if answers.is_empty() => Ok(answer),
            _ => Err(Malformed),
        }
    }
}
