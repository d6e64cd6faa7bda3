//! A buffer between two pages that may not be touched: a call that reads or
//! writes over its edge ends the program at once. Of the two ends only one can lie
//! at a page's edge; bytes behind the other are looked at after the call.

use std::ffi::c_void;
use std::ptr::null_mut;
use std::slice;

const PAGE: usize = 4_096;
const FILL: u8 = 0xA5;

extern "C" {
    fn mmap(
        at: *mut c_void,
        len: usize,
        rights: i32,
        flags: i32,
        file: i32,
        from: i64,
    ) -> *mut c_void;
    fn mprotect(at: *mut c_void, len: usize, rights: i32) -> i32;
    fn munmap(at: *mut c_void, len: usize) -> i32;
}

const NONE: i32 = 0;
const READ: i32 = 1;
const READ_WRITE: i32 = 3;
const PRIVATE_ANONYMOUS: i32 = 0x22;

/// The end of the content that lies at the edge of a page.
#[derive(Clone, Copy, PartialEq, Eq, Debug)]
pub enum Edge {
    First,
    Last,
}

pub struct Paged {
    whole: *mut u8,
    whole_bytes: usize,
    from: usize,
    len: usize,
}

impl Paged {
    pub fn new(content: &[u8], edge: Edge) -> Paged {
        let inner = (content.len().max(1) + PAGE - 1) / PAGE * PAGE;
        let whole_bytes = inner + 2 * PAGE;
        // SAFETY: a new mapping, of which only the part between its two outer pages
        // is ever touched.
        let whole = unsafe {
            let whole = mmap(null_mut(), whole_bytes, READ_WRITE, PRIVATE_ANONYMOUS, -1, 0);
            assert!(whole as isize != -1, "no memory for a buffer of {inner} bytes");
            let last = whole.cast::<u8>().add(PAGE + inner).cast();
            assert_eq!(mprotect(whole, PAGE, NONE), 0, "no guard page");
            assert_eq!(mprotect(last, PAGE, NONE), 0, "no guard page");
            whole.cast::<u8>()
        };
        let from = match edge {
            Edge::First => PAGE,
            Edge::Last => PAGE + inner - content.len(),
        };
        let mut paged = Paged { whole, whole_bytes, from, len: content.len() };
        paged.inner_mut().fill(FILL);
        paged.content_mut().copy_from_slice(content);
        paged
    }

    /// To be lent for reading: a write to it ends the program.
    pub fn read_only(content: &[u8], edge: Edge) -> Paged {
        let paged = Paged::new(content, edge);
        // SAFETY: the pages between the two outer ones.
        let done =
            unsafe { mprotect(paged.whole.add(PAGE).cast(), paged.whole_bytes - 2 * PAGE, READ) };
        assert_eq!(done, 0, "no pages to read only");
        paged
    }

    fn inner_mut(&mut self) -> &mut [u8] {
        // SAFETY: the pages between the two outer ones are this buffer's alone.
        unsafe { slice::from_raw_parts_mut(self.whole.add(PAGE), self.whole_bytes - 2 * PAGE) }
    }

    fn inner(&self) -> &[u8] {
        // SAFETY: as above.
        unsafe { slice::from_raw_parts(self.whole.add(PAGE), self.whole_bytes - 2 * PAGE) }
    }

    pub fn len(&self) -> usize {
        self.len
    }

    pub fn content(&self) -> &[u8] {
        &self.inner()[self.from - PAGE..][..self.len]
    }

    pub fn content_mut(&mut self) -> &mut [u8] {
        let (from, len) = (self.from - PAGE, self.len);
        &mut self.inner_mut()[from..][..len]
    }

    /// Other content of another length, up to the first one's pages; its last byte
    /// lies at the edge.
    pub fn lend_last(&mut self, content: &[u8]) {
        let end = self.whole_bytes - PAGE;
        assert!(content.len() + PAGE <= end, "{} bytes do not fit", content.len());
        self.from = end - content.len();
        self.len = content.len();
        let (from, beside) = (self.from - PAGE, (self.from - PAGE).min(PAGE));
        self.inner_mut()[from - beside..from].fill(FILL);
        self.content_mut().copy_from_slice(content);
    }

    /// On purpose, where there is a byte beside the content that can be written.
    pub fn write_beside(&mut self) {
        let (from, len) = (self.from - PAGE, self.len);
        let inner = self.inner_mut();
        let beside = if from > 0 { from - 1 } else { len };
        if let Some(byte) = inner.get_mut(beside) {
            *byte ^= 1;
        }
    }

    /// Whether a byte beside the content was written, as far as so many bytes away.
    pub fn hurt(&self, far: usize) -> bool {
        let (before, rest) = self.inner().split_at(self.from - PAGE);
        let behind = &rest[self.len..];
        let near = &before[before.len().saturating_sub(far)..];
        let other = |byte: &u8| *byte != FILL;
        near.iter().any(other) || behind[..behind.len().min(far)].iter().any(other)
    }
}

impl Drop for Paged {
    fn drop(&mut self) {
        // SAFETY: the mapping that `new` made; nobody else has it.
        unsafe { munmap(self.whole.cast(), self.whole_bytes) };
    }
}
