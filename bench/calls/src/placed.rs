//! Buffers that begin at a set place of a page, wherever the allocator puts them: the distance of two buffers modulo the page
//! decides how fast one is copied to the other (docs/PERFORMANCE.md), and would be the build's choice.

use std::ops::{Deref, DerefMut};

const PAGE: usize = 4096;

pub struct Placed {
    /// The buffer is the end of it.
    held: Vec<u8>,
    start: usize,
    place: usize,
}

impl Placed {
    /// A copy of some bytes that begins `place` bytes after the start of a page.
    pub fn new(place: usize, bytes: &[u8]) -> Placed {
        let mut held = vec![0; PAGE + place + bytes.len()];
        let start = held.as_ptr().align_offset(PAGE) + place;
        held.truncate(start + bytes.len());
        held[start..].copy_from_slice(bytes);
        Placed { held, start, place }
    }
}

impl Clone for Placed {
    fn clone(&self) -> Placed {
        Placed::new(self.place, self)
    }
}

impl PartialEq for Placed {
    fn eq(&self, other: &Placed) -> bool {
        **self == **other
    }
}

impl Deref for Placed {
    type Target = [u8];

    fn deref(&self) -> &[u8] {
        &self.held[self.start..]
    }
}

impl DerefMut for Placed {
    fn deref_mut(&mut self) -> &mut [u8] {
        &mut self.held[self.start..]
    }
}
