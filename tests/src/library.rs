//! What is compared: anything that offers the nine functions of a host, and the search and the digests
//! of four frames by themselves.

use crate::frame::{self, Name};
use crate::model::{self, Answer, Fetched, Lent, Marked, Part, Record, Search, Setup};
use crate::sha256;

pub trait Library {
    fn open(&self, setup: Setup, rotation: &[u8], lent: Lent) -> Answer;
    fn branch(&self, record: Record, frames: &[u8], lent: Lent) -> Answer;
    fn blame(&self, record: Record, frame: &[u8], lent: Lent) -> Answer;
    fn blames(&self, record: Record, frames: &[u8], lent: Lent) -> Answer;
    fn tick(&self, record: Record, lent: Lent) -> Answer;
    fn equivocation(&self, record: Record, frames: &[u8]) -> Marked;
    fn read(&self, record: Record, log: &[u8], height: u32) -> Part;
    fn fetch(&self, record: Record, log: &[u8], height: u32, out: &mut [u8]) -> Fetched;
    fn digest(&self, bytes: &[u8]) -> [u8; 32];
    /// Asked of whole slots, and of any limit.
    fn search(&self, log: &[u8], limit: u32) -> Search;
    /// The digests of four frames, each of the bytes before its check; zeros for another length.
    fn digest4(&self, frames: &[u8]) -> [Name; 4];
}

/// The model in the library's place.
pub struct Model;

impl Library for Model {
    fn open(&self, setup: Setup, rotation: &[u8], lent: Lent) -> Answer {
        model::open(setup, rotation, lent)
    }

    fn branch(&self, record: Record, frames: &[u8], lent: Lent) -> Answer {
        model::branch(record, frames, lent)
    }

    fn blame(&self, record: Record, frame: &[u8], lent: Lent) -> Answer {
        model::blame(record, frame, lent)
    }

    fn blames(&self, record: Record, frames: &[u8], lent: Lent) -> Answer {
        model::blames(record, frames, lent)
    }

    fn tick(&self, record: Record, lent: Lent) -> Answer {
        model::tick(record, lent)
    }

    fn equivocation(&self, record: Record, frames: &[u8]) -> Marked {
        model::equivocation(record, frames)
    }

    fn read(&self, record: Record, log: &[u8], height: u32) -> Part {
        model::read(record, log, height)
    }

    fn fetch(&self, record: Record, log: &[u8], height: u32, out: &mut [u8]) -> Fetched {
        model::fetch(record, log, height, out)
    }

    fn digest(&self, bytes: &[u8]) -> [u8; 32] {
        sha256::digest(bytes)
    }

    fn search(&self, log: &[u8], limit: u32) -> Search {
        model::search(log, limit)
    }

    fn digest4(&self, frames: &[u8]) -> [Name; 4] {
        frame::digest4(frames)
    }
}

/// The library under test: the archives if they are linked, else the model.
pub fn under_test() -> Box<dyn Library> {
    #[cfg(apollo_lib)]
    return Box::new(crate::ffi::Archive);
    #[cfg(not(apollo_lib))]
    return Box::new(Model);
}

/// A line that says which library is under test.
pub fn description() -> &'static str {
    match option_env!("APOLLO_ARCHIVE") {
        Some(archive) => archive,
        None => "the model itself, since APOLLO_LIB was not set when this was built",
    }
}
