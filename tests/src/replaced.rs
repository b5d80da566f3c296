//! The model with some of its functions replaced, for tests of the comparison.

use crate::frame::{self, Name};
use crate::library::Library;
use crate::model::{self, Answer, Fetched, Lent, Marked, Part, Record, Search, Setup};
use crate::sha256;

/// A call that is lent the card's book and masks.
pub enum Ask<'a> {
    Open(Setup, &'a [u8]),
    Branch(Record, &'a [u8]),
    Blame(Record, &'a [u8]),
    Blames(Record, &'a [u8]),
    Tick(Record),
}

impl Ask<'_> {
    pub fn record(&self) -> Record {
        match *self {
            Ask::Open(..) => Record::default(),
            Ask::Branch(record, _) | Ask::Blame(record, _) => record,
            Ask::Blames(record, _) | Ask::Tick(record) => record,
        }
    }
}

pub type Machine = fn(&Ask, Lent) -> Answer;
pub type Equivocation = fn(Record, &[u8]) -> Marked;
pub type Read = fn(Record, &[u8], u32) -> Part;
pub type Fetch = fn(Record, &[u8], u32, &mut [u8]) -> Fetched;
pub type Find = fn(&[u8], u32) -> Search;

pub struct Replaced {
    machine: Machine,
    equivocation: Equivocation,
    read: Read,
    fetch: Fetch,
    search: Find,
}

impl Replaced {
    pub fn machine(machine: Machine) -> Replaced {
        Replaced {
            machine,
            equivocation: model::equivocation,
            read: model::read,
            fetch: model::fetch,
            search: model::search,
        }
    }

    pub fn equivocation(equivocation: Equivocation) -> Replaced {
        Replaced {
            equivocation,
            ..Replaced::machine(honest)
        }
    }

    pub fn read(read: Read) -> Replaced {
        Replaced {
            read,
            ..Replaced::machine(honest)
        }
    }

    pub fn fetch(fetch: Fetch) -> Replaced {
        Replaced {
            fetch,
            ..Replaced::machine(honest)
        }
    }

    pub fn search(search: Find) -> Replaced {
        Replaced {
            search,
            ..Replaced::machine(honest)
        }
    }
}

impl Library for Replaced {
    fn open(&self, setup: Setup, rotation: &[u8], lent: Lent) -> Answer {
        (self.machine)(&Ask::Open(setup, rotation), lent)
    }

    fn branch(&self, record: Record, frames: &[u8], lent: Lent) -> Answer {
        (self.machine)(&Ask::Branch(record, frames), lent)
    }

    fn blame(&self, record: Record, frame: &[u8], lent: Lent) -> Answer {
        (self.machine)(&Ask::Blame(record, frame), lent)
    }

    fn blames(&self, record: Record, frames: &[u8], lent: Lent) -> Answer {
        (self.machine)(&Ask::Blames(record, frames), lent)
    }

    fn tick(&self, record: Record, lent: Lent) -> Answer {
        (self.machine)(&Ask::Tick(record), lent)
    }

    fn equivocation(&self, record: Record, frames: &[u8]) -> Marked {
        (self.equivocation)(record, frames)
    }

    fn read(&self, record: Record, log: &[u8], height: u32) -> Part {
        (self.read)(record, log, height)
    }

    fn fetch(&self, record: Record, log: &[u8], height: u32, out: &mut [u8]) -> Fetched {
        (self.fetch)(record, log, height, out)
    }

    fn digest(&self, bytes: &[u8]) -> [u8; 32] {
        sha256::digest(bytes)
    }

    fn search(&self, log: &[u8], limit: u32) -> Search {
        (self.search)(log, limit)
    }

    fn digest4(&self, frames: &[u8]) -> [Name; 4] {
        frame::digest4(frames)
    }
}

/// The model's own answer.
pub fn honest(ask: &Ask, lent: Lent) -> Answer {
    match *ask {
        Ask::Open(setup, rotation) => model::open(setup, rotation, lent),
        Ask::Branch(record, frames) => model::branch(record, frames, lent),
        Ask::Blame(record, frame) => model::blame(record, frame, lent),
        Ask::Blames(record, frames) => model::blames(record, frames, lent),
        Ask::Tick(record) => model::tick(record, lent),
    }
}

/// The same buffers for one call more.
pub fn again<'a>(lent: &'a mut Lent) -> Lent<'a> {
    Lent {
        log: lent.log,
        masks: lent.masks,
        entry: lent.entry,
        out: lent.out,
    }
}
