//! The C interface of the library: its structs and functions, and the archives behind `Library`. The
//! search and the digests of four frames have archives of their own, which no host links.

use crate::frame::Name;
use crate::model::{Record, Rotation};
#[cfg(apollo_lib)]
use crate::{
    library::Library,
    model::{Answer, Fetched, Lent, Marked, Part, Search, Setup},
};

#[repr(C)]
#[derive(Clone, Copy, Debug, PartialEq, Eq)]
pub struct ApolloRound {
    pub value: u32,
}

#[repr(C)]
#[derive(Clone, Copy, Debug, PartialEq, Eq)]
pub struct ApolloHeight {
    pub value: u32,
}

#[repr(C)]
#[derive(Clone, Copy, Debug, PartialEq, Eq)]
pub struct ApolloTicks {
    pub value: u32,
}

#[repr(C)]
#[derive(Clone, Copy, Debug, PartialEq, Eq)]
pub struct ApolloReplica {
    pub id: u8,
    pub f: u8,
    pub timeout: ApolloTicks,
    pub last_round: ApolloRound,
    pub round: ApolloRound,
    pub timer: ApolloTicks,
    pub tip_round: ApolloRound,
    pub tip_height: ApolloHeight,
    pub committed_round: ApolloRound,
    pub committed_height: ApolloHeight,
    pub rotation: Rotation,
    pub equivocators: u16,
}

#[repr(C)]
#[derive(Clone, Copy, Debug, PartialEq, Eq)]
pub struct ApolloAnswer {
    pub number: u8,
    pub frames: u8,
    pub leader: u8,
    pub place: u32,
    pub replica: ApolloReplica,
}

#[repr(C)]
#[derive(Clone, Copy, Debug, PartialEq, Eq)]
pub struct ApolloMarked {
    pub number: u8,
    pub place: u32,
    pub replica: ApolloReplica,
}

#[repr(C)]
#[derive(Clone, Copy, Debug, PartialEq, Eq)]
pub struct ApolloPart {
    pub number: u8,
    pub start: usize,
    pub length: usize,
}

#[repr(C)]
#[derive(Clone, Copy, Debug, PartialEq, Eq)]
pub struct ApolloFetched {
    pub number: u8,
    pub count: usize,
}

#[repr(C)]
#[derive(Clone, Copy, Debug, PartialEq, Eq)]
pub struct ApolloSearch {
    pub round: u32,
    pub slots_read: u32,
}

/// Laid out as `lanes::Four`.
#[repr(C)]
#[derive(Clone, Copy, Debug, PartialEq, Eq)]
pub struct ApolloDigests4 {
    pub d: [Name; 4],
}

extern "C" {
    pub fn apollo_open(
        id: u8,
        f: u8,
        timeout: ApolloTicks,
        last_round: ApolloRound,
        rotation: *const u8,
        rotation_len: usize,
        log: *mut u8,
        log_len: usize,
        masks: *mut u16,
        masks_len: usize,
        entry: *const u8,
        entry_len: usize,
        out: *mut u8,
        out_len: usize,
    ) -> ApolloAnswer;

    pub fn apollo_branch(
        replica: ApolloReplica,
        log: *mut u8,
        log_len: usize,
        masks: *mut u16,
        masks_len: usize,
        frames: *const u8,
        frames_len: usize,
        entry: *const u8,
        entry_len: usize,
        out: *mut u8,
        out_len: usize,
    ) -> ApolloAnswer;

    pub fn apollo_blame(
        replica: ApolloReplica,
        log: *mut u8,
        log_len: usize,
        masks: *mut u16,
        masks_len: usize,
        frame: *const u8,
        frame_len: usize,
        entry: *const u8,
        entry_len: usize,
        out: *mut u8,
        out_len: usize,
    ) -> ApolloAnswer;

    pub fn apollo_blames(
        replica: ApolloReplica,
        log: *mut u8,
        log_len: usize,
        masks: *mut u16,
        masks_len: usize,
        frames: *const u8,
        frames_len: usize,
        entry: *const u8,
        entry_len: usize,
        out: *mut u8,
        out_len: usize,
    ) -> ApolloAnswer;

    pub fn apollo_tick(
        replica: ApolloReplica,
        log: *mut u8,
        log_len: usize,
        masks: *mut u16,
        masks_len: usize,
        entry: *const u8,
        entry_len: usize,
        out: *mut u8,
        out_len: usize,
    ) -> ApolloAnswer;

    pub fn apollo_equivocation(
        replica: ApolloReplica,
        frames: *const u8,
        frames_len: usize,
    ) -> ApolloMarked;

    pub fn apollo_read(
        replica: ApolloReplica,
        log: *const u8,
        log_len: usize,
        height: ApolloHeight,
    ) -> ApolloPart;

    pub fn apollo_fetch(
        replica: ApolloReplica,
        log: *const u8,
        log_len: usize,
        height: ApolloHeight,
        out: *mut u8,
        out_len: usize,
    ) -> ApolloFetched;

    pub fn apollo_digest(bytes: *const u8, len: usize, digest: *mut u8);

    pub fn apollo_search(log: *const u8, log_len: usize, limit: u32) -> ApolloSearch;

    pub fn apollo_digest4(frames: *const u8, len: usize) -> ApolloDigests4;
}

impl From<Record> for ApolloReplica {
    fn from(record: Record) -> Self {
        let round = |value| ApolloRound { value };
        let height = |value| ApolloHeight { value };
        let ticks = |value| ApolloTicks { value };
        ApolloReplica {
            id: record.own,
            f: record.f,
            timeout: ticks(record.wait),
            last_round: round(record.term),
            round: round(record.round),
            timer: ticks(record.left),
            tip_round: round(record.tip_round),
            tip_height: height(record.tip_height),
            committed_round: round(record.committed_round),
            committed_height: height(record.committed_height),
            rotation: record.rotation,
            equivocators: record.equivocators,
        }
    }
}

impl From<ApolloReplica> for Record {
    fn from(replica: ApolloReplica) -> Self {
        Record {
            own: replica.id,
            f: replica.f,
            wait: replica.timeout.value,
            term: replica.last_round.value,
            round: replica.round.value,
            left: replica.timer.value,
            tip_round: replica.tip_round.value,
            tip_height: replica.tip_height.value,
            committed_round: replica.committed_round.value,
            committed_height: replica.committed_height.value,
            rotation: replica.rotation,
            equivocators: replica.equivocators,
        }
    }
}

/// The linked archives. They keep nothing between calls.
#[cfg(apollo_lib)]
pub struct Archive;

#[cfg(apollo_lib)]
impl From<ApolloAnswer> for Answer {
    fn from(answer: ApolloAnswer) -> Self {
        Answer {
            number: answer.number,
            place: answer.place,
            frames: answer.frames,
            leader: answer.leader,
            record: answer.replica.into(),
        }
    }
}

/// A call that hands in frames.
#[cfg(apollo_lib)]
type HandIn = unsafe extern "C" fn(
    ApolloReplica,
    *mut u8,
    usize,
    *mut u16,
    usize,
    *const u8,
    usize,
    *const u8,
    usize,
    *mut u8,
    usize,
) -> ApolloAnswer;

// Safety, for each call below: every pointer comes from a slice with its length, the written ones
// from slices lent for writing, and no two overlap.
#[cfg(apollo_lib)]
fn hand_in(call: HandIn, record: Record, frames: &[u8], lent: Lent) -> Answer {
    let answer = unsafe {
        call(
            record.into(),
            lent.log.as_mut_ptr(),
            lent.log.len(),
            lent.masks.as_mut_ptr(),
            lent.masks.len(),
            frames.as_ptr(),
            frames.len(),
            lent.entry.as_ptr(),
            lent.entry.len(),
            lent.out.as_mut_ptr(),
            lent.out.len(),
        )
    };
    answer.into()
}

#[cfg(apollo_lib)]
impl Library for Archive {
    fn open(&self, setup: Setup, rotation: &[u8], lent: Lent) -> Answer {
        let answer = unsafe {
            apollo_open(
                setup.own,
                setup.f,
                ApolloTicks { value: setup.wait },
                ApolloRound { value: setup.term },
                rotation.as_ptr(),
                rotation.len(),
                lent.log.as_mut_ptr(),
                lent.log.len(),
                lent.masks.as_mut_ptr(),
                lent.masks.len(),
                lent.entry.as_ptr(),
                lent.entry.len(),
                lent.out.as_mut_ptr(),
                lent.out.len(),
            )
        };
        answer.into()
    }

    fn branch(&self, record: Record, frames: &[u8], lent: Lent) -> Answer {
        hand_in(apollo_branch, record, frames, lent)
    }

    fn blame(&self, record: Record, frame: &[u8], lent: Lent) -> Answer {
        hand_in(apollo_blame, record, frame, lent)
    }

    fn blames(&self, record: Record, frames: &[u8], lent: Lent) -> Answer {
        hand_in(apollo_blames, record, frames, lent)
    }

    fn tick(&self, record: Record, lent: Lent) -> Answer {
        let answer = unsafe {
            apollo_tick(
                record.into(),
                lent.log.as_mut_ptr(),
                lent.log.len(),
                lent.masks.as_mut_ptr(),
                lent.masks.len(),
                lent.entry.as_ptr(),
                lent.entry.len(),
                lent.out.as_mut_ptr(),
                lent.out.len(),
            )
        };
        answer.into()
    }

    fn equivocation(&self, record: Record, frames: &[u8]) -> Marked {
        let marked = unsafe { apollo_equivocation(record.into(), frames.as_ptr(), frames.len()) };
        Marked {
            number: marked.number,
            place: marked.place,
            record: marked.replica.into(),
        }
    }

    fn read(&self, record: Record, log: &[u8], height: u32) -> Part {
        let height = ApolloHeight { value: height };
        let part = unsafe { apollo_read(record.into(), log.as_ptr(), log.len(), height) };
        Part {
            number: part.number,
            start: part.start,
            length: part.length,
        }
    }

    fn fetch(&self, record: Record, log: &[u8], height: u32, out: &mut [u8]) -> Fetched {
        let fetched = unsafe {
            apollo_fetch(
                record.into(),
                log.as_ptr(),
                log.len(),
                ApolloHeight { value: height },
                out.as_mut_ptr(),
                out.len(),
            )
        };
        Fetched {
            number: fetched.number,
            count: fetched.count,
        }
    }

    fn digest(&self, bytes: &[u8]) -> [u8; 32] {
        let mut digest = [0; 32];
        unsafe { apollo_digest(bytes.as_ptr(), bytes.len(), digest.as_mut_ptr()) };
        digest
    }

    fn search(&self, log: &[u8], limit: u32) -> Search {
        let search = unsafe { apollo_search(log.as_ptr(), log.len(), limit) };
        Search {
            round: search.round,
            slots_read: search.slots_read,
        }
    }

    fn digest4(&self, frames: &[u8]) -> [Name; 4] {
        unsafe { apollo_digest4(frames.as_ptr(), frames.len()) }.d
    }
}

#[cfg(test)]
mod tests {
    use super::*;
    use std::mem::{offset_of, size_of};

    #[test]
    fn structs_lie_as_c_lays_them() {
        assert_eq!(size_of::<ApolloRound>(), 4);
        assert_eq!(size_of::<ApolloHeight>(), 4);
        assert_eq!(size_of::<ApolloTicks>(), 4);
        assert_eq!(size_of::<ApolloReplica>(), 56);
        assert_eq!(offset_of!(ApolloReplica, timeout), 4);
        assert_eq!(offset_of!(ApolloReplica, round), 12);
        assert_eq!(offset_of!(ApolloReplica, committed_height), 32);
        assert_eq!(offset_of!(ApolloReplica, rotation), 36);
        assert_eq!(offset_of!(ApolloReplica, equivocators), 52);
        assert_eq!(size_of::<ApolloAnswer>(), 64);
        assert_eq!(offset_of!(ApolloAnswer, place), 4);
        assert_eq!(offset_of!(ApolloAnswer, replica), 8);
        assert_eq!(size_of::<ApolloMarked>(), 64);
        assert_eq!(offset_of!(ApolloMarked, place), 4);
        assert_eq!(offset_of!(ApolloMarked, replica), 8);
        assert_eq!(size_of::<ApolloPart>(), 24);
        assert_eq!(offset_of!(ApolloPart, start), 8);
        assert_eq!(size_of::<ApolloFetched>(), 16);
        assert_eq!(offset_of!(ApolloFetched, count), 8);
        assert_eq!(size_of::<ApolloSearch>(), 8);
        assert_eq!(offset_of!(ApolloSearch, slots_read), 4);
        assert_eq!(size_of::<ApolloDigests4>(), 128);
    }

    #[test]
    fn a_record_comes_back_as_it_went() {
        let record = Record {
            own: 1,
            f: 2,
            wait: 3,
            term: 4,
            round: 5,
            left: 6,
            tip_round: 7,
            tip_height: 8,
            committed_round: 9,
            committed_height: 10,
            rotation: std::array::from_fn(|seat| 11 + seat as u8),
            equivocators: 0x1a1b,
        };
        assert_eq!(Record::from(ApolloReplica::from(record)), record);
    }
}
