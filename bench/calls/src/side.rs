//! A case on either side: the library through its C interface, and the Rust implementation.

use crate::case::{Call, Case, Lent};
use beside::ffi::{self, ApolloAnswer, ApolloFetched, ApolloHeight};
use beside::ffi::{ApolloMarked, ApolloPart, ApolloReplica};
use beside::frame::{Frame, Name, CHECK_AT, SIZE};
use beside::model::{self, seats, Answer, Fetched, Marked, Part, Setup};
use beside::sha256;
use std::hint::black_box;
use std::time::Instant;

/// What a call gives back.
#[derive(Clone, Copy, Debug, PartialEq, Eq)]
pub enum Outcome {
    Answer(Answer),
    Marked(Marked),
    Part(Part),
    Fetched(Fetched),
}

/// Seconds per run over `times` runs, after one that is not timed; and what the last run gave.
pub fn timed<T>(times: usize, mut run: impl FnMut() -> T) -> (f64, T) {
    let mut last = run();
    let began = Instant::now();
    for _ in 0..times {
        last = run();
        black_box(&last);
    }
    (began.elapsed().as_secs_f64() / times as f64, last)
}

fn answer((seconds, a): (f64, ApolloAnswer)) -> (f64, Outcome) {
    (seconds, Outcome::Answer(a.into()))
}

fn marked((seconds, m): (f64, ApolloMarked)) -> (f64, Outcome) {
    (
        seconds,
        Outcome::Marked(Marked {
            number: m.number,
            place: m.place,
            record: m.replica.into(),
        }),
    )
}

fn part((seconds, p): (f64, ApolloPart)) -> (f64, Outcome) {
    let ApolloPart {
        number,
        start,
        length,
    } = p;
    (
        seconds,
        Outcome::Part(Part {
            number,
            start,
            length,
        }),
    )
}

fn fetched((seconds, f): (f64, ApolloFetched)) -> (f64, Outcome) {
    let ApolloFetched { number, count } = f;
    (seconds, Outcome::Fetched(Fetched { number, count }))
}

/// A call with each frame by itself; what the last gave.
fn each_frame<T>(frames: &[u8], call: impl FnMut(&[u8]) -> T) -> T {
    let answers = frames.chunks_exact(SIZE).map(call);
    answers.reduce(|_, last| last).expect("a frame")
}

/// What a case lends and hands in, as C takes it.
struct Raw {
    log: *mut u8,
    log_len: usize,
    masks: *mut u16,
    masks_len: usize,
    frames: *const u8,
    frames_len: usize,
    entry: *const u8,
    entry_len: usize,
    out: *mut u8,
    out_len: usize,
}

impl Raw {
    fn of(case: &mut Case) -> Raw {
        let Lent { log, masks, out } = &mut case.lent;
        Raw {
            log: log.as_mut_ptr(),
            log_len: log.len(),
            masks: masks.as_mut_ptr(),
            masks_len: masks.len(),
            frames: case.frames.as_ptr(),
            frames_len: case.frames.len(),
            entry: case.entry.as_ptr(),
            entry_len: case.entry.len(),
            out: out.as_mut_ptr(),
            out_len: out.len(),
        }
    }
}

/// Calls of the library.
// Safety of each, here and below: a pointer comes from a buffer with its length, no two overlap, and the round waited for has a
// mask.
#[rustfmt::skip]
pub fn ours(case: &mut Case, times: usize) -> (f64, Outcome) {
    let replica = ApolloReplica::from(case.record);
    let Raw { log, log_len, masks, masks_len, frames, frames_len, entry, entry_len, out, out_len } = Raw::of(case);
    let rotation = seats(&case.record.rotation, case.record.f);
    match case.call {
        Call::Open => answer(timed(times, || {
            let ApolloReplica { id, f, timeout, last_round, .. } = *black_box(&replica);
            let (seats, seats_len) = (black_box(rotation).as_ptr(), rotation.len());
            unsafe {
                ffi::apollo_open(
                    id, f, timeout, last_round, seats, seats_len, log, log_len, masks, masks_len, entry, entry_len, out, out_len,
                )
            }
        })),
        Call::Tick => answer(timed(times, || {
            let r = *black_box(&replica);
            unsafe { ffi::apollo_tick(r, log, log_len, masks, masks_len, entry, entry_len, out, out_len) }
        })),
        Call::Equivocation => marked(timed(times, || {
            let r = *black_box(&replica);
            unsafe { ffi::apollo_equivocation(r, frames, frames_len) }
        })),
        Call::Read { height } => part(timed(times, || {
            let (r, height) = (*black_box(&replica), ApolloHeight { value: *black_box(&height) });
            unsafe { ffi::apollo_read(r, log, log_len, height) }
        })),
        Call::Fetch { height } => fetched(timed(times, || {
            let (r, height) = (*black_box(&replica), ApolloHeight { value: *black_box(&height) });
            unsafe { ffi::apollo_fetch(r, log, log_len, height, out, out_len) }
        })),
        Call::Branch => our_branch(case, times),
        Call::Blame { mask } => our_blame(case, mask, times),
        Call::Blames => our_blames(case, times),
        Call::BlameEach => our_blame_each(case, times),
    }
}

#[rustfmt::skip]
fn our_branch(case: &mut Case, times: usize) -> (f64, Outcome) {
    let replica = ApolloReplica::from(case.record);
    let Raw { log, log_len, masks, masks_len, frames, frames_len, entry, entry_len, out, out_len } = Raw::of(case);
    answer(timed(times, || {
        let r = *black_box(&replica);
        unsafe {
            ffi::apollo_branch(r, log, log_len, masks, masks_len, frames, frames_len, entry, entry_len, out, out_len)
        }
    }))
}

#[rustfmt::skip]
fn our_blame(case: &mut Case, mask: u16, times: usize) -> (f64, Outcome) {
    let (replica, waited_for) = (ApolloReplica::from(case.record), case.record.round as usize - 1);
    let Raw { log, log_len, masks, masks_len, frames, frames_len, entry, entry_len, out, out_len } = Raw::of(case);
    answer(timed(times, || {
        let r = *black_box(&replica);
        unsafe {
            *masks.add(waited_for) = mask;
            ffi::apollo_blame(r, log, log_len, masks, masks_len, frames, frames_len, entry, entry_len, out, out_len)
        }
    }))
}

#[rustfmt::skip]
fn our_blames(case: &mut Case, times: usize) -> (f64, Outcome) {
    let (replica, waited_for) = (ApolloReplica::from(case.record), case.record.round as usize - 1);
    let Raw { log, log_len, masks, masks_len, frames, frames_len, entry, entry_len, out, out_len } = Raw::of(case);
    answer(timed(times, || {
        let r = *black_box(&replica);
        unsafe {
            *masks.add(waited_for) = 0;
            ffi::apollo_blames(r, log, log_len, masks, masks_len, frames, frames_len, entry, entry_len, out, out_len)
        }
    }))
}

#[rustfmt::skip]
fn our_blame_each(case: &mut Case, times: usize) -> (f64, Outcome) {
    let (replica, waited_for) = (ApolloReplica::from(case.record), case.record.round as usize - 1);
    let Raw { log, log_len, masks, masks_len, entry, entry_len, out, out_len, .. } = Raw::of(case);
    answer(timed(times, || {
        let each = |frame: &[u8]| {
            let r = *black_box(&replica);
            unsafe {
                ffi::apollo_blame(r, log, log_len, masks, masks_len, frame.as_ptr(), SIZE, entry, entry_len, out, out_len)
            }
        };
        unsafe { *masks.add(waited_for) = 0 };
        each_frame(&case.frames, each)
    }))
}

fn lend<'a>(lent: &'a mut Lent, entry: &'a [u8]) -> model::Lent<'a> {
    model::Lent {
        log: &mut lent.log,
        masks: &mut lent.masks,
        entry,
        out: &mut lent.out,
    }
}

/// Calls of the Rust implementation.
#[rustfmt::skip]
pub fn rust(case: &mut Case, times: usize) -> (f64, Outcome) {
    let (record, lent) = (case.record, &mut case.lent);
    let (frames, entry) = (&case.frames[..], &case.entry[..]);
    let waited_for = record.round as usize - 1;
    let setup = Setup { own: record.own, f: record.f, wait: record.wait, term: record.term };
    let rotation = seats(&record.rotation, record.f);
    let answer = |(seconds, a)| (seconds, Outcome::Answer(a));
    match case.call {
        Call::Open => answer(timed(times, || model::open(*black_box(&setup), black_box(rotation), lend(lent, entry)))),
        Call::Branch => answer(timed(times, || model::branch(*black_box(&record), frames, lend(lent, entry)))),
        Call::Blame { mask } => answer(timed(times, || {
            lent.masks[waited_for] = mask;
            model::blame(*black_box(&record), frames, lend(lent, entry))
        })),
        Call::Blames => answer(timed(times, || {
            lent.masks[waited_for] = 0;
            model::blames(*black_box(&record), frames, lend(lent, entry))
        })),
        Call::BlameEach => answer(timed(times, || {
            lent.masks[waited_for] = 0;
            each_frame(frames, |frame| model::blame(*black_box(&record), frame, lend(lent, entry)))
        })),
        Call::Tick => answer(timed(times, || model::tick(*black_box(&record), lend(lent, entry)))),
        Call::Equivocation => {
            let (seconds, m) = timed(times, || model::equivocation(*black_box(&record), frames));
            (seconds, Outcome::Marked(m))
        }
        Call::Read { height } => {
            let (seconds, p) = timed(times, || model::read(*black_box(&record), &lent.log, *black_box(&height)));
            (seconds, Outcome::Part(p))
        }
        Call::Fetch { height } => {
            let (log, out) = (&lent.log, &mut lent.out);
            let (seconds, f) = timed(times, || model::fetch(*black_box(&record), log, *black_box(&height), out));
            (seconds, Outcome::Fetched(f))
        }
    }
}

fn our_digest(bytes: &[u8]) -> [u8; 32] {
    let mut digest = [0; 32];
    // Safety: the pointers come from a slice with its length and from an array of 32 bytes.
    unsafe { ffi::apollo_digest(bytes.as_ptr(), bytes.len(), digest.as_mut_ptr()) };
    digest
}

/// As many digests as the call makes, of the frames that it is handed.
fn digests(case: &Case, times: usize, digest: fn(&[u8]) -> [u8; 32]) -> f64 {
    let frames = case.frames.chunks_exact(SIZE).cycle().take(case.digests);
    let run = || {
        for frame in frames.clone() {
            black_box(digest(&frame[..CHECK_AT]));
        }
    };
    timed(times, run).0
}

/// What a frame's check is of.
fn message(frame: &Frame) -> &[u8; CHECK_AT] {
    frame.first_chunk().expect("480 bytes")
}

/// The frames that a case hands in, in groups of four; the last may have fewer.
fn groups(case: &Case) -> impl Iterator<Item = &[Frame]> {
    case.frames.as_chunks().0.chunks(4)
}

/// Rust's digests of a group, in four lanes as the library has them: with three frames the first goes in again; one or two frames
/// have no lanes.
fn in_lanes(group: &[Frame]) -> [Name; 4] {
    if let [a, b, c, rest @ ..] = group {
        return sha256::digest4([a, b, c, rest.first().unwrap_or(a)].map(message));
    }
    let mut digests = [Name::default(); 4];
    for (digest, frame) in digests.iter_mut().zip(group) {
        *digest = sha256::digest(message(frame));
    }
    digests
}

/// Both sides give the digests that the frames carry, and Rust's lanes do; or the program ends.
pub fn compare_digests(case: &Case) {
    for (frame, in_lane) in groups(case).flat_map(|group| group.iter().zip(in_lanes(group))) {
        let (bytes, check) = frame.split_at(CHECK_AT);
        assert_eq!(our_digest(bytes), check, "{}", case.name);
        assert_eq!(sha256::digest(bytes), check, "{}", case.name);
        assert_eq!(in_lane, check, "{}: in lanes", case.name);
    }
}

pub fn our_digests(case: &Case, times: usize) -> f64 {
    digests(case, times, our_digest)
}

pub fn rust_digests(case: &Case, times: usize) -> f64 {
    digests(case, times, sha256::digest)
}

/// The digests of the frames handed in, four at once.
pub fn rust_digests_in_lanes(case: &Case, times: usize) -> f64 {
    let run = || {
        for group in groups(case) {
            black_box(in_lanes(group));
        }
    };
    timed(times, run).0
}

/// The bytes that the call must zero, if any, by memset: slots, and for open the masks.
pub fn memset(case: &mut Case, times: usize) -> f64 {
    let Some(kept) = case.zeroed else {
        return 0.0;
    };
    let Lent { log, masks, .. } = &mut case.lent;
    let log = &mut log[kept * SIZE..];
    let open = matches!(case.call, Call::Open);
    let run = || {
        black_box(&mut *log).fill(0);
        if open {
            black_box(&mut *masks).fill(0);
        }
    };
    timed(times, run).0
}

/// The frames handed in, copied to their slots by memcpy.
pub fn memcpy(case: &mut Case, times: usize) -> f64 {
    let Some(kept) = case.zeroed else {
        return 0.0;
    };
    let slots = &mut case.lent.log[kept * SIZE..];
    let frames = &case.frames[..case.digests * SIZE];
    let run = || {
        for (slot, frame) in slots.chunks_exact_mut(SIZE).zip(frames.chunks_exact(SIZE)) {
            black_box(slot).copy_from_slice(frame);
        }
    };
    timed(times, run).0
}
