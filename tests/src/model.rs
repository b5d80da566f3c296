//! One card's step machine: open, branch, blame, blames, tick, equivocation, read and fetch; and the
//! search for the last committed slot.
//!
//! Each call first judges everything it was handed and writes nothing until all of it has passed.

use std::ops::RangeInclusive;

use crate::frame::{self, Frame, Name, ENTRY_AT, GENESIS, MOST_ENTRY, SIZE};

/// The leader named when there is none: the term is over or the call was refused.
pub const NOBODY: u8 = 255;
/// The smallest out buffer: a blame and a block.
pub const LEAST_OUT: usize = 2 * SIZE;
pub const MOST_F: u8 = 7;
pub const MOST_WAIT: u32 = 60_000;
pub const MOST_TERM: u32 = 4_096;
/// The largest set of blames, for any number of cards.
pub const MOST_BLAMES: usize = 15;
/// n for the largest f.
pub const MOST_CARDS: usize = 15;

/// The card on each seat, zero past n.
pub type Rotation = [u8; MOST_CARDS];

/// What the host keeps for a card between calls, beside its book and masks.
#[derive(Clone, Copy, Debug, Default, PartialEq, Eq)]
pub struct Record {
    pub own: u8,
    pub f: u8,
    /// Ticks that a card waits for a round.
    pub wait: u32,
    /// T, the last round.
    pub term: u32,
    /// R, the round waited for.
    pub round: u32,
    /// Ticks left.
    pub left: u32,
    pub tip_round: u32,
    pub tip_height: u32,
    pub committed_round: u32,
    pub committed_height: u32,
    pub rotation: Rotation,
    /// The marks: bit i says that card i signed two blocks for one round.
    pub equivocators: u16,
}

/// The numbers that open is handed.
#[derive(Clone, Copy, Debug, PartialEq, Eq)]
pub struct Setup {
    pub own: u8,
    pub f: u8,
    pub wait: u32,
    pub term: u32,
}

/// The buffers lent to open, branch, blame, blames and tick.
pub struct Lent<'a> {
    /// The book: slot r is the r-th 512 bytes.
    pub log: &'a mut [u8],
    pub masks: &'a mut [u16],
    pub entry: &'a [u8],
    pub out: &'a mut [u8],
}

/// The result of open, branch, blame, blames and tick.
#[derive(Clone, Copy, Debug, PartialEq, Eq)]
pub struct Answer {
    pub number: u8,
    pub place: u32,
    /// Frames put out.
    pub frames: u8,
    /// The leader of R.
    pub leader: u8,
    pub record: Record,
}

/// The result of equivocation.
#[derive(Clone, Copy, Debug, PartialEq, Eq)]
pub struct Marked {
    pub number: u8,
    pub place: u32,
    pub record: Record,
}

/// The result of read: a part of the lent book.
#[derive(Clone, Copy, Debug, PartialEq, Eq)]
pub struct Part {
    pub number: u8,
    pub start: usize,
    pub length: usize,
}

/// The result of fetch.
#[derive(Clone, Copy, Debug, PartialEq, Eq)]
pub struct Fetched {
    pub number: u8,
    pub count: usize,
}

/// The result of the search.
#[derive(Clone, Copy, Debug, PartialEq, Eq)]
pub struct Search {
    /// The round of the slot found, 0 for none.
    pub round: u32,
    pub slots_read: u32,
}

/// Why a call was refused.
#[derive(Clone, Copy, Debug, PartialEq, Eq)]
pub struct Refusal {
    pub number: u8,
    pub place: u32,
}

fn refuse<T>(number: u8) -> Result<T, Refusal> {
    refuse_at(number, 0)
}

fn refuse_at<T>(number: u8, place: u32) -> Result<T, Refusal> {
    Err(Refusal { number, place })
}

/// n, the number of cards.
pub fn cards(f: u8) -> u32 {
    2 * u32::from(f) + 1
}

/// The leader of a round from 1 on: the card on seat (round - 1) mod n.
pub fn leader(round: u32, f: u8, rotation: &Rotation) -> u8 {
    rotation[((round - 1) % cards(f)) as usize]
}

/// The old turn: 0, 1, 2 and so on.
pub fn in_turn(f: u8) -> Rotation {
    let mut rotation = Rotation::default();
    for (seat, card) in rotation.iter_mut().zip(0..cards(f) as u8) {
        *seat = card;
    }
    rotation
}

/// The seats in use: n of them.
pub fn seats(rotation: &Rotation, f: u8) -> &[u8] {
    &rotation[..cards(f) as usize]
}

/// Whether each card below n has a seat and there are n seats, so that no card has two.
pub fn is_rotation(seats: &[u8], f: u8) -> bool {
    let n = cards(f);
    let bit = |&card: &u8| 1u32.checked_shl(card.into()).unwrap_or(0);
    let all_seated = || seats.iter().map(bit).fold(0, |cards, card| cards | card) == (1 << n) - 1;
    seats.len() == n as usize && all_seated()
}

/// A bit for each card below n.
pub fn all_cards(f: u8) -> u16 {
    ((1u32 << cards(f)) - 1) as u16
}

/// Whether a mask shows its round; bits from n on do not count.
pub fn shown(mask: u16, f: u8) -> bool {
    (mask & all_cards(f)).count_ones() > u32::from(f)
}

/// The slots of a book; slot r stands at index r - 1.
pub fn slots(log: &[u8]) -> &[Frame] {
    log.as_chunks().0
}

fn slots_mut(log: &mut [u8]) -> &mut [Frame] {
    log.as_chunks_mut().0
}

fn slot(log: &[u8], round: u32) -> &Frame {
    &slots(log)[round as usize - 1]
}

/// The filled slots in rising round, each with its round.
pub fn filled(log: &[u8]) -> impl Iterator<Item = (u32, &Frame)> {
    let rounds = (1..).zip(slots(log));
    rounds.filter(|(_, slot)| frame::filled(slot))
}

/// The line: the filled slots in rising round.
pub fn line(log: &[u8]) -> impl Iterator<Item = &Frame> {
    filled(log).map(|(_, slot)| slot)
}

/// The line's frames above a height.
pub fn line_above(log: &[u8], height: u32) -> impl Iterator<Item = &Frame> {
    line(log).filter(move |frame| frame::height(frame) > height)
}

/// The highest round that R allows to be committed, R - 1 - f; 0 if it allows none.
pub fn limit(round: u32, f: u8) -> u32 {
    round.saturating_sub(1 + u32::from(f))
}

/// The highest filled slot up to a round. The search comes down from that round and ends at the
/// first filled slot, which it counts among those read; a round above the last slot counts as one
/// read that is not filled.
pub fn search(log: &[u8], limit: u32) -> Search {
    let mut allowed = slots(log).iter().take(limit as usize);
    match allowed.rposition(frame::filled) {
        None => Search {
            round: 0,
            slots_read: limit,
        },
        Some(index) => Search {
            round: index as u32 + 1,
            slots_read: limit - index as u32,
        },
    }
}

/// The round of the same slot by a walk up from round 1, which reads every slot allowed.
pub fn walk_up(log: &[u8], limit: u32) -> u32 {
    let mut found = 0;
    for (slot, round) in slots(log).iter().take(limit as usize).zip(1..) {
        if frame::filled(slot) {
            found = round;
        }
    }
    found
}

/// Round and height that R commits: those of the highest filled slot up to R - 1 - f, wherever the
/// tip is, or of the genesis.
pub fn committed(log: &[u8], round: u32, f: u8) -> (u32, u32) {
    match search(log, limit(round, f)).round {
        0 => (0, 0),
        found => (found, frame::height(slot(log, found))),
    }
}

fn all_zero(bytes: &[u8]) -> bool {
    bytes.iter().fold(0, |sum, byte| sum | byte) == 0
}

/// Opens a card on a book and masks that it wipes.
pub fn open(setup: Setup, rotation: &[u8], lent: Lent) -> Answer {
    if let Err(refusal) = judge_open(&setup, rotation, &lent) {
        return refused(Record::default(), refusal);
    }
    let mut record = Record {
        own: setup.own,
        f: setup.f,
        wait: setup.wait,
        term: setup.term,
        round: 1,
        left: setup.wait,
        ..Record::default()
    };
    record.rotation[..rotation.len()].copy_from_slice(rotation);
    let mut card = Card::new(record, lent);
    card.lent.log.fill(0);
    card.lent.masks.fill(0);
    card.enter();
    card.taken()
}

/// Hands in a branch: whole block frames, one after the other.
pub fn branch(record: Record, frames: &[u8], lent: Lent) -> Answer {
    match judge_branch(&record, frames, &lent) {
        Err(refusal) => refused(record, refusal),
        Ok(attach) => {
            let mut card = Card::new(record, lent);
            card.take_branch(attach, frames.as_chunks().0);
            card.taken()
        }
    }
}

/// Hands in a blame: a set of one.
pub fn blame(record: Record, frame: &[u8], lent: Lent) -> Answer {
    hear(record, frame, 1, lent)
}

/// Hands in a set of blames of one round: whole frames, one after the other.
pub fn blames(record: Record, frames: &[u8], lent: Lent) -> Answer {
    hear(record, frames, MOST_BLAMES, lent)
}

/// Hands in from 1 to so many blames.
fn hear(record: Record, frames: &[u8], most: usize, lent: Lent) -> Answer {
    match judge_blames(&record, frames, most, &lent) {
        Err(refusal) => refused(record, refusal),
        Ok(Blames { round, signers }) => {
            let mut card = Card::new(record, lent);
            card.set_bits(round, signers);
            if round == record.round {
                card.pass_if_shown();
            }
            card.taken()
        }
    }
}

/// Lets one tick pass.
pub fn tick(record: Record, lent: Lent) -> Answer {
    if let Err(refusal) = judge_start(&record, &lent) {
        return refused(record, refusal);
    }
    let mut card = Card::new(record, lent);
    if record.left > 0 {
        card.record.left -= 1;
        if card.record.left == 0 {
            card.put_out_blame();
            card.pass_if_shown();
        }
    }
    card.taken()
}

/// Hands in two blocks of one round: its leader, who signed both, is marked.
pub fn equivocation(record: Record, frames: &[u8]) -> Marked {
    match judge_pair(&record, frames) {
        Err(Refusal { number, place }) => Marked {
            number,
            place,
            record,
        },
        Ok(leader) => Marked {
            number: 0,
            place: 0,
            record: Record {
                equivocators: record.equivocators | 1 << leader,
                ..record
            },
        },
    }
}

/// Shows the entry at a committed height.
pub fn read(record: Record, log: &[u8], height: u32) -> Part {
    let refused = |number| Part {
        number,
        start: 0,
        length: 0,
    };
    if !record_holds(&record, Some(log.len()), None) {
        return refused(2);
    }
    let committed = &slots(log)[..record.committed_round as usize];
    let found = committed.iter().position(|slot| {
        frame::filled(slot) && frame::height(slot) == height && frame::length(slot) <= MOST_ENTRY
    });
    match found {
        None => refused(15),
        Some(index) => Part {
            number: 0,
            start: index * SIZE + ENTRY_AT,
            length: frame::length(&committed[index]),
        },
    }
}

/// Copies line frames above a height, lowest rounds first: as many as there are and as fit whole.
pub fn fetch(record: Record, log: &[u8], height: u32, out: &mut [u8]) -> Fetched {
    let refused = |number| Fetched { number, count: 0 };
    if !record_holds(&record, Some(log.len()), None) {
        return refused(2);
    }
    if out.len() < LEAST_OUT {
        return refused(4);
    }
    let mut count = 0;
    for (place, frame) in slots_mut(out).iter_mut().zip(line_above(log, height)) {
        *place = *frame;
        count += 1;
    }
    if count == 0 {
        return refused(15);
    }
    Fetched { number: 0, count }
}

fn refused(record: Record, refusal: Refusal) -> Answer {
    Answer {
        number: refusal.number,
        place: refusal.place,
        frames: 0,
        leader: NOBODY,
        record,
    }
}

/// The set-up's ranges and the sizes that go with them; read and fetch lend no masks, equivocation no
/// log either.
fn setup_holds(setup: &Setup, log: Option<usize>, masks: Option<usize>) -> bool {
    let term = setup.term as usize;
    (1..=MOST_F).contains(&setup.f)
        && (1..=MOST_WAIT).contains(&setup.wait)
        && (1..=MOST_TERM).contains(&setup.term)
        && u32::from(setup.own) < cards(setup.f)
        && log.is_none_or(|log| log == SIZE * term)
        && masks.is_none_or(|masks| masks == term)
}

/// The ranges of all fields of a record, and that the card does not lead the round it waits for.
pub fn record_holds(record: &Record, log: Option<usize>, masks: Option<usize>) -> bool {
    let setup = Setup {
        own: record.own,
        f: record.f,
        wait: record.wait,
        term: record.term,
    };
    setup_holds(&setup, log, masks)
        && (1..=record.term + 1).contains(&record.round)
        && record.left <= record.wait
        && record.tip_round < record.round
        && record.tip_height <= record.tip_round
        && record.committed_height <= record.committed_round
        && record.committed_round <= record.tip_round
        && record.committed_height <= record.tip_height
        && rotation_holds(record)
        && record.equivocators & !all_cards(record.f) == 0
        && !leads(record)
}

fn rotation_holds(record: &Record) -> bool {
    let (seats, past) = record.rotation.split_at(cards(record.f) as usize);
    is_rotation(seats, record.f) && all_zero(past)
}

/// Whether the card leads R, inside the term.
fn leads(record: &Record) -> bool {
    record.round <= record.term && leader(record.round, record.f, &record.rotation) == record.own
}

/// 4 and 5.
fn judge_tray(lent: &Lent) -> Result<(), Refusal> {
    if lent.out.len() < LEAST_OUT {
        return refuse(4);
    }
    if lent.entry.len() > MOST_ENTRY {
        return refuse(5);
    }
    Ok(())
}

fn judge_open(setup: &Setup, rotation: &[u8], lent: &Lent) -> Result<(), Refusal> {
    if !setup_holds(setup, Some(lent.log.len()), Some(lent.masks.len())) {
        return refuse(1);
    }
    if !is_rotation(rotation, setup.f) {
        return refuse(17);
    }
    judge_tray(lent)
}

/// 2 to 5, which branch, blame, blames and tick share.
fn judge_start(record: &Record, lent: &Lent) -> Result<(), Refusal> {
    if !record_holds(record, Some(lent.log.len()), Some(lent.masks.len())) {
        return refuse(2);
    }
    if record.round > record.term {
        return refuse(3);
    }
    judge_tray(lent)
}

/// 2 to 13. The round that the branch attaches to, 0 for the genesis.
fn judge_branch(record: &Record, frames: &[u8], lent: &Lent) -> Result<u32, Refusal> {
    judge_start(record, lent)?;
    let Some(frames) = whole_frames(frames, 1..=record.term as usize) else {
        return refuse(6);
    };
    judge_frames(record, frames)?;
    if frame::round(&frames[frames.len() - 1]) < record.round {
        return refuse(10);
    }
    let Some(attach) = attaching(lent.log, &frames[0]) else {
        return refuse(11);
    };
    if let Some(round) = unshown(lent.masks, record.f, attach, frames) {
        return refuse_at(13, round);
    }
    if undone(lent.log, record.committed_round, attach, frames) {
        return refuse(12);
    }
    Ok(attach)
}

/// As many frames as are allowed; none if the bytes are anything else.
pub fn whole_frames(bytes: &[u8], allowed: RangeInclusive<usize>) -> Option<&[Frame]> {
    match bytes.as_chunks() {
        (frames, []) if allowed.contains(&frames.len()) => Some(frames),
        _ => None,
    }
}

type Form = fn(&Record, &Frame) -> bool;

/// 7 and 8 of one frame.
fn judge_frame(record: &Record, frame: &Frame, form: Form, place: u32) -> Result<(), Refusal> {
    if !frame::check_is_right(frame) {
        return refuse_at(7, place);
    }
    if !form(record, frame) {
        return refuse_at(8, place);
    }
    Ok(())
}

/// 7, 8 and 9, frame by frame.
fn judge_frames(record: &Record, frames: &[Frame]) -> Result<(), Refusal> {
    let mut before: Option<&Frame> = None;
    for (frame, place) in frames.iter().zip(0..) {
        judge_frame(record, frame, block_in_form, place)?;
        if before.is_some_and(|parent| !is_child(frame, parent)) {
            return refuse_at(9, place);
        }
        before = Some(frame);
    }
    Ok(())
}

/// Whether a frame with a right check is not 8 in a branch.
pub fn block_in_form(record: &Record, block: &Frame) -> bool {
    let round = frame::round(block);
    let length = frame::length(block);
    frame::kind(block) == frame::BLOCK
        && length <= MOST_ENTRY
        && (1..=record.term).contains(&round)
        && (1..=round).contains(&frame::height(block))
        && frame::signer(block) == leader(round, record.f, &record.rotation)
        && all_zero(&block[ENTRY_AT + length..frame::CHECK_AT])
}

pub fn is_child(frame: &Frame, parent: &Frame) -> bool {
    frame::parent(frame) == frame::name(parent)
        && frame::height(frame) == frame::height(parent) + 1
        && frame::round(frame) > frame::round(parent)
}

/// The round that a frame in form attaches to: the highest filled slot that fits, else the genesis.
pub fn attaching(log: &[u8], first: &Frame) -> Option<u32> {
    let (parent, height) = (frame::parent(first), frame::height(first) - 1);
    let fits = |slot: &Frame| {
        frame::filled(slot) && frame::name(slot) == parent && frame::height(slot) == height
    };
    let below = &slots(log)[..frame::round(first) as usize - 1];
    match below.iter().rposition(fits) {
        Some(index) => Some(index as u32 + 1),
        None if *parent == GENESIS && height == 0 => Some(0),
        None => None,
    }
}

/// The first skipped round that is not shown, of frames that attach to a round.
pub fn unshown(masks: &[u16], f: u8, attach: u32, frames: &[Frame]) -> Option<u32> {
    let mut parent = attach;
    for frame in frames {
        let round = frame::round(frame);
        for skipped in parent + 1..round {
            if !shown(masks[skipped as usize - 1], f) {
                return Some(skipped);
            }
        }
        parent = round;
    }
    None
}

/// Whether taking the branch would change a slot up to the committed round.
fn undone(log: &[u8], committed: u32, attach: u32, frames: &[Frame]) -> bool {
    let mut coming = frames.iter().peekable();
    (attach + 1..=committed).any(|round| {
        let held = slot(log, round);
        match coming.next_if(|frame| frame::round(frame) == round) {
            Some(frame) => frame != held,
            None => !all_zero(held),
        }
    })
}

/// Blames that passed: their round and a bit for each signer.
struct Blames {
    round: u32,
    signers: u16,
}

/// 2 to 8, 16, 14 and 10; one blame by itself is never 16.
fn judge_blames(
    record: &Record,
    frames: &[u8],
    most: usize,
    lent: &Lent,
) -> Result<Blames, Refusal> {
    judge_start(record, lent)?;
    let Some(frames) = whole_frames(frames, 1..=most) else {
        return refuse(6);
    };
    for (frame, place) in frames.iter().zip(0..) {
        judge_frame(record, frame, blame_in_form, place)?;
    }
    let Some(blames) = as_set(frames) else {
        return refuse(16);
    };
    if blames.round > record.round {
        return refuse(14);
    }
    let mask = lent.masks[blames.round as usize - 1];
    if blames.signers & !mask == 0 {
        return refuse(10);
    }
    Ok(blames)
}

/// Blames in form as a set; none if they are of two rounds or have a signer twice.
fn as_set(frames: &[Frame]) -> Option<Blames> {
    let round = frame::round(&frames[0]);
    let mut signers = 0;
    for frame in frames {
        let bit = 1 << frame::signer(frame);
        if frame::round(frame) != round || signers & bit != 0 {
            return None;
        }
        signers |= bit;
    }
    Some(Blames { round, signers })
}

/// Whether a frame with a right check is not 8 in a set.
pub fn blame_in_form(record: &Record, blame: &Frame) -> bool {
    frame::kind(blame) == frame::BLAME
        && u32::from(frame::signer(blame)) < cards(record.f)
        && frame::length(blame) == 0
        && (1..=record.term).contains(&frame::round(blame))
        && all_zero(&blame[8..frame::CHECK_AT])
}

/// 2, 6, 7 and 8 of each frame in turn, and 18. The round's leader.
fn judge_pair(record: &Record, frames: &[u8]) -> Result<u8, Refusal> {
    if !record_holds(record, None, None) {
        return refuse(2);
    }
    let Some([first, second]) = whole_frames(frames, 2..=2) else {
        return refuse(6);
    };
    judge_frame(record, first, block_in_form, 0)?;
    judge_frame(record, second, block_in_form, 1)?;
    let round = frame::round(first);
    if frame::name(first) == frame::name(second) || round != frame::round(second) {
        return refuse(18);
    }
    Ok(leader(round, record.f, &record.rotation))
}

/// A card in the middle of a call that is taken.
struct Card<'a> {
    record: Record,
    lent: Lent<'a>,
    /// Frames put out so far.
    frames: u8,
}

impl<'a> Card<'a> {
    fn new(record: Record, lent: Lent<'a>) -> Self {
        Card {
            record,
            lent,
            frames: 0,
        }
    }

    fn taken(self) -> Answer {
        let record = self.record;
        let leader = if record.round <= record.term {
            leader(record.round, record.f, &record.rotation)
        } else {
            NOBODY
        };
        Answer {
            number: 0,
            place: 0,
            frames: self.frames,
            leader,
            record,
        }
    }

    /// What follows whenever R has changed.
    fn enter(&mut self) {
        self.record.left = self.record.wait;
        if leads(&self.record) {
            self.put_out_block();
            self.grow_to(self.record.round + 1);
            self.record.left = self.record.wait;
        }
    }

    /// R grows, and with it what is committed; where R grows twice in a call the second stands.
    fn grow_to(&mut self, round: u32) {
        self.record.round = round;
        self.commit();
    }

    /// R is over if enough cards blame it.
    fn pass_if_shown(&mut self) {
        let mask = self.lent.masks[self.record.round as usize - 1];
        if shown(mask, self.record.f) {
            self.grow_to(self.record.round + 1);
            self.enter();
        }
    }

    fn set_bits(&mut self, round: u32, signers: u16) {
        self.lent.masks[round as usize - 1] |= signers;
    }

    fn take_branch(&mut self, attach: u32, frames: &[Frame]) {
        let book = slots_mut(self.lent.log);
        book[attach as usize..].as_flattened_mut().fill(0);
        for frame in frames {
            book[frame::round(frame) as usize - 1] = *frame;
            self.record.tip_round = frame::round(frame);
            self.record.tip_height = frame::height(frame);
        }
        self.grow_to(self.record.tip_round + 1);
        self.enter();
    }

    fn commit(&mut self) {
        let Record { round, f, .. } = self.record;
        (self.record.committed_round, self.record.committed_height) =
            committed(self.lent.log, round, f);
    }

    /// The place in the out buffer for the next frame put out.
    fn next_out(&mut self) -> &mut Frame {
        let index = usize::from(self.frames);
        self.frames += 1;
        &mut slots_mut(self.lent.out)[index]
    }

    fn put_out_blame(&mut self) {
        let Record { own, round, .. } = self.record;
        frame::write_blame(self.next_out(), own, round);
        self.set_bits(round, 1 << own);
    }

    fn put_out_block(&mut self) {
        let Record { own, round, .. } = self.record;
        let parent = self.tip_name();
        let height = self.record.tip_height + 1;
        let entry = self.lent.entry;
        let out = self.next_out();
        frame::write_block(out, own, round, height, &parent, entry);
        let block = *out;
        slots_mut(self.lent.log)[round as usize - 1] = block;
        self.record.tip_round = round;
        self.record.tip_height = height;
    }

    fn tip_name(&self) -> Name {
        match self.record.tip_round {
            0 => GENESIS,
            round => *frame::name(slot(self.lent.log, round)),
        }
    }
}
