//! Changes that make a call odd: lengths off by one, frames out of order, damaged fields, records
//! and set-ups at and beyond the edges of their ranges, rotations that are none.

use crate::call::{Call, Head, What};
use crate::coverage::Row;
use crate::frame::{self, Frame, SIZE};
use crate::model::{all_cards, cards, in_turn, leader, Record, Setup};
use crate::model::{MOST_BLAMES, MOST_CARDS, MOST_TERM};
use crate::rng::Rng;

/// What a change needs to know.
pub struct Hand<'a> {
    pub rng: &'a mut Rng,
    pub head: &'a Head,
    /// The premises of the claims have to stay: no forging, no records of our own.
    pub strict: bool,
    /// The record that the card's host keeps.
    pub kept: Record,
}

impl Hand<'_> {
    fn pick(&mut self, values: &[u32]) -> u32 {
        self.rng.pick(values)
    }

    fn cards(&self) -> u32 {
        cards(self.head.f)
    }

    fn is_sound(&self, card: u8) -> bool {
        card < 16 && self.head.sound >> card & 1 == 1
    }

    /// The leader of the old turn.
    fn leader_by_number(&self, round: u32) -> u32 {
        let f = self.head.f;
        leader(round.max(1), f, &in_turn(f)).into()
    }

    /// A number other than the old one, at the edges if they allow it.
    fn other(&mut self, old: u32, edges: &[u32]) -> u32 {
        match self.pick(edges) {
            new if new == old => old ^ 1,
            new => new,
        }
    }

    /// Changes one byte of a range, often the first or the last.
    fn hit(&mut self, frame: &mut Frame, from: usize, to: usize) {
        let at = match self.rng.below(5) {
            0 => from,
            1 => to - 1,
            _ => from + self.rng.below(to - from),
        };
        frame[at] ^= self.rng.within(1, 255) as u8;
    }
}

/// A change of a call; false if it does not apply.
type Change = fn(&mut Hand, &mut Call) -> bool;

const LENGTHS: &[(&str, Change)] = &[
    ("log one byte short", |hand, call| log(call, hand, -1)),
    ("log one byte long", |hand, call| log(call, hand, 1)),
    ("log one slot short", |hand, call| log(call, hand, -512)),
    ("log one slot long", |hand, call| log(call, hand, 512)),
    ("log empty", |hand, call| {
        let all = SIZE * hand.head.term as usize;
        log(call, hand, -(all as isize))
    }),
    ("masks one short", |hand, call| masks(call, hand, -1)),
    ("masks one long", |hand, call| masks(call, hand, 1)),
    ("masks empty", |hand, call| {
        let all = hand.head.term as isize;
        masks(call, hand, -all)
    }),
    ("entry of 400 bytes", |hand, call| entry(call, hand, 400)),
    ("entry of 401 bytes", |hand, call| entry(call, hand, 401)),
    ("entry of 512 bytes", |hand, call| entry(call, hand, 512)),
    ("out one byte short", |_, call| out(call, 1023)),
    ("out just enough", |_, call| out(call, 1024)),
    ("out one byte long", |_, call| out(call, 1025)),
    ("out of one frame", |_, call| out(call, 512)),
    ("out empty", |_, call| out(call, 0)),
];

fn log(call: &mut Call, hand: &Hand, by: isize) -> bool {
    let all = SIZE * hand.head.term as usize;
    call.log_len = all.saturating_add_signed(by);
    !matches!(call.what, What::Digest(_) | What::Equivocation(_))
}

fn masks(call: &mut Call, hand: &Hand, by: isize) -> bool {
    let all = hand.head.term as usize;
    call.masks_len = all.saturating_add_signed(by);
    is_machine(call)
}

fn entry(call: &mut Call, hand: &mut Hand, length: usize) -> bool {
    if is_machine(call) {
        call.entry = hand.rng.bytes(length);
    }
    is_machine(call)
}

fn out(call: &mut Call, length: usize) -> bool {
    call.out_len = length;
    is_machine(call) || matches!(call.what, What::Fetch(_))
}

fn is_machine(call: &Call) -> bool {
    let lent_less = matches!(call.what, What::Read(_) | What::Fetch(_) | What::Digest(_));
    !lent_less && !is_pair(call)
}

const FRAMES: &[(&str, Change)] = &[
    ("one byte short", |_, call| {
        handed(call).is_some_and(|bytes| bytes.pop().is_some())
    }),
    ("one byte long", |hand, call| {
        let byte = hand.pick(&[0, 1, 255]) as u8;
        handed(call).map(|bytes| bytes.push(byte)).is_some()
    }),
    ("no bytes", |_, call| handed(call).map(Vec::clear).is_some()),
    ("a frame over T", over_the_term),
    ("a round not above the last", same_round),
    ("two frames for a blame", |_, call| match &mut call.what {
        What::Blame(bytes) => {
            bytes.extend_from_within(..);
            true
        }
        _ => false,
    }),
    ("15 frames for a set", |_, call| fill_set(call, 15 * SIZE)),
    ("15 frames and a byte", |_, call| {
        fill_set(call, 15 * SIZE + 1)
    }),
    ("16 frames for a set", |_, call| fill_set(call, 16 * SIZE)),
    ("block handed in as blame", |_, call| {
        is_branch(call) && hand_in_as(call, What::Blame, 1)
    }),
    ("branch handed in as set", |_, call| {
        is_branch(call) && hand_in_as(call, What::Blames, 16)
    }),
    ("blame handed in as branch", |_, call| {
        is_blame(call) && hand_in_as(call, What::Branch, 2)
    }),
    ("blame handed in as set", |_, call| {
        is_blame(call) && hand_in_as(call, What::Blames, 2)
    }),
    ("set handed in as branch", |_, call| {
        is_set(call) && hand_in_as(call, What::Branch, 16)
    }),
    ("set handed in as blame", |_, call| {
        is_set(call) && hand_in_as(call, What::Blame, 2)
    }),
    ("branch handed in as pair", |_, call| {
        is_branch(call) && hand_in_as_pair(call)
    }),
    ("blame handed in as pair", |_, call| {
        is_blame(call) && hand_in_as_pair(call)
    }),
    ("set handed in as pair", |_, call| {
        is_set(call) && hand_in_as_pair(call)
    }),
    ("pair handed in as branch", |_, call| {
        is_pair(call) && hand_in_as(call, What::Branch, 2)
    }),
    ("pair handed in as blame", |hand, call| {
        let most = 1 + hand.rng.below(2);
        is_pair(call) && hand_in_as(call, What::Blame, most)
    }),
    ("pair handed in as set", |_, call| {
        is_pair(call) && hand_in_as(call, What::Blames, 2)
    }),
    ("a part of a frame for a pair", |hand, call| {
        let length = hand.rng.pick(&[1, 255, 480, 511]);
        resize_pair(call, length)
    }),
    ("one frame for a pair", |_, call| resize_pair(call, SIZE)),
    ("three frames for a pair", |_, call| {
        resize_pair(call, 3 * SIZE)
    }),
    ("more frames for a pair", |hand, call| {
        let frames = 4 + hand.rng.below(4);
        resize_pair(call, SIZE * frames)
    }),
    ("any bytes for a pair", |hand, call| {
        let any = hand.rng.below(4 * SIZE);
        let length = hand.rng.pick(&[513, 1022, 1026, 1535, any]);
        resize_pair(call, length)
    }),
    ("a pair of two rounds", two_rounds),
    ("one name for a pair", |hand, call| {
        let Some([first, second]) = pair(call) else {
            return false;
        };
        match hand.rng.chance(50) {
            true => first[frame::CHECK_AT..].copy_from_slice(frame::name(second)),
            false => second[frame::CHECK_AT..].copy_from_slice(frame::name(first)),
        }
        true
    }),
    ("two frames swapped", |hand, call| {
        let Some(frames) = several(call) else {
            return false;
        };
        let first = hand.rng.below(frames.len() - 1);
        frames.swap(first, first + 1);
        true
    }),
    ("a frame repeated", |hand, call| {
        let Some(frames) = several(call) else {
            return false;
        };
        let first = hand.rng.below(frames.len() - 1);
        frames[first + 1] = frames[first];
        true
    }),
    ("a frame left out", |hand, call| {
        let Some(frames) = several(call) else {
            return false;
        };
        let first = hand.rng.below(frames.len());
        handed(call).map(|bytes| bytes.drain(SIZE * first..SIZE * (first + 1)));
        true
    }),
];

fn is_branch(call: &Call) -> bool {
    matches!(call.what, What::Branch(_))
}

fn is_blame(call: &Call) -> bool {
    matches!(call.what, What::Blame(_))
}

fn is_set(call: &Call) -> bool {
    matches!(call.what, What::Blames(_))
}

fn is_pair(call: &Call) -> bool {
    matches!(call.what, What::Equivocation(_))
}

/// Hands at most so many of a call's frames to another call.
fn hand_in_as(call: &mut Call, what: fn(Vec<u8>) -> What, most: usize) -> bool {
    let Some(bytes) = handed(call) else {
        return false;
    };
    bytes.truncate(SIZE * most);
    call.what = what(std::mem::take(bytes));
    true
}

/// Hands the first two of a call's frames to equivocation; one alone is there twice.
fn hand_in_as_pair(call: &mut Call) -> bool {
    if let Some(bytes) = handed(call).filter(|bytes| bytes.len() >= SIZE) {
        fill(bytes, 2 * SIZE);
    }
    hand_in_as(call, What::Equivocation, 2)
}

/// Makes what equivocation is handed so long, with the first frame again and again.
fn resize_pair(call: &mut Call, length: usize) -> bool {
    match &mut call.what {
        What::Equivocation(bytes) if bytes.len() >= SIZE => {
            fill(bytes, length);
            true
        }
        _ => false,
    }
}

/// The two frames handed to equivocation.
fn pair(call: &mut Call) -> Option<&mut [Frame; 2]> {
    match &mut call.what {
        What::Equivocation(bytes) => bytes.as_chunks_mut().0.try_into().ok(),
        _ => None,
    }
}

/// Gives one of two frames another round, at times the leader's next, with the leader that goes with it.
fn two_rounds(hand: &mut Hand, call: &mut Call) -> bool {
    let (strict, n, term) = (hand.strict, hand.cards(), hand.head.term);
    let Some(pair) = pair(call).filter(|_| !strict) else {
        return false;
    };
    let frame = &mut pair[hand.rng.below(2)];
    let old = frame::round(frame);
    let round = hand.pick(&[up(old), down(old), old.wrapping_add(n), old.wrapping_sub(n)]);
    let round = round.clamp(1, term);
    frame[1] = hand.head.leader(round);
    frame::set_round(frame, round);
    frame::set_height(frame, frame::height(frame).min(round));
    frame::seal(frame);
    true
}

/// Makes a set so long, with its first frame again and again.
fn fill_set(call: &mut Call, length: usize) -> bool {
    match &mut call.what {
        What::Blames(bytes) if bytes.len() >= SIZE => {
            fill(bytes, length);
            true
        }
        _ => false,
    }
}

fn fill(bytes: &mut Vec<u8>, length: usize) {
    while bytes.len() < length {
        bytes.extend_from_within(..SIZE);
    }
    bytes.truncate(length);
}

/// Gives a frame the round of the one before, or a lower one, with the leader that goes with it.
fn same_round(hand: &mut Hand, call: &mut Call) -> bool {
    if hand.strict || !is_branch(call) {
        return false;
    }
    let Some(frames) = several(call) else {
        return false;
    };
    let index = 1 + hand.rng.below(frames.len() - 1);
    let before = frame::round(&frames[index - 1]).max(1);
    let round = hand.pick(&[before, before, down(before).max(1)]);
    frames[index][1] = hand.head.leader(round);
    frame::set_round(&mut frames[index], round);
    frame::seal(&mut frames[index]);
    link(&mut frames[index..]);
    true
}

fn handed(call: &mut Call) -> Option<&mut Vec<u8>> {
    match &mut call.what {
        What::Branch(bytes) | What::Blame(bytes) => Some(bytes),
        What::Blames(bytes) | What::Equivocation(bytes) => Some(bytes),
        _ => None,
    }
}

/// The frames of a branch, a set or a pair of at least two.
fn several(call: &mut Call) -> Option<&mut [Frame]> {
    match &mut call.what {
        What::Branch(bytes) | What::Blames(bytes) | What::Equivocation(bytes)
            if bytes.len() >= 2 * SIZE =>
        {
            Some(bytes.as_chunks_mut().0)
        }
        _ => None,
    }
}

fn over_the_term(hand: &mut Hand, call: &mut Call) -> bool {
    let wanted = SIZE * (hand.head.term as usize + 1);
    match &mut call.what {
        What::Branch(bytes) if bytes.len() >= SIZE && hand.head.term <= 64 => {
            fill(bytes, wanted);
            true
        }
        _ => false,
    }
}

/// Damage to one field of a frame.
type Harm = fn(&mut Hand, &mut Frame);

const KIND: Harm = |hand, frame| frame[0] = hand.other(frame[0].into(), &[0, 1, 2, 3, 255]) as u8;

const SIGNER: Harm = |hand, frame| {
    let (old, n) = (u32::from(frame[1]), hand.cards());
    let by_number = hand.leader_by_number(frame::round(frame));
    let edges = [0, n - 1, n, n + 1, 255, (old + 1) % n, by_number, by_number];
    frame[1] = hand.other(old, &edges) as u8;
};

const ROUND: Harm = |hand, frame| {
    let (old, term) = (frame::round(frame), hand.head.term);
    let near = [
        0,
        1,
        old.wrapping_sub(1),
        old.wrapping_add(1),
        term,
        term + 1,
        u32::MAX,
    ];
    let new = hand.other(old, &near);
    frame::set_round(frame, new);
};

const CHECK: Harm = |hand, frame| hand.hit(frame, 480, 512);

const BLOCK_FIELDS: &[(&str, Harm)] = &[
    ("kind", KIND),
    ("signer", SIGNER),
    ("entry length", |hand, frame| {
        let old = frame::length(frame) as u32;
        let near = [
            0,
            1,
            old + 1,
            old.saturating_sub(1),
            400,
            401,
            436,
            437,
            65535,
        ];
        let new = hand.other(old, &near);
        frame::set_length(frame, new as u16);
    }),
    ("round", ROUND),
    ("height", |hand, frame| {
        let (old, round) = (frame::height(frame), frame::round(frame));
        let near = [
            0,
            1,
            old.wrapping_sub(1),
            old.wrapping_add(1),
            round,
            u32::MAX,
        ];
        let new = hand.other(old, &near);
        frame::set_height(frame, new);
    }),
    ("parent", |hand, frame| hand.hit(frame, 12, 44)),
    ("parent made zero", |_, frame| frame[12..44].fill(0)),
    ("entry", |hand, frame| {
        let length = frame::length(frame).clamp(1, 400);
        hand.hit(frame, 44, 44 + length);
    }),
    ("after the entry", |hand, frame| {
        let length = frame::length(frame).min(399);
        hand.hit(frame, 44 + length, 444);
    }),
    ("bytes 444 to 479", |hand, frame| hand.hit(frame, 444, 480)),
    ("check", CHECK),
];

const BLAME_FIELDS: &[(&str, Harm)] = &[
    ("kind", KIND),
    ("signer", SIGNER),
    ("bytes 2 to 3", |hand, frame| hand.hit(frame, 2, 4)),
    ("round", ROUND),
    ("bytes 8 to 11", |hand, frame| hand.hit(frame, 8, 12)),
    ("bytes 12 to 43", |hand, frame| hand.hit(frame, 12, 44)),
    ("bytes 44 to 443", |hand, frame| hand.hit(frame, 44, 444)),
    ("bytes 444 to 479", |hand, frame| hand.hit(frame, 444, 480)),
    ("check", CHECK),
];

const BLOCK_LEFT: &str = "block, check left";
const BLOCK_SEALED: &str = "block, check made right";
const BLAME_LEFT: &str = "blame, check left";
const BLAME_SEALED: &str = "blame, check made right";
const SET_LEFT: &str = "set, check left";
const SET_SEALED: &str = "set, check made right";
const PAIR_LEFT: &str = "pair, check left";
const PAIR_SEALED: &str = "pair, check made right";

/// Damages one field of one handed frame, with its check left as it was or made right.
fn harm(hand: &mut Hand, call: &mut Call) -> bool {
    let (fields, groups) = match &call.what {
        What::Branch(_) => (BLOCK_FIELDS, [BLOCK_LEFT, BLOCK_SEALED]),
        What::Blame(_) => (BLAME_FIELDS, [BLAME_LEFT, BLAME_SEALED]),
        What::Blames(_) => (BLAME_FIELDS, [SET_LEFT, SET_SEALED]),
        What::Equivocation(_) => (BLOCK_FIELDS, [PAIR_LEFT, PAIR_SEALED]),
        _ => return false,
    };
    let may_link = !hand.strict && is_branch(call);
    let frames: &mut [Frame] = handed(call).map_or(&mut [], |bytes| bytes.as_chunks_mut().0);
    if frames.is_empty() {
        return false;
    }
    let (field, harm) = hand.rng.pick(fields);
    let index = if hand.rng.chance(50) {
        frames.len() - 1
    } else {
        hand.rng.below(frames.len())
    };
    let frame = &mut frames[index];
    harm(hand, frame);
    let forging = hand.strict && hand.is_sound(frame::signer(frame));
    let seal = field != "check" && !forging && hand.rng.chance(60);
    if seal {
        frame::seal(frame);
        if may_link && hand.rng.chance(50) {
            link(&mut frames[index..]);
        }
    }
    call.changes.push((groups[usize::from(seal)], field));
    true
}

/// Makes every later frame name the one before as its parent.
fn link(frames: &mut [Frame]) {
    for index in 1..frames.len() {
        let parent = *frame::name(&frames[index - 1]);
        frames[index][12..44].copy_from_slice(&parent);
        frame::seal(&mut frames[index]);
    }
}

/// A field of a record put at or beyond an edge.
type Edge = fn(&mut Hand, &mut Record);

fn up(value: u32) -> u32 {
    value.wrapping_add(1)
}

fn down(value: u32) -> u32 {
    value.saturating_sub(1)
}

const RECORD_FIELDS: &[(&str, Edge)] = &[
    ("own number", |hand, record| {
        let n = hand.cards();
        let lead = hand.head.leader(record.round.max(1)).into();
        let by_number = hand.leader_by_number(record.round);
        record.own = hand.pick(&[0, n - 1, n, n + 1, 255, lead, by_number]) as u8;
    }),
    ("f", |hand, record| {
        let f = u32::from(record.f);
        record.f = hand.pick(&[0, 1, 7, 8, 255, up(f), down(f)]) as u8;
    }),
    ("wait", |hand, record| {
        let left = record.left;
        record.wait = hand.pick(&[0, 1, 60_000, 60_001, u32::MAX, left, down(left)]);
    }),
    ("T", |hand, record| {
        let term = record.term;
        record.term = hand.pick(&[0, down(term), up(term), 4_096, 4_097, u32::MAX]);
    }),
    ("R", |hand, record| {
        let (tip, term) = (record.tip_round, record.term);
        let edges = [
            0,
            1,
            tip,
            up(tip),
            up(up(tip)),
            term,
            up(term),
            up(up(term)),
            u32::MAX,
        ];
        record.round = hand.pick(&edges);
    }),
    ("ticks left", |hand, record| {
        let wait = record.wait;
        record.left = hand.pick(&[0, 1, wait, up(wait), u32::MAX]);
    }),
    ("tip round", |hand, record| {
        let (round, height) = (record.round, record.tip_height);
        record.tip_round = hand.pick(&[0, down(round), round, height, u32::MAX]);
    }),
    ("tip height", |hand, record| {
        let (round, committed) = (record.tip_round, record.committed_height);
        let edges = [0, round, up(round), committed, down(committed), u32::MAX];
        record.tip_height = hand.pick(&edges);
    }),
    ("committed round", |hand, record| {
        let (tip, height) = (record.tip_round, record.committed_height);
        record.committed_round = hand.pick(&[0, tip, up(tip), height, u32::MAX]);
    }),
    ("committed height", |hand, record| {
        let (tip, round) = (record.tip_height, record.committed_round);
        record.committed_height = hand.pick(&[0, tip, up(tip), round, up(round), u32::MAX]);
    }),
    ("two seats alike", |hand, record| {
        let (one, other) = two_seats(hand);
        record.rotation[other] = record.rotation[one];
    }),
    ("a seat out of range", |hand, record| {
        let (seat, _) = two_seats(hand);
        record.rotation[seat] = match hand.rng.chance(50) {
            true => no_card(hand),
            false => more_bits(hand, record.rotation[seat]),
        };
    }),
    ("a byte past n", |hand, record| {
        let n = hand.cards() as usize;
        if n < MOST_CARDS {
            let any = n + hand.rng.below(MOST_CARDS - n);
            let at = hand.rng.pick(&[n, MOST_CARDS - 1, any]);
            record.rotation[at] = hand.pick(&[1, n as u32 - 1, n as u32, 255]) as u8;
        }
    }),
    ("two seats swapped", |hand, record| {
        let (one, other) = two_seats(hand);
        record.rotation.swap(one, other);
    }),
    ("all seats zero", |_, record| record.rotation.fill(0)),
    ("a mark at bit n", |hand, record| {
        record.equivocators |= 1 << hand.cards();
    }),
    ("a mark at bit 15", |_, record| {
        record.equivocators |= 1 << 15
    }),
    ("marks from n on alone", |hand, record| {
        let above = !all_cards(hand.head.f);
        record.equivocators = above & hand.pick(&[0xffff, 1 << hand.cards()]) as u16;
    }),
    ("marks of all cards", |hand, record| {
        record.equivocators = all_cards(hand.head.f);
    }),
];

/// Two different seats in use.
fn two_seats(hand: &mut Hand) -> (usize, usize) {
    let n = hand.cards() as usize;
    let one = hand.rng.below(n);
    (one, (one + 1 + hand.rng.below(n - 1)) % n)
}

/// A number from n on.
fn no_card(hand: &mut Hand) -> u8 {
    let n = hand.cards();
    hand.pick(&[n, 15, 16, 255]) as u8
}

/// A number from 16 on that becomes a card's where bits are lost.
fn more_bits(hand: &mut Hand, card: u8) -> u8 {
    card | hand.pick(&[16, 32, 64, 128]) as u8
}

/// Makes a rotation one that open has to refuse.
type Spoil = fn(&mut Hand, &mut Vec<u8>);

const ROTATIONS: &[(&str, Spoil)] = &[
    ("empty", |_, seats| seats.clear()),
    ("a seat left out", |hand, seats| {
        seats.remove(hand.rng.below(seats.len()));
    }),
    ("a card again after the last", |hand, seats| {
        seats.push(hand.rng.pick(seats));
    }),
    ("n after the last", |hand, seats| {
        seats.push(hand.cards() as u8);
    }),
    ("zeros up to 15 or more", |hand, seats| {
        let length = hand.rng.pick(&[15, 16, 17, 32, 512]);
        let least = seats.len() + 1;
        seats.resize(length.max(least), 0);
    }),
    ("256 more", |_, seats| {
        seats.resize(seats.len() + 256, 0);
    }),
    ("the same again", |_, seats| seats.extend_from_within(..)),
    ("a card twice", |hand, seats| {
        let (one, other) = two_seats(hand);
        seats[other] = seats[one];
    }),
    ("no card's number", |hand, seats| {
        let (seat, _) = two_seats(hand);
        seats[seat] = no_card(hand);
    }),
    ("a card's number with a bit more", |hand, seats| {
        let (seat, _) = two_seats(hand);
        seats[seat] = more_bits(hand, seats[seat]);
    }),
    ("all alike", |hand, seats| {
        let card = hand.rng.pick(seats);
        seats.fill(card);
    }),
    ("some alike", |hand, seats| {
        let from = hand.rng.below(seats.len() - 1);
        let card = hand.rng.pick(seats);
        seats[from..].fill(card);
    }),
    ("counted from 1", |_, seats| {
        seats.iter_mut().for_each(|card| *card += 1);
    }),
];

/// Spoils the rotation that an open is lent.
pub fn rotation(hand: &mut Hand, call: &mut Call) -> bool {
    let What::Open(_, seats) = &mut call.what else {
        return false;
    };
    let (label, spoil) = hand.rng.pick(ROTATIONS);
    *seats = hand.head.seats().to_vec();
    spoil(hand, seats);
    call.changes.push(("rotation", label));
    true
}

/// Another T with log and masks of its size.
const SIZED: [&str; 4] = [
    "T one less, and its sizes",
    "T one more, and its sizes",
    "T of 0, and its sizes",
    "T of 4,097, and its sizes",
];

/// Sometimes, and often at the edges of the range, lends a call the log and masks of another term.
fn resize(hand: &mut Hand, call: &mut Call) -> Option<(u32, &'static str)> {
    let term = hand.head.term;
    let percent = if hand.head.term_at_edge() { 60 } else { 10 };
    if !hand.rng.chance(percent) {
        return None;
    }
    let new = match term {
        1 => 0,
        MOST_TERM => MOST_TERM + 1,
        _ => hand.pick(&[term - 1, term + 1]),
    };
    call.log_len = SIZE * new as usize;
    call.masks_len = new as usize;
    let label = match new {
        0 => SIZED[2],
        new if new > MOST_TERM => SIZED[3],
        new => SIZED[usize::from(new > term)],
    };
    Some((new, label))
}

/// Puts one field of the record at an edge.
fn record(hand: &mut Hand, call: &mut Call) -> bool {
    let open_or_digest = matches!(call.what, What::Open(..) | What::Digest(_));
    if hand.strict || open_or_digest || call.record.is_some() {
        return false;
    }
    let mut record = hand.kept;
    let (mut field, edge) = hand.rng.pick(RECORD_FIELDS);
    if let Some((term, label)) = resize(hand, call) {
        (record.term, field) = (term, label);
    } else {
        edge(hand, &mut record);
    }
    call.record = Some(record);
    call.changes.push(("record", field));
    true
}

type SetupEdge = fn(&mut Hand, &mut Setup);

const SETUP_FIELDS: &[(&str, SetupEdge)] = &[
    ("own number", |hand, setup| {
        let n = hand.cards();
        setup.own = hand.pick(&[0, n - 1, n, n + 1, 255]) as u8;
    }),
    ("f", |hand, setup| {
        setup.f = hand.pick(&[0, 1, 7, 8, 255]) as u8
    }),
    ("wait", |hand, setup| {
        setup.wait = hand.pick(&[0, 1, 60_000, 60_001, u32::MAX]);
    }),
    ("T", |hand, setup| {
        let term = hand.head.term;
        setup.term = hand.pick(&[0, down(term), up(term), 4_096, 4_097, u32::MAX]);
    }),
];

/// Changes what an open is handed; in a strict run nothing that it may be taken with.
fn opening(hand: &mut Hand, call: &mut Call) -> bool {
    if hand.strict || hand.rng.chance(30) {
        rotation(hand, call)
    } else {
        setup(hand, call)
    }
}

/// Puts a number of an open at an edge, or lends it the log and masks of another term.
pub fn setup(hand: &mut Hand, call: &mut Call) -> bool {
    let What::Open(mut setup, _) = call.what else {
        return false;
    };
    let (mut field, edge) = hand.rng.pick(SETUP_FIELDS);
    if let Some((term, label)) = resize(hand, call) {
        (setup.term, field) = (term, label);
    } else {
        edge(hand, &mut setup);
    }
    if let What::Open(old, _) = &mut call.what {
        *old = setup;
    }
    call.changes.push(("set-up", field));
    true
}

fn from_table(
    group: &'static str,
    table: &[(&'static str, Change)],
    hand: &mut Hand,
    call: &mut Call,
) -> bool {
    let (label, change) = hand.rng.pick(table);
    let applies = change(hand, call);
    if applies {
        call.changes.push((group, label));
    }
    applies
}

/// Changes a call in one to three ways; no buffer grows past T + 1 or 16 frames, whichever is more.
pub fn change(hand: &mut Hand, call: &mut Call) {
    let times = match hand.rng.below(100) {
        0..=69 => 1,
        70..=91 => 2,
        _ => 3,
    };
    for _ in 0..times {
        let _applied = (0..8).any(|_| match hand.rng.below(5) {
            0 => from_table("length", LENGTHS, hand, call),
            1 => from_table("frames", FRAMES, hand, call),
            2 | 3 => harm(hand, call),
            _ => record(hand, call) || opening(hand, call),
        });
    }
    let most = (hand.head.term as usize + 1).max(MOST_BLAMES + 1);
    if let Some(bytes) = handed(call) {
        bytes.truncate(SIZE * most);
    }
}

/// Puts a field of a record that no call made at an edge.
pub fn edge(hand: &mut Hand, record: &mut Record) {
    let (_, edge) = hand.rng.pick(RECORD_FIELDS);
    edge(hand, record);
}

/// Every change there is.
pub fn rows() -> impl Iterator<Item = Row> {
    let of = |group, labels: Vec<&'static str>| labels.into_iter().map(move |label| (group, label));
    of("length", labels(LENGTHS))
        .chain(of("frames", labels(FRAMES)))
        .chain(of(BLOCK_LEFT, labels(BLOCK_FIELDS)))
        .chain(of(BLOCK_SEALED, sealed(BLOCK_FIELDS)))
        .chain(of(BLAME_LEFT, labels(BLAME_FIELDS)))
        .chain(of(BLAME_SEALED, sealed(BLAME_FIELDS)))
        .chain(of(SET_LEFT, labels(BLAME_FIELDS)))
        .chain(of(SET_SEALED, sealed(BLAME_FIELDS)))
        .chain(of(PAIR_LEFT, labels(BLOCK_FIELDS)))
        .chain(of(PAIR_SEALED, sealed(BLOCK_FIELDS)))
        .chain(of("record", labels(RECORD_FIELDS)))
        .chain(of("record", SIZED.to_vec()))
        .chain(of("set-up", SIZED.to_vec()))
        .chain(of("set-up", labels(SETUP_FIELDS)))
        .chain(of("rotation", labels(ROTATIONS)))
}

fn labels<T>(table: &[(&'static str, T)]) -> Vec<&'static str> {
    table.iter().map(|row| row.0).collect()
}

/// A harmed check is never made right.
fn sealed(fields: &[(&'static str, Harm)]) -> Vec<&'static str> {
    let mut labels = labels(fields);
    labels.retain(|label| *label != "check");
    labels
}
