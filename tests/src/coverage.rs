//! How often each refusal of each call, each way of taking, each way of a search and of catching up
//! was reached.

use std::collections::BTreeMap;

use crate::call::{Call, Head, What};
use crate::catch_up::{CatchUp, Checked, Replies, Reply};
use crate::changes;
use crate::claims::Due;
use crate::fours;
use crate::frame::{self, Frame, MOST_ENTRY, SIZE};
use crate::marks::MARKED;
use crate::model::{all_cards, attaching, block_in_form, cards, committed, filled, in_turn};
use crate::model::{is_rotation, leader, record_holds, seats, shown, slots};
use crate::model::{Answer, Fetched, Marked, Part, Record, Rotation, Search, Setup};
use crate::model::{LEAST_OUT, MOST_BLAMES, MOST_CARDS, MOST_F, NOBODY};
use crate::pairs;
use crate::runner::{Outcome, Searched, Side};

/// Refusals that each call can give.
const REFUSALS: &[(&str, &[u8])] = &[
    ("open", &[1, 17, 4, 5]),
    ("branch", &[2, 3, 4, 5, 6, 7, 8, 9, 10, 11, 12, 13]),
    ("blame", &[2, 3, 4, 5, 6, 7, 8, 10, 14]),
    ("blames", &[2, 3, 4, 5, 6, 7, 8, 10, 14, 16]),
    ("tick", &[2, 3, 4, 5]),
    ("equivocation", &[2, 6, 7, 8, 18]),
    ("read", &[2, 15]),
    ("fetch", &[2, 4, 15]),
];

const REFUSED: [&str; 19] = [
    "",
    "refused  1 set-up",
    "refused  2 record",
    "refused  3 term over",
    "refused  4 short tray",
    "refused  5 long entry",
    "refused  6 cut",
    "refused  7 check",
    "refused  8 form",
    "refused  9 parted",
    "refused 10 stale",
    "refused 11 loose",
    "refused 12 undone",
    "refused 13 unshown",
    "refused 14 early",
    "refused 15 absent",
    "refused 16 no set",
    "refused 17 rotation",
    "refused 18 no equivocation",
];

/// Ways of taking, and of refusing a rotation, a signer and a set of blames; those of equivocation are
/// in pairs.rs, those of frames in groups of four in fours.rs.
const WAYS: &[Row] = &[
    ("open", "rotation empty"),
    ("open", "rotation one short"),
    ("open", "rotation one long"),
    ("open", "rotation over 15 long"),
    ("open", "rotation 256 longer"),
    ("open", "rotation long, first n fine"),
    ("open", "rotation with a card twice"),
    ("open", "rotation with many alike"),
    ("open", "rotation with n for a card"),
    ("open", "rotation with 15 for a card"),
    ("open", "rotation with 16 for a card"),
    ("open", "rotation with 255 for a card"),
    ("open", "rotation with a card and 16"),
    ("open", "rotation with a card and 32"),
    ("open", "rotation with a card and 64"),
    ("open", "rotation with a card and 128"),
    ("open", "rotation, and short tray"),
    ("open", "rotation, and long entry"),
    ("open", "rotation, short tray, long entry"),
    ("open", "set-up, and rotation"),
    ("open", "taken, leads round 1"),
    ("open", "taken, does not lead"),
    ("open", "taken, not the list's rotation"),
    ("open", "taken, a neighbour's rotation"),
    ("open", "taken, marks before"),
    ("branch", "form, signer by number"),
    ("branch", "form, later signer by number"),
    ("branch", "taken, signer not by number"),
    ("branch", "taken onto the genesis"),
    ("branch", "taken onto a slot"),
    ("branch", "taken, one frame"),
    ("branch", "taken, several frames"),
    ("branch", "taken, T frames"),
    ("branch", "taken, over 1,000 frames"),
    ("branch", "taken, rounds skipped before it"),
    ("branch", "taken, rounds skipped inside it"),
    ("branch", "taken, filled slots replaced"),
    ("branch", "taken, committed frames again"),
    ("branch", "taken, ends above R"),
    ("branch", "taken, ends in T"),
    ("branch", "taken, block put out after"),
    ("branch", "taken, committed grew"),
    ("blame", "taken, older round"),
    ("blame", "taken, older round shown by it"),
    ("blame", "taken, R not shown yet"),
    ("blame", "taken, R shown"),
    ("blame", "taken, R shown, block put out"),
    ("blame", "taken, R shown, term over"),
    ("blames", "cut, no bytes"),
    ("blames", "cut, under one frame"),
    ("blames", "cut, bytes after whole frames"),
    ("blames", "cut, bytes after 15 frames"),
    ("blames", "cut, 16 frames"),
    ("blames", "check, first frame"),
    ("blames", "check, middle frame"),
    ("blames", "check, last of several"),
    ("blames", "check, no set before it"),
    ("blames", "form, first frame"),
    ("blames", "form, middle frame"),
    ("blames", "form, last of several"),
    ("blames", "form, no set before it"),
    ("blames", "form, a block among blames"),
    ("blames", "no set, two rounds alone"),
    ("blames", "no set, a signer twice alone"),
    ("blames", "no set, both"),
    ("blames", "no set, and early"),
    ("blames", "no set, and stale"),
    ("blames", "no set, more frames than cards"),
    ("blames", "early, several frames"),
    ("blames", "early, all bits set before"),
    ("blames", "stale, one frame"),
    ("blames", "stale, several frames"),
    ("blames", "stale, R"),
    ("blames", "stale, older round"),
    ("blames", "taken, one frame"),
    ("blames", "taken, several frames"),
    ("blames", "taken, 15 frames"),
    ("blames", "taken, signers not in order"),
    ("blames", "taken, first bit set before"),
    ("blames", "taken, last bit set before"),
    ("blames", "taken, older round"),
    ("blames", "taken, older round shown by it"),
    ("blames", "taken, R not shown yet"),
    ("blames", "taken, R shown"),
    ("blames", "taken, R shown, block put out"),
    ("blames", "taken, R shown, term over"),
    ("blames", "taken, R shown, bits set before"),
    ("blames", "taken, R shown, over f + 1 frames"),
    ("tick", "none left"),
    ("tick", "counted down"),
    ("tick", "blamed, R not shown yet"),
    ("tick", "blamed, own bit set before"),
    ("tick", "blamed, R shown"),
    ("tick", "blamed, R shown, block put out"),
    ("tick", "blamed, R shown, term over"),
    ("read", "found"),
    ("read", "found, no bytes"),
    ("read", "found, 400 bytes"),
    ("fetch", "short tray, no bytes"),
    ("fetch", "short tray, 1,023 bytes"),
    ("fetch", "short tray, and absent"),
    ("fetch", "record, and short tray"),
    ("fetch", "record, and absent"),
    ("fetch", "absent, no frame held"),
    ("fetch", "absent, frames held"),
    ("fetch", "absent, at the tip's height"),
    ("fetch", "absent, above the tip's height"),
    ("fetch", "absent, 4,294,967,295"),
    ("fetch", "all frames, room left"),
    ("fetch", "all frames, tray full"),
    ("fetch", "a part, tray full"),
    ("fetch", "tray of 2 frames, full"),
    ("fetch", "tray of 3 frames, full"),
    ("fetch", "tray of over 15 frames, full"),
    ("fetch", "tray of over T frames"),
    ("fetch", "tail of 1 byte, and room left"),
    ("fetch", "tail of 1 byte, all frames, full"),
    ("fetch", "tail of 1 byte, a part"),
    ("fetch", "tail of 511 bytes, a part"),
    ("fetch", "tail of other length, a part"),
    ("fetch", "above 0"),
    ("fetch", "above the committed height"),
    ("fetch", "above the tip's height - 1"),
    ("fetch", "above the tip's height"),
    ("fetch", "above more than the tip's height"),
    ("fetch", "above more than T"),
    ("fetch", "frames up to the committed round"),
    ("fetch", "frames above the committed round"),
    ("fetch", "frames above the tip"),
    ("fetch", "heights fall"),
    ("fetch", "a height twice"),
    ("fetch", "a frame between not above"),
    ("fetch", "empty slots between"),
    ("digest", "made"),
    ("search", "no round allowed"),
    ("search", "found at the limit"),
    ("search", "found, 1 round skipped"),
    ("search", "found, 2 or more rounds skipped"),
    ("search", "none filled"),
    ("search", "limit above the log"),
    ("search", "f + 1 slots read"),
    ("search", "kind 2 passed over"),
    ("search", "another kind passed over"),
];

/// Rows of a call that have to be reached while the claims are due, too, and their group.
const CLAIMED: &[(&str, &str, &[&str])] = &[
    ("open", "claims, open", &["refused 17 rotation"]),
    (
        "branch",
        "claims, branch",
        &[
            "form, signer by number",
            "taken, signer not by number",
            "block put out, not by number",
            "leader told, not by number",
            "refused  7 check",
            "refused  8 form",
            "refused  9 parted",
            "refused 10 stale",
            "refused 11 loose",
            "refused 13 unshown",
            "taken onto the genesis",
            "taken onto a slot",
            "taken, several frames",
            "taken, rounds skipped before it",
            "taken, rounds skipped inside it",
            "taken, filled slots replaced",
            "taken, committed frames again",
            "taken, ends in T",
            "taken, block put out after",
            "taken with marks",
        ],
    ),
    (
        "blame",
        "claims, blame",
        &[
            "taken with marks",
            "refused  7 check",
            "refused  8 form",
            "refused 10 stale",
            "refused 14 early",
            "taken, R shown",
            "taken, R shown, block put out",
            "commits, no block stored",
            "commits, block put out",
            "commits at R = T + 1",
        ],
    ),
    (
        "blames",
        "claims, blames",
        &[
            "taken with marks",
            "refused  6 cut",
            "check, last of several",
            "form, last of several",
            "refused 10 stale",
            "refused 14 early",
            "no set, two rounds alone",
            "no set, a signer twice alone",
            "taken, several frames",
            "taken, older round shown by it",
            "taken, R shown",
            "taken, R shown, block put out",
            "taken, R shown, over f + 1 frames",
            "commits, no block stored",
            "commits, block put out",
            "commits at R = T + 1",
        ],
    ),
    (
        "tick",
        "claims, tick",
        &[
            "taken with marks",
            "blamed, R shown",
            "commits, no block stored",
            "commits, block put out",
            "commits at R = T + 1",
        ],
    ),
    (
        "equivocation",
        "claims, equivocation",
        &[
            "refused  6 cut",
            "refused  7 check",
            "refused  8 form",
            "refused 18 no equivocation",
            "taken, first mark",
            "taken, beside other marks",
            "taken, marked already",
            "taken at R = T + 1",
        ],
    ),
    (
        "search",
        "claims, search",
        &[
            "no round allowed",
            "found at the limit",
            "found, 1 round skipped",
            "found, 2 or more rounds skipped",
            "none filled",
            "f + 1 slots read",
        ],
    ),
];

/// What blames and ticks do to the committed round; the last three on states that no call made.
const COMMITS: [&str; 6] = [
    "commits, no block stored",
    "commits, block put out",
    "commits at R = T + 1",
    "commits above the tip",
    "committed lowered",
    "R stays, rule gives another slot",
];

/// On a record that the call before left with a slot above its tip committed.
const ABOVE: &str = "refused  2, committed above tip";

/// On a record that is right but for its rotation, or but for leading R.
const SEATS: [&str; 5] = [
    "refused  2, two seats alike",
    "refused  2, seat out of range",
    "refused  2, byte n not zero",
    "refused  2, byte 14 not zero",
    "refused  2, leads, not by number",
];

/// A record with marks: right but for one from n on, or right.
const MARKS: [&str; 7] = [
    "refused  2, mark at bit n",
    "refused  2, mark at bit 15",
    "refused  2, marks below n too",
    "refused  2, marks from n on alone",
    "refused with marks",
    "taken with marks",
    "taken with all n marks",
];

/// Where bit n is bit 15.
const LAST_MARK: Row = ("record", "refused  2, bit 15 with n = 15");

pub const OTHER_MARKS: &str = "other marks";

/// Calls made with other marks, too.
const MADE_TWICE: [&str; 9] = [
    "branch taken",
    "blame taken",
    "blames taken",
    "tick taken",
    "equivocation taken",
    "equivocation, a new mark in one",
    "read found",
    "fetch taken",
    "refused",
];

/// Where the rotation is not the old turn.
const LEADERS: [&str; 3] = [
    "leader told, not by number",
    "block put out, not by number",
    "no block, though by number",
];

const TWO_BLOCKS: Row = ("claims", "cards hold two blocks of a round");
const TWO_TIPS: Row = ("claims", "tips of two rounds at one R");
const TWO_ENDS: Row = ("claims", "tips of two rounds at R = T + 1");
const SET_OF_ONE: Row = ("claims", "a set of one beside a blame");
const LEADERS_TOLD: Row = ("claims", "leaders of n rounds in a row");

pub const CATCHING_UP: &str = "catching up";

/// What a card that comes back is answered.
const REPLIES: [&str; 5] = [
    "term over",
    "stale",
    "unshown, up to R",
    "unshown, above R, so split",
    "taken",
];
/// To all frames that another has above its committed height, and to fewer.
const ALL: &str = "catching up, all frames";
const FEWER: &str = "catching up, fewer frames";
/// To these, where it is lawful and not sound.
const NOT_SOUND: &str = "catching up, not sound";
/// To frames above a block that both hold, above its committed one.
const SHARED: &str = "catching up, shared block";
/// To frames above a height that it had committed, where it has committed more since.
const EARLIER: &str = "catching up, earlier";

/// What has come since, where all these frames are taken, or stale.
const SINCE: [&str; 4] = [
    "giver's line another, taken",
    "giver's line another, stale",
    "frames below the committed, taken",
    "committed by blames alone, taken",
];

/// How the giver's frames were fetched; the last two where the premises of the claims fail.
const FETCHED_ON: [&str; 5] = [
    "fetched in one piece",
    "fetched in two pieces",
    "fetched in three or more",
    "fetched, whoever lies",
    "on a shared block, whoever lies",
];

/// How the two cards stand to each other.
const TWO_CARDS: [&str; 8] = [
    "giver behind",
    "giver at the same R",
    "giver ahead",
    "giver ahead, and stale",
    "giver on another branch, and stale",
    "taker holds some of the frames",
    "taker holds other frames, taken",
    "first frame on the genesis, taken",
];

/// A size of lists and how it is told.
type Size = (&'static str, fn(&Head) -> bool);

const SIZES: &[Size] = &[
    ("f = 1", |head| head.f == 1),
    ("f = 2", |head| head.f == 2),
    ("f = 3", |head| head.f == 3),
    ("f = 4", |head| head.f == 4),
    ("f = 5", |head| head.f == 5),
    ("f = 6", |head| head.f == 6),
    ("f = 7", |head| head.f == 7),
    ("T = 1", |head| head.term == 1),
    ("T = 2 to 1,000", |head| (2..=1_000).contains(&head.term)),
    ("T = 1,001 to 4,095", |head| {
        (1_001..=4_095).contains(&head.term)
    }),
    ("T = 4,096", |head| head.term == 4_096),
    ("rotation 0, 1, 2 and so on", |head| {
        head.rotation == in_turn(head.f)
    }),
    ("another rotation", |head| head.rotation != in_turn(head.f)),
];

/// The leader of the old turn.
pub fn by_number(round: u32, f: u8) -> u8 {
    leader(round, f, &in_turn(f))
}

/// What has to be known of a card before a call to tell how the call was taken.
pub struct Before {
    pub record: Record,
    /// The mask of the round blamed: the first frame's for blames, R for a tick.
    mask: u16,
    /// The round that a branch attaches to, and whether filled slots lie above it.
    attach: Option<(u32, bool)>,
    /// Whether the rule gives another slot at R than the committed one.
    another_due: bool,
    /// Round and height of each frame of the line, for a fetch.
    line: Vec<(u32, u32)>,
    /// How many of the frames handed to equivocation stand in the book.
    pub held: usize,
}

impl Before {
    pub fn of(call: &Call, side: &Side) -> Before {
        let record = call.record.unwrap_or(side.record);
        let masks = side.masks.part(call.masks_len);
        let round = slots(call.handed())
            .first()
            .map_or(record.round, frame::round);
        let index = (round as usize).wrapping_sub(1);
        let log = side.log.part(call.log_len);
        let stands = (record.committed_round, record.committed_height);
        Before {
            record,
            mask: masks.get(index).copied().unwrap_or(0),
            attach: match &call.what {
                What::Branch(frames) => attach(frames, log),
                _ => None,
            },
            another_due: committed(log, record.round, record.f) != stands,
            line: match call.what {
                What::Fetch(_) => filled(log)
                    .map(|(round, slot)| (round, frame::height(slot)))
                    .collect(),
                _ => Vec::new(),
            },
            held: match &call.what {
                What::Equivocation(frames) => held(frames, log),
                _ => 0,
            },
        }
    }

    /// Whether the signers' bits stand in the mask.
    fn all_set(&self, frames: &[Frame]) -> bool {
        signers(frames) & !self.mask == 0
    }
}

/// How many different numbers there are.
fn different(numbers: &[u8]) -> usize {
    let first = |&(index, number): &(usize, &u8)| !numbers[..index].contains(number);
    numbers.iter().enumerate().filter(first).count()
}

/// Whether a row was reached.
pub type Reached = (bool, &'static str);

/// What was reached of some rows.
pub fn zip<const N: usize>(reached: [bool; N], rows: [&'static str; N]) -> [Reached; N] {
    std::array::from_fn(|index| (reached[index], rows[index]))
}

/// A bit for each signer of blames in form.
fn signers(frames: &[Frame]) -> u16 {
    let bit = |frame| 1 << frame::signer(frame);
    frames.iter().map(bit).fold(0, |bits, bit: u16| bits | bit)
}

/// Whether blames in form are of two rounds, and whether a signer is there twice.
fn faults(frames: &[Frame]) -> (bool, bool) {
    let rounds = |pair: &[Frame]| frame::round(&pair[0]) != frame::round(&pair[1]);
    let different = signers(frames).count_ones() as usize;
    (frames.windows(2).any(rounds), different < frames.len())
}

fn attach(frames: &[u8], log: &[u8]) -> Option<(u32, bool)> {
    let first = slots(frames).first()?;
    let in_book = (1..=slots(log).len()).contains(&(frame::round(first) as usize));
    if !in_book || frame::height(first) == 0 {
        return None;
    }
    let round = attaching(log, first)?;
    let above = &slots(log)[round as usize..];
    Some((round, above.iter().any(frame::filled)))
}

/// How many frames stand in the slots of their rounds.
fn held(frames: &[u8], log: &[u8]) -> usize {
    let index = |frame: &Frame| (frame::round(frame) as usize).wrapping_sub(1);
    let stands = |frame: &&Frame| slots(log).get(index(frame)) == Some(*frame);
    slots(frames).iter().filter(stands).count()
}

/// Whether a call may go by a record.
fn holds(call: &Call, record: &Record) -> bool {
    let (log, masks) = call.lengths();
    record_holds(record, log, masks)
}

/// The rows of a call with these refusals.
fn rows_of(&(call, numbers): &(&'static str, &[u8])) -> Vec<Row> {
    let of_call = |row| (call, row);
    let refused = numbers.iter().map(|&number| REFUSED[usize::from(number)]);
    let mut rows: Vec<Row> = refused.map(of_call).collect();
    rows.extend(WAYS.iter().filter(|row| row.0 == call));
    if call == "equivocation" {
        rows.extend(pairs::ways().map(of_call));
    }
    if matches!(call, "blame" | "blames" | "tick") {
        rows.extend(COMMITS.map(of_call));
    }
    if !matches!(call, "equivocation" | "read" | "fetch") {
        rows.extend(LEADERS.map(of_call));
    }
    if call != "open" {
        rows.push((call, ABOVE));
        rows.extend(SEATS.map(of_call));
        rows.extend(MARKS.map(of_call));
    }
    rows
}

/// Counts by call and row.
#[derive(Clone)]
pub struct Coverage {
    /// The rows that have to be reached, in the order of the table.
    rows: Vec<Row>,
    counts: BTreeMap<Row, u64>,
    /// Whether the claims are due for the call that is being counted.
    due: bool,
    /// What the last call that was taken left, if that has a slot above its tip committed.
    above: Option<Record>,
    /// The list's.
    rotation: Rotation,
    /// Bit i: card i is not sound, beside others that are.
    neighbours: u16,
}

pub type Row = (&'static str, &'static str);

impl Default for Coverage {
    fn default() -> Self {
        Coverage::new()
    }
}

impl Coverage {
    /// All rows with nothing reached yet.
    pub fn new() -> Coverage {
        let mut rows: Vec<Row> = REFUSALS.iter().flat_map(rows_of).collect();
        rows.extend(WAYS.iter().filter(|row| row.0 == "digest"));
        rows.extend(WAYS.iter().filter(|row| row.0 == "search"));
        rows.extend(fours::rows());
        rows.extend(changes::rows());
        rows.push(LAST_MARK);
        for &(_, group, claimed) in CLAIMED {
            rows.extend(claimed.iter().map(|row| (group, *row)));
        }
        rows.extend([TWO_BLOCKS, TWO_TIPS, TWO_ENDS, SET_OF_ONE, LEADERS_TOLD]);
        rows.extend(MARKED.map(|row| ("claims", row)));
        rows.extend(MADE_TWICE.map(|row| (OTHER_MARKS, row)));
        rows.extend(FETCHED_ON.map(|row| (CATCHING_UP, row)));
        rows.extend(TWO_CARDS.map(|row| (CATCHING_UP, row)));
        for group in [ALL, FEWER, NOT_SOUND, SHARED, EARLIER] {
            rows.extend(REPLIES.map(|row| (group, row)));
        }
        rows.extend(SINCE.map(|row| (EARLIER, row)));
        rows.extend(SIZES.iter().map(|size| ("list", size.0)));
        Coverage {
            rows,
            counts: BTreeMap::new(),
            due: false,
            above: None,
            rotation: Rotation::default(),
            neighbours: 0,
        }
    }

    fn add(&mut self, call: &'static str, row: &'static str) {
        *self.counts.entry((call, row)).or_default() += 1;
        let of_call = CLAIMED.iter().find(|claimed| claimed.0 == call);
        if let (true, Some((_, group, rows))) = (self.due, of_call) {
            if rows.contains(&row) {
                *self.counts.entry((group, row)).or_default() += 1;
            }
        }
    }

    /// Counts the rows that were reached.
    fn add_all(&mut self, call: &'static str, rows: &[Reached]) {
        for &(reached, row) in rows {
            if reached {
                self.add(call, row);
            }
        }
    }

    /// Counts a list.
    pub fn list(&mut self, head: &Head) {
        self.above = None;
        self.rotation = head.rotation;
        self.neighbours = if head.sound == 0 { 0 } else { !head.sound };
        let rows: Vec<_> = SIZES.iter().map(|(row, fits)| (fits(head), *row)).collect();
        self.add_all("list", &rows);
    }

    /// Counts a call and whether the claims were due after it.
    pub fn call(&mut self, call: &Call, before: &Before, outcome: &Outcome, due: Due) {
        self.due = due.claims;
        let answer = outcome.answer();
        let ends = answer.is_some_and(|answer| answer.record.round > answer.record.term);
        let rows = [
            (due.two_blocks, TWO_BLOCKS.1),
            (due.two_tips, TWO_TIPS.1),
            (due.two_tips && ends, TWO_ENDS.1),
            (call.is_set_of_one(), SET_OF_ONE.1),
            (due.leaders, LEADERS_TOLD.1),
        ];
        self.add_all("claims", &rows);
        self.add_all("claims", &zip(due.marked, MARKED));
        let follows = self.above == Some(before.record) && call.lends_all(before.record.term);
        if follows && outcome.number() == Some(2) {
            self.add(call.word(), ABOVE);
        }
        for &(group, change) in &call.changes {
            self.add(group, change);
        }
        if outcome.number() == Some(2) {
            self.bad_record(call, &before.record);
        }
        self.marks(call, &before.record, outcome);
        if let Some(answer) = answer {
            for (group, row) in fours::reached(call, &before.record, answer) {
                self.add(group, row);
            }
        }
        match outcome {
            Outcome::Answer(answer) if answer.number != 0 => self.refused(call, before, answer),
            Outcome::Answer(answer) => self.taken(call, before, answer),
            Outcome::Marked(marked) => self.marked(call, before, marked),
            Outcome::Part(part) => self.part(call, part),
            Outcome::Fetched(fetched) => self.fetched(call, before, fetched),
            Outcome::Digest => self.add("digest", "made"),
            Outcome::Written => {}
        }
    }

    fn refusal(&mut self, call: &Call, number: u8) {
        self.add(call.word(), REFUSED[usize::from(number)]);
    }

    /// A record that a call said 2 to, where its rotation or its leading R is the only cause.
    fn bad_record(&mut self, call: &Call, record: &Record) {
        let holds = |rotation| {
            let other = Record {
                rotation,
                ..*record
            };
            holds(call, &other)
        };
        let f = record.f.clamp(1, MOST_F);
        let n = cards(f) as usize;
        let mut next = in_turn(f);
        next[..n].rotate_left(1);
        if !holds(in_turn(f)) && !holds(next) {
            return;
        }
        let (used, past) = record.rotation.split_at(n);
        let fine = is_rotation(used, f);
        let in_range = used.iter().all(|&card| usize::from(card) < n);
        let leads = fine && past.iter().all(|&byte| byte == 0);
        let reached = [
            !fine && in_range,
            !fine && !in_range && different(used) == n,
            fine && past.first().is_some_and(|&byte| byte != 0),
            fine && past.last().is_some_and(|&byte| byte != 0),
            leads && by_number(record.round, f) != record.own,
        ];
        self.add_all(call.word(), &zip(reached, SEATS));
    }

    /// What a call with marks in its record came to; 2 where they are its only cause.
    fn marks(&mut self, call: &Call, record: &Record, outcome: &Outcome) {
        let (Some(number), marks) = (outcome.number(), record.equivocators) else {
            return;
        };
        if matches!(call.what, What::Open(..)) || marks == 0 {
            return;
        }
        let f = record.f.clamp(1, MOST_F);
        let (n, below) = (cards(f), marks & all_cards(f));
        let mended = Record {
            equivocators: below,
            ..*record
        };
        let bad = number == 2 && below != marks && holds(call, &mended);
        let reached = [
            bad && marks >> n & 1 == 1,
            bad && n < 15 && marks >> 15 == 1,
            bad && below != 0,
            bad && below == 0,
            !matches!(number, 0 | 2),
            number == 0,
            number == 0 && marks == all_cards(f),
        ];
        self.add_all(call.word(), &zip(reached, MARKS));
        self.add_all(LAST_MARK.0, &[(bad && n == 15, LAST_MARK.1)]);
    }

    fn marked(&mut self, call: &Call, before: &Before, marked: &Marked) {
        if marked.number != 0 {
            self.refusal(call, marked.number);
        }
        let rows = pairs::reached(call, before, marked);
        self.add_all("equivocation", &rows);
    }

    /// Counts a call that was made with other marks, too.
    pub fn other_marks(&mut self, call: &Call, outcome: &Outcome, handed: &Record, other: &Record) {
        let taken = outcome.number() == Some(0);
        let is = |word: &str| taken && call.word() == word;
        let leader = slots(call.handed()).first().map_or(0, frame::signer);
        let apart = handed.equivocators ^ other.equivocators;
        let reached = [
            is("branch"),
            is("blame"),
            is("blames"),
            is("tick"),
            is("equivocation"),
            is("equivocation") && apart >> leader & 1 == 1,
            is("read"),
            is("fetch"),
            !taken,
        ];
        self.add_all(OTHER_MARKS, &zip(reached, MADE_TWICE));
    }

    fn refused(&mut self, call: &Call, before: &Before, answer: &Answer) {
        self.refusal(call, answer.number);
        match &call.what {
            What::Open(setup, rotation) => self.refused_open(call, setup, rotation, answer.number),
            What::Branch(frames) if answer.number == 8 => {
                self.bad_signer(slots(frames), before, answer.place as usize);
            }
            What::Blames(bytes) => self.refused_set(bytes, before, answer),
            _ => {}
        }
    }

    /// An open with a rotation that is none.
    fn refused_open(&mut self, call: &Call, setup: &Setup, rotation: &[u8], number: u8) {
        let known_n = (1..=MOST_F).contains(&setup.f);
        if !known_n || is_rotation(rotation, setup.f) {
            return;
        }
        if number == 1 {
            self.add("open", "set-up, and rotation");
            return;
        }
        let n = cards(setup.f) as usize;
        let (short, long) = (call.out_len < LEAST_OUT, call.entry.len() > MOST_ENTRY);
        let first_fine = rotation.len() > n && is_rotation(&rotation[..n], setup.f);
        self.add_all(
            "open",
            &[
                (rotation.is_empty(), "rotation empty"),
                (rotation.len() == n - 1, "rotation one short"),
                (rotation.len() == n + 1, "rotation one long"),
                (rotation.len() > MOST_CARDS, "rotation over 15 long"),
                (rotation.len() == n + 256, "rotation 256 longer"),
                (first_fine, "rotation long, first n fine"),
                (short && !long, "rotation, and short tray"),
                (!short && long, "rotation, and long entry"),
                (short && long, "rotation, short tray, long entry"),
            ],
        );
        if rotation.len() == n {
            self.bad_seats(rotation, n);
        }
    }

    /// n seats that are no rotation.
    fn bad_seats(&mut self, seats: &[u8], n: usize) {
        let mut alien = seats.iter().filter(|&&card| usize::from(card) >= n);
        let missing = (0..n as u8).find(|card| !seats.contains(card)).unwrap_or(0);
        let (first, others) = (alien.next().copied(), alien.count());
        // The one number that is no card's, all others being cards with a seat each.
        let lone = first.filter(|_| others == 0 && different(seats) == n);
        let is = |number: usize| lone.is_some_and(|lone| usize::from(lone) == number);
        let missing = usize::from(missing);
        self.add_all(
            "open",
            &[
                (
                    first.is_none() && different(seats) == n - 1,
                    "rotation with a card twice",
                ),
                (different(seats) < n - 1, "rotation with many alike"),
                (is(n), "rotation with n for a card"),
                (is(15), "rotation with 15 for a card"),
                (is(16), "rotation with 16 for a card"),
                (is(255), "rotation with 255 for a card"),
                (is(missing | 16), "rotation with a card and 16"),
                (is(missing | 32), "rotation with a card and 32"),
                (is(missing | 64), "rotation with a card and 64"),
                (is(missing | 128), "rotation with a card and 128"),
            ],
        );
    }

    /// A block that is in form but for its signer, who leads its round in the old turn.
    fn bad_signer(&mut self, frames: &[Frame], before: &Before, place: usize) {
        let (record, mut frame) = (&before.record, frames[place]);
        let (signer, round) = (frame::signer(&frame), frame::round(&frame));
        if round == 0 || signer != by_number(round, record.f) {
            return;
        }
        frame[1] = leader(round, record.f, &record.rotation);
        if block_in_form(record, &frame) {
            self.add("branch", "form, signer by number");
            self.add_all("branch", &[(place > 0, "form, later signer by number")]);
        }
    }

    fn refused_set(&mut self, bytes: &[u8], before: &Before, answer: &Answer) {
        let frames = slots(bytes);
        match answer.number {
            6 => self.cut_set(bytes.len()),
            7 | 8 => self.bad_frame(frames, answer),
            10 => self.stale_set(frames, before),
            14 => self.early_set(frames, before),
            16 => self.no_set(frames, before),
            _ => {}
        }
    }

    fn cut_set(&mut self, length: usize) {
        let row = match length {
            0 => "cut, no bytes",
            1..SIZE => "cut, under one frame",
            _ if length.is_multiple_of(SIZE) => "cut, 16 frames",
            _ if length > MOST_BLAMES * SIZE => "cut, bytes after 15 frames",
            _ => "cut, bytes after whole frames",
        };
        self.add("blames", row);
    }

    /// A frame of a set with a wrong check or form.
    fn bad_frame(&mut self, frames: &[Frame], answer: &Answer) {
        let place = answer.place as usize;
        let [first, middle, last, after] = match answer.number {
            7 => [
                "check, first frame",
                "check, middle frame",
                "check, last of several",
                "check, no set before it",
            ],
            _ => [
                "form, first frame",
                "form, middle frame",
                "form, last of several",
                "form, no set before it",
            ],
        };
        let ends = place + 1 == frames.len();
        let block = frame::kind(&frames[place]) == frame::BLOCK;
        let (two_rounds, twice) = faults(&frames[..place]);
        self.add_all(
            "blames",
            &[
                (place == 0, first),
                (place > 0 && !ends, middle),
                (place > 0 && ends, last),
                (two_rounds || twice, after),
                (answer.number == 8 && block, "form, a block among blames"),
            ],
        );
    }

    fn stale_set(&mut self, frames: &[Frame], before: &Before) {
        let waited_for = frame::round(&frames[0]) == before.record.round;
        self.add_all(
            "blames",
            &[
                (frames.len() == 1, "stale, one frame"),
                (frames.len() > 1, "stale, several frames"),
                (waited_for, "stale, R"),
                (!waited_for, "stale, older round"),
            ],
        );
    }

    fn early_set(&mut self, frames: &[Frame], before: &Before) {
        self.add_all(
            "blames",
            &[
                (frames.len() > 1, "early, several frames"),
                (before.all_set(frames), "early, all bits set before"),
            ],
        );
    }

    fn no_set(&mut self, frames: &[Frame], before: &Before) {
        let (two_rounds, twice) = faults(frames);
        let early = frame::round(&frames[0]) > before.record.round;
        let many = frames.len() > cards(before.record.f) as usize;
        self.add_all(
            "blames",
            &[
                (!twice, "no set, two rounds alone"),
                (!two_rounds, "no set, a signer twice alone"),
                (two_rounds && twice, "no set, both"),
                (early, "no set, and early"),
                (!early && before.all_set(frames), "no set, and stale"),
                (many, "no set, more frames than cards"),
            ],
        );
    }

    fn taken(&mut self, call: &Call, before: &Before, answer: &Answer) {
        let record = &answer.record;
        let above = record.committed_round > record.tip_round;
        self.above = above.then_some(*record);
        if matches!(call.what, What::Blame(_) | What::Blames(_) | What::Tick) {
            self.commits(call.word(), before, record);
        }
        self.leaders(call, before, answer);
        match &call.what {
            What::Open(_, rotation) => self.open(call.card, rotation, before, answer),
            What::Branch(frames) => self.branch(slots(frames), before, answer),
            What::Blame(frame) => self.blames("blame", slots(frame), before, answer),
            What::Blames(frames) => self.set(slots(frames), before, answer),
            _ => self.tick(before, answer),
        }
    }

    fn open(&mut self, card: usize, rotation: &[u8], before: &Before, answer: &Answer) {
        let leads = answer.frames == 1;
        let other = rotation != seats(&self.rotation, answer.record.f);
        let neighbour = self.neighbours >> card & 1 == 1;
        self.add_all(
            "open",
            &[
                (leads, "taken, leads round 1"),
                (!leads, "taken, does not lead"),
                (other, "taken, not the list's rotation"),
                (other && neighbour, "taken, a neighbour's rotation"),
                (before.record.equivocators != 0, "taken, marks before"),
            ],
        );
    }

    /// Who leads the round before R, if it was entered in this call, and R.
    fn leaders(&mut self, call: &Call, before: &Before, answer: &Answer) {
        let Record { own, f, round, .. } = answer.record;
        let entered = matches!(call.what, What::Open(..)) || round > before.record.round;
        let blames = u8::from(matches!(call.what, What::Tick));
        let put_out = entered && answer.frames > blames;
        let told = answer.leader != NOBODY;
        let reached = [
            told && answer.leader != by_number(round, f),
            put_out && by_number(round - 1, f) != own,
            entered && !put_out && told && by_number(round, f) == own,
        ];
        self.add_all(call.word(), &zip(reached, LEADERS));
    }

    /// What a blame, a set of blames or a tick did to the committed round.
    fn commits(&mut self, call: &'static str, before: &Before, after: &Record) {
        let record = &before.record;
        let grew = after.committed_round > record.committed_round;
        let stored = after.tip_round != record.tip_round;
        let reached = [
            grew && !stored,
            grew && stored,
            grew && !stored && after.round > after.term,
            self.above.is_some(),
            after.committed_round < record.committed_round,
            after.round == record.round && before.another_due,
        ];
        self.add_all(call, &zip(reached, COMMITS));
    }

    fn branch(&mut self, frames: &[Frame], before: &Before, answer: &Answer) {
        let (attach, replaced) = before.attach.expect("a branch that was taken attaches");
        let record = &before.record;
        let (first, last) = (
            frame::round(&frames[0]),
            frame::round(&frames[frames.len() - 1]),
        );
        let gap = |pair: &[Frame]| frame::round(&pair[1]) > frame::round(&pair[0]) + 1;
        let seated = |frame| frame::signer(frame) != by_number(frame::round(frame), record.f);
        self.add_all(
            "branch",
            &[
                (frames.iter().any(seated), "taken, signer not by number"),
                (attach == 0, "taken onto the genesis"),
                (attach > 0, "taken onto a slot"),
                (frames.len() == 1, "taken, one frame"),
                (frames.len() > 1, "taken, several frames"),
                (frames.len() == record.term as usize, "taken, T frames"),
                (frames.len() > 1_000, "taken, over 1,000 frames"),
                (first > attach + 1, "taken, rounds skipped before it"),
                (
                    frames.windows(2).any(gap),
                    "taken, rounds skipped inside it",
                ),
                (replaced, "taken, filled slots replaced"),
                (
                    first <= record.committed_round,
                    "taken, committed frames again",
                ),
                (last > record.round, "taken, ends above R"),
                (last == record.term, "taken, ends in T"),
                (answer.frames == 1, "taken, block put out after"),
                (
                    answer.record.committed_round > record.committed_round,
                    "taken, committed grew",
                ),
            ],
        );
    }

    fn set(&mut self, frames: &[Frame], before: &Before, answer: &Answer) {
        let record = &before.record;
        let bit_set = |frame: &Frame| before.mask & signers(&[*frame]) != 0;
        let grew = answer.record.round > record.round;
        let falls = |pair: &[Frame]| frame::signer(&pair[0]) > frame::signer(&pair[1]);
        self.blames("blames", frames, before, answer);
        self.add_all(
            "blames",
            &[
                (frames.len() == 1, "taken, one frame"),
                (frames.len() > 1, "taken, several frames"),
                (frames.len() == 15, "taken, 15 frames"),
                (frames.windows(2).any(falls), "taken, signers not in order"),
                (bit_set(&frames[0]), "taken, first bit set before"),
                (
                    bit_set(&frames[frames.len() - 1]),
                    "taken, last bit set before",
                ),
                (
                    grew && frames.iter().any(bit_set),
                    "taken, R shown, bits set before",
                ),
                (
                    grew && frames.len() > usize::from(record.f) + 1,
                    "taken, R shown, over f + 1 frames",
                ),
            ],
        );
    }

    /// What a blame, or a set of them, came to.
    fn blames(&mut self, call: &'static str, frames: &[Frame], before: &Before, answer: &Answer) {
        let (record, round) = (&before.record, frame::round(&frames[0]));
        let mask = before.mask | signers(frames);
        let shown_by_it = shown(mask, record.f) && !shown(before.mask, record.f);
        let row = if round < record.round && shown_by_it {
            "taken, older round shown by it"
        } else if round < record.round {
            "taken, older round"
        } else if answer.record.round == record.round {
            "taken, R not shown yet"
        } else if answer.frames == 1 {
            "taken, R shown, block put out"
        } else if record.round == record.term {
            "taken, R shown, term over"
        } else {
            "taken, R shown"
        };
        self.add(call, row);
    }

    fn tick(&mut self, before: &Before, answer: &Answer) {
        let record = &before.record;
        let own = before.mask >> record.own & 1 == 1;
        if own && answer.frames > 0 {
            self.add("tick", "blamed, own bit set before");
        }
        let row = if record.left == 0 {
            "none left"
        } else if answer.frames == 0 {
            "counted down"
        } else if answer.record.round == record.round {
            "blamed, R not shown yet"
        } else if answer.frames == 2 {
            "blamed, R shown, block put out"
        } else if record.round == record.term {
            "blamed, R shown, term over"
        } else {
            "blamed, R shown"
        };
        self.add("tick", row);
    }

    fn part(&mut self, call: &Call, part: &Part) {
        match (part.number, part.length) {
            (0, 0) => self.add("read", "found, no bytes"),
            (0, 400) => self.add("read", "found, 400 bytes"),
            (0, _) => self.add("read", "found"),
            (number, _) => self.refusal(call, number),
        }
    }

    fn fetched(&mut self, call: &Call, before: &Before, fetched: &Fetched) {
        let What::Fetch(height) = call.what else {
            return;
        };
        let mut all = before.line.clone();
        all.retain(|frame| frame.1 > height);
        if fetched.number != 0 {
            self.refusal(call, fetched.number);
            self.refused_fetch(call, height, before, all.is_empty());
            return;
        }
        self.tray(call, before, fetched.count, all.len());
        self.asked_above(height, &before.record);
        all.truncate(fetched.count);
        self.given(&all, before);
    }

    fn refused_fetch(&mut self, call: &Call, height: u32, before: &Before, absent: bool) {
        let (record, out) = (&before.record, call.out_len);
        let bad = !holds(call, record);
        let (short, at) = (out < LEAST_OUT, height.cmp(&record.tip_height));
        let held = !before.line.is_empty();
        let mut rows = vec![
            (bad && short, "record, and short tray"),
            (bad && absent, "record, and absent"),
        ];
        if !bad && short {
            rows.extend([
                (out == 0, "short tray, no bytes"),
                (out == LEAST_OUT - 1, "short tray, 1,023 bytes"),
                (absent, "short tray, and absent"),
            ]);
        }
        if !bad && !short {
            rows.extend([
                (!held, "absent, no frame held"),
                (held, "absent, frames held"),
                (held && at.is_eq(), "absent, at the tip's height"),
                (held && at.is_gt(), "absent, above the tip's height"),
                (height == u32::MAX, "absent, 4,294,967,295"),
            ]);
        }
        self.add_all("fetch", &rows);
    }

    /// How a fetch that was taken fills the out buffer with all frames or a part of them.
    fn tray(&mut self, call: &Call, before: &Before, count: usize, all: usize) {
        let (room, tail) = (call.out_len / SIZE, call.out_len % SIZE);
        let (full, part) = (count == room, count < all);
        self.add_all(
            "fetch",
            &[
                (!full, "all frames, room left"),
                (full && !part, "all frames, tray full"),
                (part, "a part, tray full"),
                (full && room == 2, "tray of 2 frames, full"),
                (full && room == 3, "tray of 3 frames, full"),
                (full && room > 15, "tray of over 15 frames, full"),
                (room > before.record.term as usize, "tray of over T frames"),
                (tail == 1 && !full, "tail of 1 byte, and room left"),
                (
                    tail == 1 && full && !part,
                    "tail of 1 byte, all frames, full",
                ),
                (tail == 1 && part, "tail of 1 byte, a part"),
                (tail == SIZE - 1 && part, "tail of 511 bytes, a part"),
                (
                    (2..SIZE - 1).contains(&tail) && part,
                    "tail of other length, a part",
                ),
            ],
        );
    }

    /// The height of a fetch that was taken.
    fn asked_above(&mut self, height: u32, record: &Record) {
        let (committed, tip) = (record.committed_height, record.tip_height);
        self.add_all(
            "fetch",
            &[
                (height == 0, "above 0"),
                (
                    height == committed && height > 0,
                    "above the committed height",
                ),
                (
                    height.checked_add(1) == Some(tip),
                    "above the tip's height - 1",
                ),
                (height == tip, "above the tip's height"),
                (height > tip, "above more than the tip's height"),
                (height > record.term, "above more than T"),
            ],
        );
    }

    /// Round and height of the frames that a fetch gave.
    fn given(&mut self, given: &[(u32, u32)], before: &Before) {
        let record = &before.record;
        let (Some(&(first, _)), Some(&(last, _))) = (given.first(), given.last()) else {
            return;
        };
        let between = |&&(round, _): &&(u32, u32)| (first..=last).contains(&round);
        let between = before.line.iter().filter(between).count();
        let rounds = (last - first + 1) as usize;
        let mut heights: Vec<u32> = given.iter().map(|frame| frame.1).collect();
        let fall = heights.windows(2).any(|pair| pair[0] > pair[1]);
        heights.sort();
        let twice = heights.windows(2).any(|pair| pair[0] == pair[1]);
        self.add_all(
            "fetch",
            &[
                (
                    first <= record.committed_round,
                    "frames up to the committed round",
                ),
                (
                    last > record.committed_round,
                    "frames above the committed round",
                ),
                (last > record.tip_round, "frames above the tip"),
                (fall, "heights fall"),
                (twice, "a height twice"),
                (between > given.len(), "a frame between not above"),
                (rounds > between, "empty slots between"),
            ],
        );
    }

    /// Counts what was checked of a card that comes back, sound or not, and of the giver.
    pub fn catch_up(&mut self, between: &CatchUp, checked: &Checked, sound: bool) {
        let broken = checked.committed.is_none();
        let reached = [
            checked.pieces == Some(1),
            checked.pieces == Some(2),
            checked.pieces.is_some_and(|pieces| pieces > 2),
            broken,
            broken && checked.shared.is_some(),
        ];
        self.add_all(CATCHING_UP, &zip(reached, FETCHED_ON));
        if let Some(replies) = &checked.committed {
            self.two_cards(between, replies.all);
            self.replies(ALL, &[replies.all]);
            self.replies(FEWER, replies.fewer.as_slice());
            if !sound {
                self.replies(NOT_SOUND, &[replies.all]);
                self.replies(NOT_SOUND, replies.fewer.as_slice());
            }
        }
        let committed = between.taker().record.committed_round;
        if let Some(replies) = checked.shared.filter(|replies| replies.start > committed) {
            self.replies(SHARED, &[replies.all]);
            self.replies(SHARED, replies.fewer.as_slice());
        }
    }

    /// Counts what was checked of frames above what a card had committed, if it has committed more.
    pub fn catch_up_by_earlier(&mut self, between: &CatchUp, had: &Record, replies: &Replies) {
        let (record, first) = (&between.taker().record, frame::round(&between.frames()[0]));
        if had.committed_round == record.committed_round {
            return;
        }
        self.replies(EARLIER, &[replies.all]);
        self.replies(EARLIER, replies.fewer.as_slice());
        let (taken, stands) = (replies.all == Reply::Taken, between.stands());
        let reached = [
            taken && !stands,
            replies.all == Reply::Stale && !stands,
            taken && first < record.committed_round,
            taken && had.tip_round == record.tip_round,
        ];
        self.add_all(EARLIER, &zip(reached, SINCE));
    }

    fn two_cards(&mut self, between: &CatchUp, reply: Reply) {
        let (taker, giver) = (&between.taker().record, &between.giver().record);
        let (held, frames) = (between.held(), between.frames());
        let holds_some = held.first() == frames.first();
        let (stale, taken) = (reply == Reply::Stale, reply == Reply::Taken);
        let at = giver.round.cmp(&taker.round);
        let reached = [
            at.is_lt(),
            at.is_eq(),
            at.is_gt(),
            stale && at.is_gt(),
            stale && !between.attaches(),
            holds_some,
            taken && !holds_some && !held.is_empty(),
            taken && taker.committed_round == 0,
        ];
        self.add_all(CATCHING_UP, &zip(reached, TWO_CARDS));
    }

    fn replies(&mut self, group: &'static str, replies: &[Reply]) {
        let [term_over, stale, unshown, split, taken] = REPLIES;
        for reply in replies {
            let row = match reply {
                Reply::TermOver => term_over,
                Reply::Stale => stale,
                Reply::Unshown(_) => unshown,
                Reply::Split(_) => split,
                Reply::Taken => taken,
            };
            self.add(group, row);
        }
    }

    /// Counts the searches after a call at a card; the claims are about the first.
    pub fn searches(&mut self, searched: &[Searched], side: &Side) {
        for searched in searched {
            self.search(searched, side);
            self.due = false;
        }
    }

    fn search(&mut self, searched: &Searched, side: &Side) {
        let Searched { slots, limit, .. } = *searched;
        let Search { round, slots_read } = searched.answer;
        let (found, skipped) = (round > 0, limit - round);
        let top = slots.min(limit as usize);
        let passed_over = || (round + 1..=top as u32).map(|round| frame::kind(side.slot(round)));
        self.add_all(
            "search",
            &[
                (limit == 0, "no round allowed"),
                (found && skipped == 0, "found at the limit"),
                (found && skipped == 1, "found, 1 round skipped"),
                (found && skipped > 1, "found, 2 or more rounds skipped"),
                (limit > 0 && !found, "none filled"),
                (limit as usize > slots, "limit above the log"),
                (
                    slots_read == u32::from(side.record.f) + 1,
                    "f + 1 slots read",
                ),
                (
                    passed_over().any(|kind| kind == frame::BLAME),
                    "kind 2 passed over",
                ),
                (
                    passed_over().any(|kind| kind > frame::BLAME),
                    "another kind passed over",
                ),
            ],
        );
    }

    pub fn rows(&self) -> &[Row] {
        &self.rows
    }

    pub fn count(&self, row: &Row) -> u64 {
        self.counts.get(row).copied().unwrap_or(0)
    }

    /// Rows that were never reached.
    pub fn gaps(&self) -> Vec<Row> {
        let gaps = self.rows.iter().filter(|row| self.count(row) == 0);
        gaps.copied().collect()
    }

    /// The table, a line a row.
    pub fn table(&self) -> String {
        let line = |row: &Row| format!("{:<26} {:<34} {:>9}\n", row.0, row.1, self.count(row));
        self.rows.iter().map(line).collect()
    }
}
