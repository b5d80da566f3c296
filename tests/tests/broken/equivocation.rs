//! Slips of equivocation.

use beside::frame::{self, Frame, SIZE};
use beside::model::{self, slots, Marked, Record};
use beside::replaced::{Equivocation, Replaced};

use crate::common::{below_n, bit, leader, with_marks, Slip};

/// The two frames that equivocation is handed, if it is lent two.
fn two(frames: &[u8]) -> Option<[Frame; 2]> {
    let whole = frames.len() == 2 * SIZE;
    slots(frames).try_into().ok().filter(|_| whole)
}

fn refused_pair(number: u8, place: u32, record: Record) -> Marked {
    Marked {
        number,
        place,
        record,
    }
}

fn taken_with(record: Record, equivocators: u16) -> Marked {
    let record = Record {
        equivocators,
        ..record
    };
    refused_pair(0, 0, record)
}

/// Gives other marks, by the record handed in and the first frame, where the model marks a card.
fn remark(record: Record, frames: &[u8], marks: fn(&Record, &Frame) -> u16) -> Marked {
    let marked = model::equivocation(record, frames);
    match (marked.number, two(frames)) {
        (0, Some([first, _])) => taken_with(record, marks(&record, &first)),
        _ => marked,
    }
}

pub fn marks_the_seat(record: Record, frames: &[u8]) -> Marked {
    remark(record, frames, |record, first| {
        let seat = (frame::round(first) - 1) % model::cards(record.f);
        record.equivocators | 1 << seat
    })
}

pub fn marks_itself(record: Record, frames: &[u8]) -> Marked {
    remark(record, frames, |record, _| {
        record.equivocators | bit(record.own)
    })
}

pub fn marks_by_turns(record: Record, frames: &[u8]) -> Marked {
    remark(record, frames, |record, first| {
        record.equivocators ^ bit(frame::signer(first))
    })
}

pub fn marks_the_leader_of_r(record: Record, frames: &[u8]) -> Marked {
    remark(record, frames, |record, _| {
        record.equivocators | bit(leader(record.round, record))
    })
}

/// Marks the card after the leader if some mark stands.
pub fn marks_by_standing_marks(record: Record, frames: &[u8]) -> Marked {
    remark(record, frames, |record, first| {
        let card = u32::from(frame::signer(first));
        let marked = match record.equivocators {
            0 => card,
            _ => (card + 1) % model::cards(record.f),
        };
        record.equivocators | 1 << marked
    })
}

fn marks_nobody(record: Record, frames: &[u8]) -> Marked {
    remark(record, frames, |record, _| record.equivocators)
}

pub fn marks_one_at_most(record: Record, frames: &[u8]) -> Marked {
    remark(record, frames, |_, first| bit(frame::signer(first)))
}

/// Says 18 where the model marks a card and the slip finds the frames alike.
fn alike(record: Record, frames: &[u8], alike: fn(&Record, &[Frame; 2]) -> bool) -> Marked {
    let marked = model::equivocation(record, frames);
    match (marked.number, two(frames)) {
        (0, Some(pair)) if alike(&record, &pair) => refused_pair(18, 0, record),
        _ => marked,
    }
}

pub fn refuses_standing_marks(record: Record, frames: &[u8]) -> Marked {
    alike(record, frames, |record, pair| {
        record.equivocators & bit(frame::signer(&pair[0])) != 0
    })
}

/// Takes two blocks of rounds up to R alone.
fn refuses_rounds_above_r(record: Record, frames: &[u8]) -> Marked {
    alike(record, frames, |record, pair| {
        frame::round(&pair[0]) > record.round
    })
}

fn compares_rounds_with_r(record: Record, frames: &[u8]) -> Marked {
    alike(record, frames, |record, pair| {
        frame::round(&pair[0]) != record.round
    })
}

fn compares_heights(record: Record, frames: &[u8]) -> Marked {
    alike(record, frames, |_, [first, second]| {
        frame::height(first) != frame::height(second)
    })
}

fn compares_parents(record: Record, frames: &[u8]) -> Marked {
    alike(record, frames, |_, [first, second]| {
        frame::parent(first) == frame::parent(second)
    })
}

fn compares_entries(record: Record, frames: &[u8]) -> Marked {
    alike(record, frames, |_, [first, second]| {
        first[frame::ENTRY_AT..480] == second[frame::ENTRY_AT..480]
    })
}

fn compares_first_bytes_of_names(record: Record, frames: &[u8]) -> Marked {
    alike(record, frames, |_, [first, second]| {
        frame::name(first)[0] == frame::name(second)[0]
    })
}

/// Marks the first frame's leader where the model says 18 and the slip passes the frames.
fn passes_18(record: Record, frames: &[u8], passes: fn(&[Frame; 2]) -> bool) -> Marked {
    let marked = model::equivocation(record, frames);
    match (marked.number, two(frames)) {
        (18, Some(pair)) if passes(&pair) => {
            let marks = record.equivocators | bit(frame::signer(&pair[0]));
            taken_with(record, marks)
        }
        _ => marked,
    }
}

pub fn takes_equal_names(record: Record, frames: &[u8]) -> Marked {
    passes_18(record, frames, |[first, second]| first == second)
}

pub fn takes_a_pair_of_two_rounds(record: Record, frames: &[u8]) -> Marked {
    passes_18(record, frames, |[first, second]| first != second)
}

pub fn compares_signers_for_rounds(record: Record, frames: &[u8]) -> Marked {
    passes_18(record, frames, |[first, second]| {
        first != second && frame::signer(first) == frame::signer(second)
    })
}

fn marks_though_refused(record: Record, frames: &[u8]) -> Marked {
    let taken = passes_18(record, frames, |_| true);
    match model::equivocation(record, frames).number {
        18 => refused_pair(18, 0, taken.record),
        _ => taken,
    }
}

/// The model's answer with a field of one frame made right, where it says 8 to that frame.
fn unjudged(record: Record, frames: &[u8], at: usize, mend: fn(&Record, &mut Frame)) -> Marked {
    let marked = model::equivocation(record, frames);
    match ((marked.number, marked.place), two(frames)) {
        ((8, place), Some(mut pair)) if place as usize == at && frame::round(&pair[at]) > 0 => {
            mend(&record, &mut pair[at]);
            frame::seal(&mut pair[at]);
            model::equivocation(record, pair.as_flattened())
        }
        _ => marked,
    }
}

fn resign(record: &Record, frame: &mut Frame) {
    frame[1] = leader(frame::round(frame), record);
}

/// And marks whoever signed it.
fn first_signer_unjudged(record: Record, frames: &[u8]) -> Marked {
    let marked = unjudged(record, frames, 0, resign);
    match (marked.number, two(frames)) {
        (0, Some([first, _])) => {
            let marks = record.equivocators | bit(frame::signer(&first));
            taken_with(record, marks)
        }
        _ => Marked { record, ..marked },
    }
}

/// As if the first frame's were enough.
fn second_signer_unjudged(record: Record, frames: &[u8]) -> Marked {
    unjudged(record, frames, 1, resign)
}

fn second_kind_unjudged(record: Record, frames: &[u8]) -> Marked {
    unjudged(record, frames, 1, |_, frame| frame[0] = frame::BLOCK)
}

/// Number and place.
type Told = (u8, u32);

/// Another refusal than the one told, for a record and frames.
type Other = fn(&Record, &[u8], Told) -> Option<Told>;

/// Gives another refusal where the slip says so.
fn instead(record: Record, frames: &[u8], other: Other) -> Marked {
    let marked = model::equivocation(record, frames);
    match other(&record, frames, (marked.number, marked.place)) {
        Some((number, place)) => refused_pair(number, place, record),
        None => marked,
    }
}

fn cut_before_record(record: Record, frames: &[u8]) -> Marked {
    instead(record, frames, |_, frames, (number, _)| {
        (number == 2 && frames.len() != 2 * SIZE).then_some((6, 0))
    })
}

fn over_after_the_term(record: Record, frames: &[u8]) -> Marked {
    instead(record, frames, |record, _, (number, _)| {
        (number != 2 && record.round > record.term).then_some((3, 0))
    })
}

/// The second frame's fault comes first.
fn second_before_first(record: Record, frames: &[u8]) -> Marked {
    instead(record, frames, |record, frames, told| {
        let (7 | 8, 0) = told else {
            return None;
        };
        let [_, second] = two(frames)?;
        let judged = model::equivocation(*record, [second, second].as_flattened());
        matches!(judged.number, 7 | 8).then_some((judged.number, 1))
    })
}

/// 7 of both frames, then 8 of both.
fn checks_before_forms(record: Record, frames: &[u8]) -> Marked {
    instead(record, frames, |_, frames, told| {
        match (told, two(frames)) {
            ((8, 0), Some([_, second])) if !frame::check_is_right(&second) => Some((7, 1)),
            _ => None,
        }
    })
}

fn form_before_check(record: Record, frames: &[u8]) -> Marked {
    instead(record, frames, |record, frames, (number, place)| {
        let mut frame = two(frames)?[place as usize];
        frame::seal(&mut frame);
        let judged = model::equivocation(*record, [frame, frame].as_flattened());
        (number == 7 && judged.number == 8).then_some((8, place))
    })
}

/// Whether frames would be 18 as they stand.
fn is_no_double([first, second]: &[Frame; 2]) -> bool {
    frame::name(first) == frame::name(second) || frame::round(first) != frame::round(second)
}

fn no_double_before_form(record: Record, frames: &[u8]) -> Marked {
    instead(record, frames, |_, frames, told| {
        (told == (8, 1) && two(frames).is_some_and(|pair| is_no_double(&pair))).then_some((18, 0))
    })
}

fn no_double_before_check(record: Record, frames: &[u8]) -> Marked {
    instead(record, frames, |_, frames, told| {
        (told == (7, 1) && two(frames).is_some_and(|pair| is_no_double(&pair))).then_some((18, 0))
    })
}

/// Of the bytes that the check covers; the check itself is not looked at.
fn equal_bytes_before_check(record: Record, frames: &[u8]) -> Marked {
    instead(record, frames, |_, frames, (number, _)| {
        let [first, second] = two(frames)?;
        (number == 7 && first[..480] == second[..480]).then_some((18, 0))
    })
}

fn first_place_of_a_pair(record: Record, frames: &[u8]) -> Marked {
    instead(record, frames, |_, _, (number, place)| {
        (place == 1).then_some((number, 0))
    })
}

fn place_of_the_second_for_18(record: Record, frames: &[u8]) -> Marked {
    instead(record, frames, |_, _, (number, _)| {
        (number == 18).then_some((18, 1))
    })
}

fn one_frame_is_no_double(record: Record, frames: &[u8]) -> Marked {
    instead(record, frames, |_, frames, (number, _)| {
        (number == 6 && frames.len() == SIZE).then_some((18, 0))
    })
}

/// Takes the first two of more frames.
fn takes_more_frames(record: Record, frames: &[u8]) -> Marked {
    match frames.len() {
        0..=1024 => model::equivocation(record, frames),
        _ => model::equivocation(record, &frames[..2 * SIZE]),
    }
}

/// Looks at f, T, rotation and marks alone.
fn leaves_out_r_and_ticks(record: Record, frames: &[u8]) -> Marked {
    let known = (1..=model::MOST_F).contains(&record.f);
    let led = record.rotation[0];
    let looked_at = Record {
        own: if known && led == 0 { 1 } else { 0 },
        wait: 1,
        round: 1,
        left: 1,
        tip_round: 0,
        tip_height: 0,
        committed_round: 0,
        committed_height: 0,
        ..record
    };
    let marked = model::equivocation(looked_at, frames);
    Marked {
        record: Record {
            equivocators: marked.record.equivocators,
            ..record
        },
        ..marked
    }
}

fn gives_back_nothing(record: Record, frames: &[u8]) -> Marked {
    let marked = model::equivocation(record, frames);
    match marked.number {
        0 => marked,
        number => refused_pair(number, marked.place, Record::default()),
    }
}

fn pair_with_any_marks(record: Record, frames: &[u8]) -> Marked {
    let below = below_n(&record);
    let mut marked = model::equivocation(with_marks(record, below), frames);
    marked.record.equivocators |= record.equivocators;
    marked
}

/// The model with another equivocation for each slip.
pub fn pairs(slips: &[(&'static str, Equivocation)]) -> Vec<Slip> {
    let broken = |&(name, slip)| (name, Replaced::equivocation(slip));
    slips.iter().map(broken).collect()
}

/// Who is marked, and what is compared.
pub fn slips() -> Vec<Slip> {
    pairs(&[
        ("seat marked", marks_the_seat),
        ("leader of R marked", marks_the_leader_of_r),
        ("own number marked", marks_itself),
        ("mark taken back", marks_by_turns),
        ("another marked by marks", marks_by_standing_marks),
        ("nobody marked", marks_nobody),
        ("one mark at most", marks_one_at_most),
        ("marked though refused", marks_though_refused),
        ("marked already, refused", refuses_standing_marks),
        ("rounds above R refused", refuses_rounds_above_r),
        ("rounds compared with R", compares_rounds_with_r),
        ("heights compared", compares_heights),
        ("parents compared", compares_parents),
        ("entries compared", compares_entries),
        ("first bytes of names", compares_first_bytes_of_names),
        ("signers for rounds", compares_signers_for_rounds),
        ("equal names, taken", takes_equal_names),
        ("pair of two rounds, taken", takes_a_pair_of_two_rounds),
        ("first signer unjudged", first_signer_unjudged),
        ("second signer unjudged", second_signer_unjudged),
        ("second kind unjudged", second_kind_unjudged),
        ("R and ticks unjudged", leaves_out_r_and_ticks),
        ("any marks, equivocation", pair_with_any_marks),
    ])
}

/// The refusals, their order and their places.
pub fn order_slips() -> Vec<Slip> {
    pairs(&[
        ("6 before 2", cut_before_record),
        ("3 at R = T + 1", over_after_the_term),
        ("second before first", second_before_first),
        ("7 of both before 8", checks_before_forms),
        ("8 before 7", form_before_check),
        ("18 before 8 of the second", no_double_before_form),
        ("18 before 7 of the second", no_double_before_check),
        ("equal bytes before 7", equal_bytes_before_check),
        ("place of the second 0", first_place_of_a_pair),
        ("18 with place 1", place_of_the_second_for_18),
        ("one frame, 18", one_frame_is_no_double),
        ("more frames, taken", takes_more_frames),
        ("record not given back", gives_back_nothing),
    ])
}
