//! Libraries with a slip in them: the lists have to find each, and shrink what they found. A module holds the slips of a call or of a
//! subject; those that the paper names are listed here, the others there.

mod answers;
mod blame;
mod blames;
mod both_sides;
mod branch;
mod commit;
mod common;
mod equivocation;
mod fetch;
mod fours;
mod marks;
mod rotation;
mod search;

use beside::coverage::Coverage;
use beside::drive::{replay, run, shrink, Failure};
use beside::lists::Sizes;
use beside::replaced::Replaced;

use crate::answers::{
    blames_on_the_first_tick, leaves_the_book, same_result_always, says_two_writes_none,
    term_over_early,
};
use crate::blame::{counts_a_blame_twice, puts_out_again, shows_with_f};
use crate::branch::{
    keeps_old_slots, refuses_committed_frames, refuses_every_frame, zeroes_before_judging,
};
use crate::commit::{commits_by_heights, commits_nothing, commits_one_round_early};
use crate::common::Slip;
use crate::fetch::{fetch_none, read_absent};
use crate::search::SEARCH_SLIPS;

/// Slips and worthless cards that the paper names.
fn named_slips() -> Vec<Slip> {
    let machine = Replaced::machine;
    vec![
        ("commits one round early", machine(commits_one_round_early)),
        ("commits by heights", machine(commits_by_heights)),
        ("counts a blame twice", machine(counts_a_blame_twice)),
        ("shows a round with f", machine(shows_with_f)),
        ("zeroes before judging", machine(zeroes_before_judging)),
        ("keeps old slots", machine(keeps_old_slots)),
        (
            "refuses committed frames",
            machine(refuses_committed_frames),
        ),
        ("puts a block out again", machine(puts_out_again)),
        ("commits nothing", machine(commits_nothing)),
        ("refuses every frame", machine(refuses_every_frame)),
        ("leaves the book", machine(leaves_the_book)),
        ("same result always", machine(same_result_always)),
        (
            "blames on the first tick",
            machine(blames_on_the_first_tick),
        ),
        ("term over early", machine(term_over_early)),
        ("says two, writes none", machine(says_two_writes_none)),
        ("read absent", Replaced::read(read_absent)),
        ("fetch none", Replaced::fetch(fetch_none)),
    ]
}

/// The first list that finds a slip.
fn find(name: &str, library: &Replaced) -> Box<Failure> {
    let list = |seed| run(library, seed, Sizes::All, &mut Coverage::new()).err();
    let found = (1..=300).find_map(list);
    found.unwrap_or_else(|| panic!("not found: {name}"))
}

/// Every slip, and what the message begins with that finds it.
fn slips() -> impl Iterator<Item = (&'static str, Replaced, &'static str)> {
    let slips = [
        named_slips(),
        answers::slips(),
        branch::slips(),
        blame::slips(),
        blames::slips(),
        commit::slips(),
        rotation::slips(),
        fetch::slips(),
        fours::slips(),
        fours::order_slips(),
        equivocation::slips(),
        equivocation::order_slips(),
        marks::slips(),
    ];
    let slips = slips.into_iter().flatten();
    let slips = slips.map(|(name, library)| (name, library, ""));
    let searches =
        SEARCH_SLIPS.map(|(name, search, ..)| (name, Replaced::search(search), "search in "));
    slips.chain(searches)
}

#[test]
fn every_slip_is_found_and_shrunk() {
    for (name, library, told) in slips() {
        let failure = find(name, &library);
        assert!(
            failure.message.starts_with(told),
            "{name}: {}",
            failure.message
        );
        let short = shrink(&library, &failure);
        let steps = short.list.steps.len();
        println!(
            "{name}: {} steps, shrunk to {steps}",
            failure.list.steps.len()
        );
        let (last, message) = replay(&library, &short.list).expect_err(name);
        assert_eq!((last + 1, &message), (steps, &short.message), "{name}");
        let most = 10 + usize::from(short.list.head.f.max(2));
        assert!(steps <= most, "{name}: still {steps} steps\n{}", short.list);
        assert!(!short.list.to_string().is_empty());
    }
}
