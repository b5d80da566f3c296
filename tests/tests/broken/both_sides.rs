//! Slips on both sides, where only the claims can find them.

use beside::coverage::Coverage;
use beside::drive::{run_on, Failure};
use beside::lists::{Maker, Sizes};
use beside::replaced::{Equivocation, Fetch, Machine, Replaced};
use beside::runner::Runner;

use crate::blame::shows_with_f;
use crate::blames::{takes_stale_sets, waits_for_its_own_round};
use crate::branch::{
    loose_above_the_committed_block, loose_below_the_committed_block, loose_on_the_committed_block,
    place_of_the_wrong_round, takes_unshown_rounds, undoes, undone_on_the_committed_block,
};
use crate::commit::{
    commits_by_the_tip, commits_nothing, commits_nothing_at_the_end, commits_one_round_early,
};
use crate::equivocation::{
    compares_signers_for_rounds, marks_by_standing_marks, marks_by_turns, marks_itself,
    marks_one_at_most, marks_the_leader_of_r, marks_the_seat, refuses_standing_marks,
    takes_a_pair_of_two_rounds, takes_equal_names,
};
use crate::fetch::{
    fetch_above_a_round, fetch_committed, fetch_from_as_many_slots, fetch_highest_first,
    fetch_of_the_height_too, fetch_one_fewer,
};
use crate::marks::{
    blame_clears_marks, branch_clears_marks, fetch_without_marked, marks_the_blamed, opens_marked,
    passes_over_marked_leaders, read_without_marks, refusals_lose_marks, refuses_marked_leaders,
    set_clears_marks, tick_clears_marks, waits_less_for_marked_leaders,
};
use crate::rotation::{leads_by_number, tells_from_its_own_seat, tells_the_first_seat};
use crate::search::{
    begins_one_below, counts_down_to_round_1, counts_one_slot_more, gives_the_lowest, walks_up,
};

/// The lists that fail with a slip on both sides, where only the claims can find it.
fn failures(library: &Replaced, rules: bool) -> impl Iterator<Item = Box<Failure>> + '_ {
    (1..=600).filter_map(move |seed| {
        let maker = Maker::new(seed, Sizes::All);
        let mut runner = Runner::beside(library, library, &maker.head().clone());
        if !rules {
            runner.claims.rules = None;
        }
        run_on(runner, maker, &mut Coverage::new()).err()
    })
}

/// The claims find a slip, with a part of what they say in one of so many first lists that fail.
fn claims_find(name: &str, library: &Replaced, rules: bool, lists: usize, part: &str) {
    let found = failures(library, rules).take(lists).any(|failure| {
        println!("{name}: {}", failure.message);
        assert!(failure.message.starts_with("claim:"), "{}", failure.message);
        failure.message.contains(part)
    });
    assert!(found, "not found: {name}");
}

#[test]
fn claims_find_slips_on_both_sides() {
    let machine = Replaced::machine;
    let other = "than its R gives";
    let slips = [
        ("one round early", machine(commits_one_round_early), other),
        ("by the tip", machine(commits_by_the_tip), other),
        (
            "not at R = T + 1",
            machine(commits_nothing_at_the_end),
            other,
        ),
        (
            "takes stale sets",
            machine(takes_stale_sets),
            "blames of one frame",
        ),
        ("undoes committed slots", machine(undoes), "shrank"),
        (
            "waits for its own round",
            machine(waits_for_its_own_round),
            "answered 2",
        ),
        (
            "first seat told",
            machine(tells_the_first_seat),
            "as the leader of rounds",
        ),
    ];
    for (name, library, part) in slips {
        claims_find(name, &library, true, 1, part);
    }
}

#[test]
fn claims_find_slips_of_the_search_on_both_sides() {
    let search = Replaced::search;
    let many = "shown rounds in a row";
    let slips = [
        ("one slot more", search(counts_one_slot_more), many),
        (
            "counts down to round 1",
            search(counts_down_to_round_1),
            many,
        ),
        ("walks up", search(walks_up), many),
        (
            "gives the lowest",
            search(gives_the_lowest),
            "committed is round",
        ),
        (
            "begins one below",
            search(begins_one_below),
            "committed is round",
        ),
    ];
    for (name, library, part) in slips {
        claims_find(name, &library, true, 1, part);
    }
}

/// The claim about the leaders of rounds in a row finds it, too, and may be the first to do so.
#[test]
fn two_leaders_of_a_round_are_found_on_both_sides() {
    let library = Replaced::machine(tells_from_its_own_seat);
    let name = "seats told from the own one";
    claims_find(name, &library, true, 2, "were told of round");
}

/// The claims about sound cards find these by themselves.
#[test]
fn claims_about_sound_cards_find_slips_on_both_sides() {
    let (machine, search) = (Replaced::machine, Replaced::search);
    let many = "more than f + 1";
    let slips = [
        ("commits nothing", machine(commits_nothing), "only"),
        (
            "one round early",
            machine(commits_one_round_early),
            "parts from another's",
        ),
        ("shows a round with f", machine(shows_with_f), ""),
        ("takes unshown rounds", machine(takes_unshown_rounds), ""),
        ("leads by number", machine(leads_by_number), ""),
        ("by the tip", machine(commits_by_the_tip), "as another has"),
        (
            "not at R = T + 1",
            machine(commits_nothing_at_the_end),
            "as another has",
        ),
        ("one slot more", search(counts_one_slot_more), many),
        (
            "counts down to round 1",
            search(counts_down_to_round_1),
            many,
        ),
        ("walks up", search(walks_up), many),
        ("gives the lowest", search(gives_the_lowest), many),
    ];
    for (name, library, part) in slips {
        claims_find(name, &library, false, 1, part);
    }
}

/// The claims about a card that comes back find these, those about fetching on whoever lies.
#[test]
fn catching_up_finds_slips_on_both_sides() {
    let fetches: [(&str, Fetch); 6] = [
        ("one fewer than fit", fetch_one_fewer),
        ("highest rounds first", fetch_highest_first),
        ("committed frames alone", fetch_committed),
        ("frames of the height too", fetch_of_the_height_too),
        ("height taken for a round", fetch_above_a_round),
        ("room counted in slots", fetch_from_as_many_slots),
    ];
    for (name, fetch) in fetches {
        claims_find(name, &Replaced::fetch(fetch), true, 1, "fetching on");
    }
    let machines: [(&str, Machine, &str); 2] = [
        ("11", loose_on_the_committed_block, "answered (11, 0), not "),
        ("wrong place", place_of_the_wrong_round, "answered (13, "),
    ];
    for (name, machine, part) in machines {
        claims_find(name, &Replaced::machine(machine), false, 1, part);
    }
}

/// Another claim finds the 12 that sound cards answer in the lists; here a card that comes back is the
/// first to answer it.
#[test]
fn catching_up_finds_12_by_itself() {
    let library = Replaced::machine(undone_on_the_committed_block);
    let own = |failure: &Failure| failure.message.contains("answered (12, 0), not ");
    let found = failures(&library, false).take(20).find(|f| own(f));
    assert!(found.is_some());
}

/// A run on the committed block does not show this, nor does any claim about sound cards.
#[test]
fn runs_on_shared_blocks_find_slips_by_themselves() {
    let library = Replaced::machine(loose_above_the_committed_block);
    claims_find("11", &library, true, 1, "above the shared block of round");
    assert!(failures(&library, false).next().is_none());
}

/// What a card has for another now does not show this, nor does any claim about sound cards.
#[test]
fn what_was_fetched_earlier_finds_slips_by_itself() {
    let library = Replaced::machine(loose_below_the_committed_block);
    for rules in [true, false] {
        claims_find("11", &library, rules, 1, "up to which it had committed");
    }
}

/// Whoever is sound, and with no claim about every card.
#[test]
fn marks_of_sound_cards_are_found_on_both_sides() {
    let slips: [(&str, Equivocation); 6] = [
        ("equal names, taken", takes_equal_names),
        ("two rounds, taken", takes_a_pair_of_two_rounds),
        ("signers for rounds", compares_signers_for_rounds),
        ("seat marked", marks_the_seat),
        ("leader of R marked", marks_the_leader_of_r),
        ("own number marked", marks_itself),
    ];
    for (name, slip) in slips {
        let library = Replaced::equivocation(slip);
        claims_find(name, &library, false, 1, "claim: sound card ");
    }
}

#[test]
fn marks_that_calls_change_are_found_on_both_sides() {
    let pairs: [(&str, Equivocation); 2] = [
        ("mark taken back", marks_by_turns),
        ("one mark at most", marks_one_at_most),
    ];
    for (name, slip) in pairs {
        let library = Replaced::equivocation(slip);
        claims_find(name, &library, false, 1, "equivocation made the marks");
    }
    let machines: [(&str, Machine, &str); 6] = [
        ("opened with a mark", opens_marked, "open made"),
        ("cleared by a branch", branch_clears_marks, "branch made"),
        ("cleared by a set", set_clears_marks, "blames made"),
        ("cleared by a tick", tick_clears_marks, "tick made"),
        ("leaders passed over marked", marks_the_blamed, " made"),
        ("lost by refusals", refusals_lose_marks, " made"),
    ];
    for (name, slip, part) in machines {
        claims_find(name, &Replaced::machine(slip), false, 1, part);
    }
    // A set of one frame, that is compared with blame, may be the first to find it.
    let library = Replaced::machine(blame_clears_marks);
    claims_find("cleared by a blame", &library, false, 2, "blame made");
}

#[test]
fn what_else_marks_change_is_found_on_both_sides() {
    let machine = Replaced::machine;
    let slips = [
        ("refused", Replaced::equivocation(refuses_standing_marks)),
        ("another", Replaced::equivocation(marks_by_standing_marks)),
        ("leaders refused", machine(refuses_marked_leaders)),
        ("leaders passed over", machine(passes_over_marked_leaders)),
        ("shorter wait", machine(waits_less_for_marked_leaders)),
        ("no read", Replaced::read(read_without_marks)),
        ("no fetch", Replaced::fetch(fetch_without_marked)),
    ];
    for (name, library) in slips {
        claims_find(name, &library, false, 1, "differs in more than these marks");
    }
}
