//! Demand 3 on random machines, and that the trial can fail.

use oracle::demand3::{off_row, trial, Break, Figures, Terms, Whose};
use oracle::ways::{Condition, CONDITIONS};

const README: &str = include_str!("../README.md");

/// No pair breaks the claim, and the lists are not idle.
#[test]
fn the_claim_holds() {
    let f = trial(86, 2000, &Terms::CLAIM);
    assert_eq!((f.broken(), &f.first_break), (0, &None));
    let accepted = f.group[0] + f.group[1];
    assert!(f.group[0] > 60_000 && f.others[0] > 40_000, "{}", f.print());
    assert!(accepted > 5 * f.group[2] && f.group[1] > 500, "{}", f.print());
    assert!(f.kinds.iter().all(|&n| n > 5_000), "{}", f.print());
    assert!([5, 6, 8, 9].iter().all(|&n| f.refused[n] > 20), "{}", f.print());
    // Refusals count on both sides, also where the count is at its largest; none in the header.
    assert_eq!((f.group_counted, f.other_counted), (f.group[2], f.others[2]));
    assert!(f.at_the_largest > 1_000 && f.counts_differ > 1_000, "{}", f.print());
    // No entry, instruction or datum of either side lies outside memory, and no port is reached.
    assert_eq!((f.refused[4], f.refused[7], f.refused[10], f.header_changed), (0, 0, 0, 0));
    assert!(f.group_stores_left > 8_000 && f.other_stores_left > 5_000 && f.cas_wrote > 1_000, "{}", f.print());
    assert!(f.group_accessed_set > 2_000 && f.other_accessed_set > 1_500, "{}", f.print());
    assert!(f.cores_differ > 400 && f.pages_differ > 1_000 && f.idle_cores > 500, "{}", f.print());
    assert!(f.rest_empty_in_both > 100 && f.page_in_common > 1_000, "{}", f.print());
    assert!((1..6).all(|level| f.levels[level] > 20), "{}", f.print());
    assert!(README.contains(&f.print()), "figures in README.md:\n{}", f.print());
}

fn off(condition: Condition, pairs: u64, tables: bool) -> Figures {
    trial(86, pairs, &Terms { off: Some(condition), tables, ..Terms::CLAIM })
}

fn breaks(f: &Figures, kinds: &[Break]) -> u64 {
    kinds.iter().map(|&kind| f.breaks[kind as usize]).sum()
}

/// With one condition of apart switched off the claim breaks, but for two
/// conditions that steps of kinds 0 to 4 cannot make use of:
///
/// - A group core that does not run may not be named in a list. Its block
///   changes by its own steps alone, and the pages it reaches are in the map.
/// - What the rest reaches beyond memory has no bytes: such accesses are
///   refused, or go to the header or the rest's own blocks by way of ports.
///
/// The other seven are needed for what the group observes too, and not only
/// for the bytes of tables.
#[test]
fn each_condition_is_needed() {
    use Break::*;
    use Condition::*;
    for (condition, text) in CONDITIONS {
        let f = off(condition, 300, true);
        let past = off(condition, 600, false);
        match condition {
            GroupStopped => assert_eq!(f.broken() + past.broken(), 0, "{text}: {}", f.print()),
            RestBeyond => {
                assert_eq!(f.broken() + past.broken(), 0, "{text}: {}", f.print());
                assert!(f.header_changed > 10 && f.refused[7] > 10, "{}", f.print());
            }
            _ => {
                assert!(f.broken() > 10, "{text}: {}", f.print());
                assert!(breaks(&past, &[Answer, Block, Page]) > 0, "{text}: {}", past.print());
            }
        }
        let row = off_row(condition, &f, &past);
        assert!(README.contains(&row), "row in README.md:\n{row}");
    }
}

/// Where refusals of other cores count in a core of the group, the claim
/// breaks: the group's own state includes its words 115.
#[test]
fn others_refusals_do_not_show() {
    let turns: [(&str, Whose); 3] = [
        ("a core of the group counts what others are refused", |group, _, core| match group >> core & 1 {
            0 => group.trailing_zeros() as usize,
            _ => core,
        }),
        ("the next core counts", |_, cores, core| (core + 1) % cores),
        ("core 0 counts all", |_, _, _| 0),
    ];
    for (name, whose) in turns {
        let f = trial(86, 300, &Terms { whose, ..Terms::CLAIM });
        assert!(f.broken() > 40, "{name}: {}", f.print());
        assert_eq!(f.broken(), breaks(&f, &[Break::Block]), "{name}: {}", f.print());
        println!("{name}: {} of {} pairs", f.broken(), f.pairs);
    }
}
