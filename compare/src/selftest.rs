//! The self-test: the comparison has to find each deliberate fault of the
//! model within the stated number of sheets (and as many damaged files).

use crate::check::Difference;
use crate::examine::Examiner;
use crate::faulty::listed::{all, AGAINST_LABELLING, AGAINST_MEANING};
use crate::faulty::listed_canonical::{AGAINST_AGAIN, AGAINST_READER};
use crate::faulty::listed_canonical::{AGAINST_CANONICAL_PAIRS, AGAINST_CANONICAL_RUNS};
use crate::faulty::listed_giving::AGAINST_KEPT;
use crate::faulty::listed_hirer::{AGAINST_CLOSED, AGAINST_OWNER};
use crate::faulty::listed_remembering::AGAINST_PLAIN;
use crate::faulty::listed_search::{AGAINST_FOUND, AGAINST_SINGLE};
use crate::faulty::listed_typing::{AGAINST_TYPED_RUNS, AGAINST_TYPES_REMOVED};
use crate::faulty::listed_view::AGAINST_PAIRS;
use crate::faulty::{fault::Fault, Faulty};
use crate::generate::case::{damaged, well_formed, Case};
use crate::generate::random::Random;
use crate::interface::Interface;
use crate::model::Model;
use crate::tally::Tally;
use crate::yardsticks::Yardsticks;

/// Examines one case.
pub fn examine(
    case: (Case, Random),
    subject: &dyn Interface,
    reference: &dyn Interface,
    by: Yardsticks,
    tally: &mut Tally,
) -> Result<(), Difference> {
    let (case, mut random) = case;
    let mut examiner = Examiner {
        subject,
        reference,
        by,
        tally,
        answers: vec![],
        translations: vec![],
    };
    match &case {
        Case::Sheet(file) => examiner.sheet(&mut random, file)?,
        Case::Translation(file) => examiner.translation(&mut random, file, None)?,
    }
    // The last draws, so that those of the other calls stay the same.
    examiner.views(&mut random)?;
    examiner.searches(&mut random)?;
    match &case {
        Case::Sheet(file) => examiner.canonical_forms(&mut random, file),
        Case::Translation(file) if random.chance(5) => examiner.canonical_forms(&mut random, file),
        Case::Translation(_) => Ok(()),
    }
}

/// Looks for the first case that differs, among `limit` sheets and as many
/// damaged files: its number from 1, and what differs.
fn first_difference(
    subject: &dyn Interface,
    reference: &dyn Interface,
    by: Yardsticks,
    seed: u64,
    limit: u64,
) -> Option<(u64, Difference)> {
    let mut tally = Tally::default();
    (0..limit).find_map(|number| {
        let mut compare = |case| examine(case, subject, reference, by, &mut tally);
        compare(well_formed(seed, number))
            .and_then(|()| compare(damaged(seed, number)))
            .err()
            .map(|difference| (number + 1, difference))
    })
}

/// How far is looked for a fault of both sides.
const BOTH_WRONG: u64 = 20_000;

/// The yardsticks that find faults with both sides wrong alike: in words, the
/// one alone, and its faults.
fn alone() -> [(&'static str, Yardsticks, &'static [Fault]); 15] {
    let [mut name, mut plain, mut kept, mut labelling] = [Yardsticks::NONE; 4];
    let [mut closed, mut owner, mut pairs] = [Yardsticks::NONE; 3];
    let [mut removed, mut typed, mut single, mut found] = [Yardsticks::NONE; 4];
    let [mut reader, mut again, mut sheets, mut canonical] = [Yardsticks::NONE; 4];
    name.call_by_name = true;
    plain.plain_rule = true;
    kept.kept_rule = true;
    labelling.old_labelling = true;
    closed.closed_readings = true;
    owner.owners_run = true;
    pairs.viewed_pairs = true;
    removed.types_removed = true;
    typed.typed_runs = true;
    single.single_runs = true;
    found.found_by_name = true;
    reader.sheets_reader = true;
    again.written_again = true;
    sheets.canonical_pairs = true;
    canonical.canonical_runs = true;
    [
        ("call by name", name, AGAINST_MEANING),
        ("the rule without remembering", plain, AGAINST_PLAIN),
        ("the rule that keeps all cells", kept, AGAINST_KEPT),
        ("the old labelling", labelling, AGAINST_LABELLING),
        ("other closed readings", closed, AGAINST_CLOSED),
        ("the owner's run", owner, AGAINST_OWNER),
        ("pairs of views", pairs, AGAINST_PAIRS),
        (
            "sheets with their types removed",
            removed,
            AGAINST_TYPES_REMOVED,
        ),
        ("the runs of typed sheets", typed, AGAINST_TYPED_RUNS),
        ("single runs in turn", single, AGAINST_SINGLE),
        ("call by name of the value found", found, AGAINST_FOUND),
        ("the sheet's reader", reader, AGAINST_READER),
        ("the canonical form written again", again, AGAINST_AGAIN),
        ("pairs of sheets", sheets, AGAINST_CANONICAL_PAIRS),
        (
            "the runs of sheets in canonical form",
            canonical,
            AGAINST_CANONICAL_RUNS,
        ),
    ]
}

/// Runs the self-test; true when every fault was found.
pub fn selftest(subject: &dyn Interface, seed: u64) -> bool {
    let (mut tried, mut missed) = (0, 0);
    let mut report = |words: &str, limit: u64, found: Option<(u64, Difference)>| {
        tried += 1;
        match found {
            Some((number, difference)) => {
                println!(
                    "found   {words}: case {number} of {limit}; {}",
                    difference.what
                );
            }
            None => {
                missed += 1;
                println!("MISSED  {words}: not within {limit} sheets and damaged files");
            }
        }
    };
    for (fault, words, limit) in all() {
        let found = first_difference(subject, &Model(Faulty(fault)), Yardsticks::ALL, seed, limit);
        report(words, limit, found);
    }
    for (title, by, faults) in alone() {
        println!("With both sides wrong alike, by {title}:");
        for &fault in faults {
            let wrong = Model(Faulty(fault));
            let (_, words, _) = all().find(|known| known.0 == fault).expect("listed");
            let found = first_difference(&wrong, &wrong, by, seed, BOTH_WRONG);
            report(words, BOTH_WRONG, found);
        }
    }
    println!("{tried} faults, {missed} missed");
    missed == 0
}
