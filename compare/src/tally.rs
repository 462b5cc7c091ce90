//! Counts of what the compared calls answered, to show what was covered.

use crate::all_kept::Compared;
use crate::call::Call;
use crate::canonical;
use crate::canonical_runs::CanonicalRuns;
use crate::check::Agreed;
use crate::hired::{is_closed, is_pair};
use crate::interface::refusal;
use crate::searched::Searched;
use crate::typed::{has_types_to_remove, TypedRuns};
use crate::viewed::{self, in_table};
use zifnora::numbers::SHORT_OUTPUT;

const KINDS: [&str; 10] = [
    "translate",
    "translated_length",
    "run",
    "run_for_hirer",
    "run_rows",
    "translate_and_run",
    "list_context",
    "driver_view",
    "find_reading",
    "canonical_sheet",
];

/// How many numbers are counted one by one, and those above together.
const COUNTED: usize = 128;
const OTHERS: usize = COUNTED - 1;

pub struct Tally {
    /// By kind of call and number (outcome for the three single runs).
    counts: [[u64; COUNTED]; KINDS.len()],
    /// Rows of batches by outcome.
    rows: [u64; COUNTED],
    /// Views by the outcome of their record, `OTHERS` for those that no table has.
    views: [u64; COUNTED],
    pub steps: u64,
    /// Answers of sheets, those of them that were also compared with call by
    /// name, and with the rule without remembering.
    pub own: u64,
    pub by_name: u64,
    pub by_plain_rule: u64,
    /// Runs that were also compared with those that keep all cells.
    pub by_kept_rule: Compared,
    /// Runs that were also compared with those of the old labelling.
    pub by_labelling: u64,
    /// Hirer's runs that were also compared with the owner's.
    pub by_owner: u64,
    /// Hirer's runs that were also compared with those on other closed
    /// readings: by whether they were not closed, or were.
    pub pairs: [u64; 2],
    /// Pairs of records whose views were also compared with each other: by
    /// `viewed::Pair`.
    pub viewed_pairs: [u64; 3],
    /// Calls of typed sheets that were also compared with those of the sheets
    /// with their types removed.
    pub types_removed: u64,
    pub typed_runs: TypedRuns,
    pub searched: Searched,
    /// Canonical forms, and those of them with other bytes than the sheet.
    pub canonical_forms: [u64; 2],
    /// Pairs of sheets whose canonical forms were also compared with each other:
    /// by `canonical::Pair`.
    pub canonical_pairs: [u64; 2],
    pub canonical_runs: CanonicalRuns,
}

impl Default for Tally {
    fn default() -> Tally {
        Tally {
            counts: [[0; COUNTED]; KINDS.len()],
            rows: [0; COUNTED],
            views: [0; COUNTED],
            steps: 0,
            own: 0,
            by_name: 0,
            by_plain_rule: 0,
            by_kept_rule: Compared::default(),
            by_labelling: 0,
            by_owner: 0,
            pairs: [0; 2],
            viewed_pairs: [0; 3],
            types_removed: 0,
            typed_runs: TypedRuns::default(),
            searched: Searched::default(),
            canonical_forms: [0; 2],
            canonical_pairs: [0; 2],
            canonical_runs: CanonicalRuns::default(),
        }
    }
}

impl Tally {
    pub fn add(&mut self, call: &Call, agreed: &Agreed) {
        let after = &agreed.after;
        let kind = match call {
            Call::Translate { .. } => 0,
            Call::Length { .. } => 1,
            Call::Run { .. } => 2,
            Call::Hirer { .. } => 3,
            Call::Rows { .. } => 4,
            Call::Joined { .. } => 5,
            Call::List { .. } => 6,
            Call::View { .. } => 7,
            Call::Search { .. } => 8,
            Call::Canonical { .. } => 9,
        };
        if let Call::Hirer { .. } = call {
            let closed = is_closed(after);
            self.by_owner += !closed as u64;
            self.pairs[closed as usize] += is_pair(call, after) as u64;
        }
        if let Some(outcome) = viewed::outcome(call) {
            let listed = in_table(outcome).then_some(outcome as usize);
            self.views[listed.unwrap_or(OTHERS)] += 1;
        }
        if let Some(pair) = viewed::pair(call) {
            self.viewed_pairs[pair as usize] += 1;
        }
        self.by_name += agreed.by_name;
        self.by_plain_rule += agreed.by_plain_rule;
        self.by_kept_rule.add(agreed.by_kept_rule);
        self.types_removed += has_types_to_remove(call, after) as u64;
        self.typed_runs.add(agreed.typed_runs);
        self.searched.add(agreed.searched);
        self.add_canonical(call, agreed);
        let mut number = refusal(after.code) as usize;
        for run in call.runs(after) {
            let outcome = run.answer.outcome as usize;
            match call {
                Call::Rows { .. } => self.rows[outcome.min(OTHERS)] += 1,
                _ => number = outcome,
            }
            self.steps += run.answer.steps as u64;
            self.own += (call.sheet().is_some() && run.answer.is_own()) as u64;
            // 8 is the translation's.
            let fits = run.answer.outcome != SHORT_OUTPUT;
            self.by_labelling += (agreed.old_labelling && fits) as u64;
        }
        self.counts[kind][number.min(OTHERS)] += 1;
    }

    fn add_canonical(&mut self, call: &Call, agreed: &Agreed) {
        let after = &agreed.after;
        self.canonical_forms[0] += canonical::form(call, after).is_some() as u64;
        self.canonical_forms[1] += canonical::is_changed(call, after) as u64;
        if let Some(pair) = canonical::pair(call) {
            self.canonical_pairs[pair as usize] += 1;
        }
        self.canonical_runs.add(agreed.canonical_runs);
    }

    pub fn calls(&self) -> u64 {
        self.counts.iter().flatten().sum()
    }

    /// One line per kind of call, one of rows and one of views: number of the
    /// table and how often. Then what was compared besides.
    pub fn print(&self) {
        let outcomes = [
            ("rows of run_rows", &self.rows),
            ("views by outcome", &self.views),
        ];
        let kinds = KINDS.into_iter().zip(&self.counts);
        for (name, counts) in kinds.chain(outcomes) {
            let seen: Vec<String> = counts
                .iter()
                .enumerate()
                .filter(|(_, &count)| count > 0)
                .map(|(number, count)| match number {
                    OTHERS => format!("others: {count}"),
                    _ => format!("{number}: {count}"),
                })
                .collect();
            println!("  {name:<18} {}", seen.join("  "));
        }
        println!(
            "  calls compared {}, steps run {}",
            self.calls(),
            self.steps
        );
        self.print_compared();
    }

    fn print_compared(&self) {
        println!(
            "  answers of sheets {}, compared with call by name {}, with the rule without remembering {}",
            self.own, self.by_name, self.by_plain_rule
        );
        let Compared {
            runs,
            fewer,
            further,
        } = self.by_kept_rule;
        println!("  runs compared with those that keep all cells {runs}, {fewer} of them with fewer cells, {further} that stop with 13 only where all are kept");
        println!(
            "  runs compared with those of the old labelling {}",
            self.by_labelling
        );
        println!("  hirer's runs compared with the owner's {}", self.by_owner);
        let [open, closed] = self.pairs;
        println!(
            "  pairs of reading lists that differ in closed readings only {}, {closed} of them refused with 21",
            open + closed
        );
        let [different, number, none] = self.viewed_pairs;
        println!(
            "  pairs of answer records whose views were compared {}, {number} of them the same number, {none} without a number",
            different + number + none
        );
        println!(
            "  calls of typed sheets compared with those of the sheets with their types removed {}",
            self.types_removed
        );
        let TypedRuns { runs, values } = self.typed_runs;
        println!("  runs of typed sheets {runs}, {values} of them with a number or a constructor, none with 14 or 15");
        self.print_searched();
        self.print_canonical();
    }

    fn print_searched(&self) {
        let Searched {
            searches,
            tried,
            runs,
            passed_over,
            most,
            found: [found, lowest, highest],
            by_name,
        } = self.searched;
        println!(
            "  searches compared with single runs in turn {searches}, {tried} of them not refused, {most} of 1,024 values"
        );
        println!(
            "  runs in these searches {runs}, {passed_over} of them a stop, a fault or a constructor with the wanted number in its record"
        );
        println!(
            "  values found {found}, {lowest} of them the lowest, {highest} the highest, {by_name} compared with call by name"
        );
    }

    fn print_canonical(&self) {
        let [forms, changed] = self.canonical_forms;
        println!(
            "  canonical forms read and written again {forms}, {changed} of them with other bytes than the sheet"
        );
        let [different, renumbered] = self.canonical_pairs;
        println!(
            "  pairs of sheets whose canonical forms were compared {}, {renumbered} of them equal trees numbered otherwise",
            different + renumbered
        );
        let CanonicalRuns {
            runs,
            stops,
            faults,
            refused,
        } = self.canonical_runs;
        println!(
            "  runs compared with those of the canonical form {runs}, {stops} of them a stop, {faults} a run fault, {refused} refused"
        );
    }
}
