//! What calls are compared with beside the other side's.

/// What a sheet's calls, a hirer's runs, driver's views, searches and sheets in
/// canonical form are compared with beside the other side's.
#[derive(Clone, Copy, Debug, PartialEq, Eq)]
pub struct Yardsticks {
    pub call_by_name: bool,
    pub plain_rule: bool,
    pub kept_rule: bool,
    pub old_labelling: bool,
    pub closed_readings: bool,
    pub owners_run: bool,
    pub viewed_pairs: bool,
    pub types_removed: bool,
    /// No run of a typed sheet ends with 14 or 15.
    pub typed_runs: bool,
    pub single_runs: bool,
    /// The value that a search has found.
    pub found_by_name: bool,
    /// What the reader says of a sheet and of its canonical form.
    pub sheets_reader: bool,
    /// The canonical form written again.
    pub written_again: bool,
    pub canonical_pairs: bool,
    pub canonical_runs: bool,
}

impl Yardsticks {
    pub const ALL: Yardsticks = Yardsticks::each(true);
    pub const NONE: Yardsticks = Yardsticks::each(false);

    const fn each(taken: bool) -> Yardsticks {
        Yardsticks {
            call_by_name: taken,
            plain_rule: taken,
            kept_rule: taken,
            old_labelling: taken,
            closed_readings: taken,
            owners_run: taken,
            viewed_pairs: taken,
            types_removed: taken,
            typed_runs: taken,
            single_runs: taken,
            found_by_name: taken,
            sheets_reader: taken,
            written_again: taken,
            canonical_pairs: taken,
            canonical_runs: taken,
        }
    }
}
