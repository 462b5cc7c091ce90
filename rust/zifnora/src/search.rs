//! What is searched for.

/// The reading that is changed, the values that are tried for it, from the
/// lowest to the highest, both included, and the number that the run is to end
/// in. The values are at most `sizes::MOST_VALUES`.
#[derive(Clone, Copy, Debug, PartialEq, Eq)]
pub struct Search {
    pub position: u32,
    pub lowest: i32,
    pub highest: i32,
    pub wanted: i32,
}
