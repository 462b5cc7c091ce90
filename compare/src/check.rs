//! Compares one call: the answers and whole buffers of both sides, the answers
//! of a translated sheet's runs with call by name, with those of the rule
//! without remembering, and with those of the translation with a label for each
//! call; every run with the same run that keeps all cells; a hirer's run with
//! the same run on other closed readings, and with the owner's; a driver's view
//! with that of another record; the calls of a typed sheet with those of the
//! sheet with its types removed; a search with single runs in turn, and the
//! value found with call by name; a canonical form with what the reader says of it
//! and of the sheet, with itself written again and with that of another sheet; a
//! sheet's runs with those of its canonical form.

use crate::all_kept::{by_kept_rule, Compared};
use crate::call::{inner, After, Call};
use crate::canonical;
use crate::canonical_runs::{by_canonical_form, CanonicalRuns};
use crate::hired::{differing_with_closed, differing_with_owner};
use crate::interface::{shown, Interface};
use crate::labelling::{differing_run, unshared};
use crate::model::answer::{Answer, RECORD};
use crate::own_answer::{by_name, by_plain_rule};
use crate::searched::{by_single_runs, found_by_name, Searched};
use crate::typed::{differing_untyped, typed_runs, TypedRuns};
use crate::viewed::differing_pair;
use crate::yardsticks::Yardsticks;
use std::fmt::Display;

/// What differs, in words, and the call to try again.
#[derive(Debug)]
pub struct Difference {
    pub what: String,
    pub call: Box<Call>,
}

/// What the reference left of a call on which both sides agree.
pub struct Agreed {
    pub after: After,
    /// How many of its runs were compared with call by name, with the rule
    /// without remembering, and with the rule that keeps all cells.
    pub by_name: u64,
    pub by_plain_rule: u64,
    pub by_kept_rule: Compared,
    /// Whether the call was compared with one of the old labelling.
    pub old_labelling: bool,
    pub typed_runs: TypedRuns,
    pub searched: Searched,
    pub canonical_runs: CanonicalRuns,
}

/// Performs the call on both sides, and where two calls of its sheet share a
/// label also with a label for each. A hirer's run is done on the subject's
/// side twice more, on other closed readings and as the owner's, a view once
/// more, of the other record, a call that translates a typed sheet once more,
/// with its types removed, a search once more, as single runs in turn, a canonical
/// form twice more, of itself and of the other sheet, and a sheet's run once more,
/// in canonical form.
pub fn check(
    call: &Call,
    subject: &dyn Interface,
    reference: &dyn Interface,
    by: Yardsticks,
) -> Result<Agreed, Difference> {
    let difference = |what: String| Difference {
        what: format!("{}: {what}", call.name()),
        call: Box::new(call.clone()),
    };
    let Both {
        theirs,
        ours,
        by_name,
        by_plain_rule,
        by_kept_rule,
        typed_runs,
    } = both(call, subject, reference, by).map_err(difference)?;
    let each = by.old_labelling.then(|| unshared(call)).flatten();
    let labelled = each.as_ref().and_then(|each| {
        let before = both(each, subject, reference, by);
        differing_labelling(call, &theirs, each, before)
    });
    if let Some(what) = labelled.or_else(|| differing_beside(call, &theirs, subject, by)) {
        return Err(difference(what));
    }
    let searched = searched(call, &theirs, subject, by).map_err(difference)?;
    let canonical_runs = match by.canonical_runs {
        true => by_canonical_form(call, &theirs, subject).map_err(difference)?,
        false => CanonicalRuns::default(),
    };
    Ok(Agreed {
        after: ours,
        by_name,
        by_plain_rule,
        by_kept_rule,
        old_labelling: each.is_some(),
        typed_runs,
        searched,
        canonical_runs,
    })
}

/// Describes how a call differs from `each`, the call with a label for each call,
/// which left what `before` has.
fn differing_labelling(
    call: &Call,
    theirs: &After,
    each: &Call,
    before: Result<Both, String>,
) -> Option<String> {
    let what = match before {
        Ok(before) => differing_run(call, theirs, each, &before.theirs),
        Err(what) => Some(what),
    };
    what.map(|what| format!("a label for each call: {what}"))
}

/// What a search was compared with, or what differs.
fn searched(
    call: &Call,
    theirs: &After,
    subject: &dyn Interface,
    by: Yardsticks,
) -> Result<Searched, String> {
    let single = by
        .single_runs
        .then(|| by_single_runs(call, theirs, subject));
    let named = by.found_by_name.then(|| found_by_name(call, theirs));
    Ok(Searched {
        by_name: named.unwrap_or(Ok(false))? as u64,
        ..single.unwrap_or(Ok(Searched::default()))?
    })
}

/// Describes how a hirer's run differs from those beside it, a view from that
/// of the other record as it must not, a call of a typed sheet from that without
/// its types, or a canonical form from what it has to be.
fn differing_beside(
    call: &Call,
    theirs: &After,
    subject: &dyn Interface,
    by: Yardsticks,
) -> Option<String> {
    let closed = by
        .closed_readings
        .then(|| differing_with_closed(call, theirs, subject));
    let owners = by
        .owners_run
        .then(|| differing_with_owner(call, theirs, subject));
    let pair = by
        .viewed_pairs
        .then(|| differing_pair(call, theirs, subject));
    let untyped = by
        .types_removed
        .then(|| differing_untyped(call, theirs, subject));
    let beside = [closed, owners, pair, untyped];
    let beside = beside.into_iter().flatten().flatten().next();
    beside.or_else(|| differing_canonical(call, theirs, subject, by))
}

/// Describes how a canonical form is not as the reader, itself written again or
/// that of the other sheet has it.
fn differing_canonical(
    call: &Call,
    theirs: &After,
    subject: &dyn Interface,
    by: Yardsticks,
) -> Option<String> {
    let reader = by
        .sheets_reader
        .then(|| canonical::differing_with_reader(call, theirs, subject));
    let again = by
        .written_again
        .then(|| canonical::differing_again(call, theirs, subject));
    let pair = by
        .canonical_pairs
        .then(|| canonical::differing_pair(call, theirs, subject));
    [reader, again, pair].into_iter().flatten().flatten().next()
}

/// What the subject and the reference left, and how many runs were compared.
struct Both {
    theirs: After,
    ours: After,
    by_name: u64,
    by_plain_rule: u64,
    by_kept_rule: Compared,
    typed_runs: TypedRuns,
}

/// What both sides left, if they agree with each other, with call by name, with
/// the rule without remembering, with the rule that keeps all cells and with the
/// types of the sheet; else what differs.
fn both(
    call: &Call,
    subject: &dyn Interface,
    reference: &dyn Interface,
    by: Yardsticks,
) -> Result<Both, String> {
    let ours = call.perform(reference);
    let theirs = call.perform(subject);
    if let Some(what) = differs(["interface", "model"], &theirs, &ours) {
        return Err(what);
    }
    let by_name = by.call_by_name.then(|| by_name(call, &theirs));
    let by_plain_rule = by.plain_rule.then(|| by_plain_rule(call, &theirs));
    let by_kept_rule = by.kept_rule.then(|| by_kept_rule(call, &theirs));
    let typed_runs = by.typed_runs.then(|| typed_runs(call, &theirs));
    Ok(Both {
        by_name: by_name.unwrap_or(Ok(0))?,
        by_plain_rule: by_plain_rule.unwrap_or(Ok(0))?,
        by_kept_rule: by_kept_rule.unwrap_or(Ok(Compared::default()))?,
        typed_runs: typed_runs.unwrap_or(Ok(TypedRuns::default()))?,
        theirs,
        ours,
    })
}

/// Describes the first difference between two calls, which are called so.
pub fn differs(names: [&str; 2], one: &After, other: &After) -> Option<String> {
    if one.code != other.code {
        let codes = [one, other].map(|after| shown(after.code));
        return Some(format!("answer: {}", each(names, codes)));
    }
    if !one.input_kept {
        return Some(format!("{}: wrote into an input", names[0]));
    }
    differing_record(names, &one.record, &other.record)
        .or_else(|| differing_byte(names, "record", &one.record, &other.record))
        .or_else(|| differing_byte(names, "output", &one.out, &other.out))
        .or_else(|| differing_byte(names, "cells", &one.cells, &other.cells))
}

fn each<T: Display>(names: [&str; 2], [one, other]: [T; 2]) -> String {
    format!("{} {one}, {} {other}", names[0], names[1])
}

/// Describes the first answer record in which two guarded buffers differ.
fn differing_record(names: [&str; 2], one: &[u8], other: &[u8]) -> Option<String> {
    let show = |record: &[u8]| match Answer::from_record(record) {
        Some(answer) => format!("{answer:?}"),
        None => format!("{record:?}"),
    };
    let [one, other] = [one, other].map(|buffer| inner(buffer).chunks_exact(RECORD));
    let (row, (one, other)) = one.zip(other).enumerate().find(|(_, (a, b))| a != b)?;
    let shown = each(names, [one, other].map(show));
    Some(format!("record {row}: {shown}"))
}

/// Describes the first byte in which two guarded buffers differ.
fn differing_byte(names: [&str; 2], what: &str, one: &[u8], other: &[u8]) -> Option<String> {
    let at = one.iter().zip(other).position(|pair| pair.0 != pair.1)?;
    let lent = inner(one).len();
    let offset = at as i64 - (one.len() - lent) as i64 / 2;
    let shown = each(names, [one[at], other[at]]);
    Some(format!("{what}: byte {offset} of {lent}: {shown}"))
}
