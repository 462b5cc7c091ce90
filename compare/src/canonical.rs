//! What a sheet in canonical form has to be beside the other side's (document
//! 02, request 13): refused as its reader refuses it, accepted with a translation
//! as long as before, the same when it is written again, and equal to that of
//! another sheet exactly if both have equal heads, constructors and functions and
//! equal trees as bodies.

use crate::call::{inner, After, Call};
use crate::generate::damage::records;
use crate::interface::{count, refusal, shown, Interface};
use crate::model::canonical::{children, renumbered};
use crate::model::records::two_bytes;
use crate::model::sheet::Sheet;
use crate::model::{Behaviour, Correct};
use zifnora::numbers::SHORT_OUTPUT;

/// The canonical form that a call has written.
pub fn form<'a>(call: &Call, after: &'a After) -> Option<&'a [u8]> {
    let Call::Canonical { .. } = call else {
        return None;
    };
    let form = inner(&after.out).get(..count(after.code)?)?;
    Some(form)
}

/// Whether a call has written other bytes than those of its sheet.
pub fn is_changed(call: &Call, after: &After) -> bool {
    let Call::Canonical { sheet, .. } = call else {
        return false;
    };
    form(call, after).is_some_and(|form| form != sheet)
}

/// Describes how a call is not as the reader of its sheet has it: the reader's
/// refusal, then 8, and else a sheet as long, with the sections as they were, that is
/// accepted and has a translation as long.
pub fn differing_with_reader(call: &Call, after: &After, on: &dyn Interface) -> Option<String> {
    let Call::Canonical { sheet, out, .. } = call else {
        return None;
    };
    let read = on.translated_length(sheet, u64::MAX);
    let due = match refusal(read) {
        0 if out.len() < sheet.len() => (SHORT_OUTPUT as u64) << 32,
        0 => sheet.len() as u64,
        _ => read,
    };
    if after.code != due {
        let [due, answered] = [due, after.code].map(shown);
        return Some(format!("by the sheet's reader {due}, answered {answered}"));
    }
    let (form, past) = inner(&after.out).split_at(count(due).unwrap_or(0));
    if past != &out[form.len()..] {
        return Some("output: not as it was past the sheet".to_string());
    }
    if form.is_empty() {
        return None;
    }
    let end = sections_end(sheet);
    if form[..end] != sheet[..end] {
        return Some("head, constructors or functions are not as they were".to_string());
    }
    let again = on.translated_length(form, u64::MAX);
    let [before, now] = [read, again].map(shown);
    (again != read).then(|| format!("translated length: {before}, in canonical form {now}"))
}

/// Where the head, the constructors and the functions of a sheet end.
fn sections_end(sheet: &[u8]) -> usize {
    let declared = [6, 8].map(|at| two_bytes(sheet, at) as usize);
    let sections = 1 + declared[0] + declared[1];
    let lengths = records(sheet).into_iter().map(|(_, length)| length);
    lengths.take(sections).sum()
}

/// Describes how a canonical form changes when it is written again, into bytes
/// that are all others.
pub fn differing_again(call: &Call, after: &After, on: &dyn Interface) -> Option<String> {
    let form = form(call, after)?;
    let again = Call::Canonical {
        sheet: form.to_vec(),
        out: form.iter().map(|byte| !byte).collect(),
        other: vec![],
    };
    let again = again.perform(on);
    if again.code != after.code {
        return Some(format!("written again: {}", shown(again.code)));
    }
    let mut bytes = form.iter().zip(inner(&again.out));
    let at = bytes.position(|(one, other)| one != other)?;
    Some(format!("written again: byte {at} changes"))
}

/// What two accepted sheets with different bytes are to each other.
#[derive(Clone, Copy, Debug, PartialEq, Eq)]
pub enum Pair {
    Different,
    Renumbered,
}

/// Describes how the canonical forms of a pair of sheets are not as the pair is.
pub fn differing_pair(call: &Call, after: &After, on: &dyn Interface) -> Option<String> {
    let (pair, other) = (pair(call)?, other_sheet(call)?);
    let again = other.perform(on);
    let (Some(one), Some(two)) = (form(call, after), form(&other, &again)) else {
        let [one, two] = [after, &again].map(|after| shown(after.code));
        return Some(format!("a pair ({pair:?}): answers {one} and {two}"));
    };
    match (one == two) == (pair == Pair::Renumbered) {
        true => None,
        false if one == two => Some(format!("a pair ({pair:?}): equal bytes")),
        false => Some(format!("a pair ({pair:?}): different bytes")),
    }
}

/// The call with the other sheet, in an output whose earlier bytes are all
/// others.
fn other_sheet(call: &Call) -> Option<Call> {
    let Call::Canonical { sheet, out, other } = call else {
        return None;
    };
    Some(Call::Canonical {
        sheet: other.clone(),
        out: out.iter().map(|byte| !byte).collect(),
        other: sheet.clone(),
    })
}

/// The pair of a call; none where it is no canonical form, where one of the two is
/// refused, or where their bytes are the same.
pub fn pair(call: &Call) -> Option<Pair> {
    let Call::Canonical { sheet, out, other } = call else {
        return None;
    };
    let longest = sheet.len().max(other.len());
    if other.is_empty() || other == sheet || out.len() < longest {
        return None;
    }
    let [one, two] = [sheet, other].map(|sheet| Correct.read_sheet(sheet).ok());
    let (one, two) = (one?, two?);
    let [ours, theirs] = [sheet, other].map(|sheet| &sheet[..sections_end(sheet)]);
    let mut bodies = one.bodies.iter().zip(&two.bodies);
    let equal = ours == theirs && bodies.all(|(&at, &there)| same_tree((&one, at), (&two, there)));
    Some(match equal {
        true => Pair::Renumbered,
        false => Pair::Different,
    })
}

/// Whether two nodes are equal trees: in all that is no child, and child by child.
fn same_tree((one, at): (&Sheet, u16), (two, there): (&Sheet, u16)) -> bool {
    let nodes = [&one.nodes[at as usize], &two.nodes[there as usize]];
    let [own, others] = nodes.map(|node| renumbered(node, |_| 0));
    let [parts, other_parts] = nodes.map(children);
    let mut pairs = parts.into_iter().zip(other_parts);
    own == others && pairs.all(|(at, there)| same_tree((one, at), (two, there)))
}
