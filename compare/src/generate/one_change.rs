//! Accepted sheets that differ from another in one field, or in two children that
//! are exchanged.

use super::damage::{get, records, set};
use super::random::Random;
use super::targeted::names_node;
use crate::model::{Behaviour, Correct};
use zifnora::kinds::sheet as kinds;
use zifnora::sizes::{MOST_FIELDS, MOST_READINGS, MOST_TYPES};

/// How often a change is tried that is accepted.
const TRIES: usize = 30;

/// An accepted sheet with one change; none where no change tried is accepted.
pub fn changed(random: &mut Random, file: &[u8]) -> Option<Vec<u8>> {
    (0..TRIES).find_map(|_| {
        let mut other = file.to_vec();
        change(random, &mut other);
        let accepted = other != file && Correct.read_sheet(&other).is_ok();
        accepted.then_some(other)
    })
}

fn change(random: &mut Random, file: &mut [u8]) {
    let [constructors, functions] = [6, 8].map(|at| get(file, at) as usize);
    let mut sections = records(file);
    let nodes = sections.split_off(1 + constructors + functions);
    match random.below(10) {
        0 => set(file, 4, random.between(0, MOST_READINGS) as u16),
        1 | 2 => section(random, file, &sections[1..]),
        3 | 4 => exchange_children(random, file, &nodes),
        5 => kind(random, file, &nodes),
        _ => node_field(random, file, &nodes),
    }
}

/// Changes an arity, a parameter count or a type.
fn section(random: &mut Random, file: &mut [u8], sections: &[(usize, usize)]) {
    let (start, length) = random.pick(sections);
    let fields = length / 2 - 2;
    let field = random.below(fields);
    let counted = match get(file, start + 2) {
        kinds::TYPED_CONSTRUCTOR => 1,
        kinds::TYPED_FUNCTION => 2,
        _ => fields,
    };
    let value = match field < counted {
        true => random.between(0, MOST_FIELDS),
        false => random.between(0, MOST_TYPES),
    };
    set(file, start + 4 + 2 * field, value as u16);
}

/// The places of those fields of a record that name nodes, or of the others.
fn places(file: &[u8], (start, length): (usize, usize), named: bool) -> Vec<usize> {
    let kind = get(file, start + 2);
    let fields = (0..length / 2 - 2).filter(|&field| names_node(kind, field) == named);
    fields.map(|field| start + 4 + 2 * field).collect()
}

/// One of the nodes of a kind, of any kind that they have alike.
fn some_node(
    random: &mut Random,
    file: &[u8],
    nodes: &[(usize, usize)],
    fits: impl Fn(u16) -> bool,
) -> Option<(usize, usize)> {
    let kind = |node: &(usize, usize)| get(file, node.0 + 2);
    let mut present: Vec<u16> = nodes.iter().map(kind).filter(|&of| fits(of)).collect();
    present.sort_unstable();
    present.dedup();
    let chosen = match present.len() {
        0 => return None,
        _ => random.pick(&present),
    };
    let mut all = nodes.to_vec();
    all.retain(|node| kind(node) == chosen);
    Some(random.pick(&all))
}

/// Changes a field that names no node.
fn node_field(random: &mut Random, file: &mut [u8], nodes: &[(usize, usize)]) {
    let Some(node) = some_node(random, file, nodes, |kind| kind != kinds::IF) else {
        return;
    };
    let at = random.pick(&places(file, node, false));
    let old = get(file, at);
    let value = match get(file, node.0 + 2) {
        kinds::NUMBER => old ^ 1 << random.below(16),
        _ if random.chance(40) => old.wrapping_add(random.pick(&[1, u16::MAX])),
        _ => random.below(MOST_FIELDS) as u16,
    };
    set(file, at, value);
}

/// Exchanges two children of a node.
fn exchange_children(random: &mut Random, file: &mut [u8], nodes: &[(usize, usize)]) {
    let parents = [
        kinds::OPERATOR,
        kinds::IF,
        kinds::CALL,
        kinds::BUILD,
        kinds::CASE,
    ];
    let Some(node) = some_node(random, file, nodes, |kind| parents.contains(&kind)) else {
        return;
    };
    let places = places(file, node, true);
    if places.len() < 2 {
        return;
    }
    let [one, other] = [(); 2].map(|()| random.pick(&places));
    let (first, second) = (get(file, one), get(file, other));
    set(file, one, second);
    set(file, other, first);
}

/// Changes the kind of a node to another with as many fields.
fn kind(random: &mut Random, file: &mut [u8], nodes: &[(usize, usize)]) {
    let leaves = [kinds::READING, kinds::PARAMETER, kinds::PATTERN_VARIABLE];
    let targets = [kinds::CALL, kinds::BUILD];
    let fits = |kind: u16| leaves.contains(&kind) || targets.contains(&kind);
    if let Some((start, _)) = some_node(random, file, nodes, fits) {
        let old = get(file, start + 2);
        let other = match leaves.contains(&old) {
            true => random.pick(&leaves),
            false => random.pick(&targets),
        };
        set(file, start + 2, other);
    }
}
