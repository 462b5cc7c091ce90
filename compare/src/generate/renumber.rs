//! Accepted sheets with the nodes of each function in another allowed order,
//! and numbered so.

use super::damage::{get, records, set};
use super::random::Random;
use super::targeted::names_node;
use std::ops::Range;

/// The way in which the next node is taken among those whose children are out.
#[derive(Clone, Copy)]
enum Way {
    Any,
    /// Mostly right to left.
    Last,
    /// The leaves first, then their parents.
    Leaves,
    /// Mostly as the nodes stand.
    Near,
}

/// The sheet with the nodes of each function in another order in which every child
/// comes before its parent.
pub fn renumbered(random: &mut Random, file: &[u8]) -> Vec<u8> {
    let nodes = Nodes::of(file);
    let mut order = Vec::with_capacity(nodes.records.len());
    for run in runs(file) {
        let way = random.pick(&[Way::Any, Way::Any, Way::Last, Way::Leaves, Way::Near]);
        nodes.order(random, run, way, &mut order);
    }
    nodes.written(file, &order)
}

/// Records of the constructors and functions.
fn sections(file: &[u8]) -> [usize; 2] {
    [6, 8].map(|at| get(file, at) as usize)
}

/// The nodes of each function.
fn runs(file: &[u8]) -> Vec<Range<usize>> {
    let [constructors, functions] = sections(file);
    let functions = &records(file)[1 + constructors..][..functions];
    let mut end = 0;
    let run = |record: &(usize, usize)| {
        let start = end;
        end += get(file, record.0 + 6) as usize;
        start..end
    };
    functions.iter().map(run).collect()
}

struct Nodes {
    /// Start and length of each node's record.
    records: Vec<(usize, usize)>,
    /// Where the record of each node names a node.
    fields: Vec<Vec<usize>>,
    parents: Vec<Option<usize>>,
}

impl Nodes {
    fn of(file: &[u8]) -> Nodes {
        let [constructors, functions] = sections(file);
        let nodes = records(file).split_off(1 + constructors + functions);
        let mut parents = vec![None; nodes.len()];
        let mut fields = Vec::with_capacity(nodes.len());
        for (node, &(start, length)) in nodes.iter().enumerate() {
            let kind = get(file, start + 2);
            let named = (0..length / 2 - 2).filter(|&field| names_node(kind, field));
            let places: Vec<usize> = named.map(|field| start + 4 + 2 * field).collect();
            for &at in &places {
                parents[get(file, at) as usize] = Some(node);
            }
            fields.push(places);
        }
        Nodes {
            records: nodes,
            fields,
            parents,
        }
    }

    /// Adds the nodes of a function in an order.
    fn order(&self, random: &mut Random, run: Range<usize>, way: Way, order: &mut Vec<usize>) {
        let mut waiting: Vec<usize> = self.fields.iter().map(Vec::len).collect();
        let mut ready: Vec<usize> = run.filter(|&node| waiting[node] == 0).collect();
        while !ready.is_empty() {
            let at = match way {
                Way::Any => random.below(ready.len()),
                Way::Last => ready.len() - 1,
                Way::Near if random.chance(5) => random.below(ready.len()),
                Way::Leaves | Way::Near => 0,
            };
            let node = ready.remove(at);
            order.push(node);
            let Some(parent) = self.parents[node] else {
                continue;
            };
            waiting[parent] -= 1;
            match way {
                _ if waiting[parent] > 0 => {}
                Way::Near => ready.insert(at, parent),
                _ => ready.push(parent),
            }
        }
    }

    /// The file with the nodes in an order and numbered so.
    fn written(&self, file: &[u8], order: &[usize]) -> Vec<u8> {
        let mut numbers = vec![0; order.len()];
        for (number, &node) in order.iter().enumerate() {
            numbers[node] = number as u16;
        }
        let mut renamed = file.to_vec();
        for &at in self.fields.iter().flatten() {
            set(&mut renamed, at, numbers[get(file, at) as usize]);
        }
        let mut written = file[..self.records[0].0].to_vec();
        for &node in order {
            let (start, length) = self.records[node];
            written.extend_from_slice(&renamed[start..start + length]);
        }
        written
    }
}
