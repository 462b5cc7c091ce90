//! Translations: their form in memory, the reader and the writer.

use super::records::{bodies, Record, Records};
use super::{Behaviour, Refusal};
use zifnora::kinds::translation as kinds;
use zifnora::numbers::{BAD_COUNT, OUT_OF_RANGE, OVERSIZE};

#[derive(Clone, Debug, PartialEq, Eq)]
pub enum Node {
    Number(i32),
    Reading(u16),
    Formal(u16),
    Select {
        node: u16,
        index: u16,
    },
    Operator {
        code: u16,
        left: u16,
        right: u16,
    },
    If {
        condition: u16,
        yes: u16,
        no: u16,
    },
    Call {
        label: u16,
        function: u16,
    },
    Tuple {
        tag: u16,
        fields: Vec<u16>,
    },
    Case {
        scrutinee: u16,
        clauses: Vec<(u16, u16)>,
    },
}

#[derive(Clone, Debug, PartialEq, Eq)]
pub struct Translation {
    pub readings: u16,
    /// Node count of each function.
    pub counts: Vec<u16>,
    /// Parameter count of each function.
    pub parameters: Vec<u16>,
    /// Actuals of each formal, label 0 first.
    pub formals: Vec<Vec<u16>>,
    pub nodes: Vec<Node>,
    /// Body of each function.
    pub bodies: Vec<u16>,
}

const GREATEST: usize = 40_960;

/// The ranges of a translation's counts.
const READINGS: u16 = 32;
const FORMALS: u16 = 512;
const FUNCTIONS: u16 = 64;
const NODES: u16 = 1024;
const PARAMETERS: u16 = 8;

impl Translation {
    /// The number of a node's record.
    pub fn record_of(&self, node: usize) -> u32 {
        (1 + self.counts.len() + self.formals.len() + node) as u32
    }

    /// The function of a formal and its position there: formals go by
    /// function, then position.
    pub fn place_of(&self, formal: u16) -> (u16, u16) {
        let (mut function, mut position) = (0, formal);
        for &parameters in &self.parameters {
            if position < parameters {
                break;
            }
            position -= parameters;
            function += 1;
        }
        (function, position)
    }
}

/// "0 to 8".
pub fn parameters_fit(count: u16) -> bool {
    count <= PARAMETERS
}

/// Reads a translation: accepted, or the first refusal.
pub fn read<B: Behaviour>(behaviour: &B, file: &[u8]) -> Result<Translation, Refusal> {
    let translation = read_records(behaviour, file)?;
    check_references(&translation)?;
    Ok(translation)
}

/// Reads a translation, its references unchecked.
pub fn read_records<B: Behaviour>(behaviour: &B, file: &[u8]) -> Result<Translation, Refusal> {
    if file.len() > GREATEST {
        return Err(Refusal::new(OVERSIZE, 0));
    }
    let mut records = Records::new(file);
    let head = behaviour.next_record(&mut records, &[kinds::HEAD])?;
    let [readings, formals_due, functions, nodes_due] = [0, 1, 2, 3].map(|at| head.field(at));
    let ranges = readings <= READINGS && formals_due <= FORMALS;
    if !ranges || !(1..=FUNCTIONS).contains(&functions) || !(1..=NODES).contains(&nodes_due) {
        return Err(Refusal::new(BAD_COUNT, 0));
    }
    let (counts, parameters) =
        read_functions(behaviour, &mut records, functions, nodes_due, formals_due)?;
    let mut formals = Vec::new();
    for _ in 0..formals_due {
        let record = behaviour.next_record(&mut records, &[kinds::FORMAL_LIST])?;
        formals.push(record.fields(0));
    }
    let mut nodes = Vec::with_capacity(nodes_due as usize);
    for _ in 0..nodes_due {
        nodes.push(node(behaviour.next_record(&mut records, &kinds::NODES)?));
    }
    behaviour.finish(&records)?;
    Ok(Translation {
        readings,
        formals,
        nodes,
        bodies: bodies(&counts),
        counts,
        parameters,
    })
}

/// Node counts and parameter counts of the functions. Their sums are the nodes
/// and the formals due, else 4 at the last function.
fn read_functions<B: Behaviour>(
    behaviour: &B,
    records: &mut Records,
    functions: u16,
    nodes_due: u16,
    formals_due: u16,
) -> Result<(Vec<u16>, Vec<u16>), Refusal> {
    let (mut counts, mut parameters) = (Vec::new(), Vec::new());
    for function in 1..=functions {
        let record = behaviour.next_record(records, &[kinds::FUNCTION])?;
        counts.push(record.field(0));
        parameters.push(record.field(1));
        let fits = record.field(0) >= 1 && behaviour.parameters_fit(record.field(1));
        let last = function == functions;
        let sums = !last
            || sum(&counts) == nodes_due as u64
                && behaviour.formals_fit(sum(&parameters), formals_due);
        if !fits || !sums {
            return Err(Refusal::new(BAD_COUNT, record.number));
        }
    }
    Ok((counts, parameters))
}

fn sum(counts: &[u16]) -> u64 {
    counts.iter().map(|&count| count as u64).sum()
}

fn node(record: Record) -> Node {
    let field = |at: usize| record.field(at);
    match record.kind {
        kinds::NUMBER => Node::Number(record.signed()),
        kinds::READING => Node::Reading(field(0)),
        kinds::FORMAL => Node::Formal(field(0)),
        kinds::SELECT => Node::Select {
            node: field(0),
            index: field(1),
        },
        kinds::OPERATOR => Node::Operator {
            code: field(0),
            left: field(1),
            right: field(2),
        },
        kinds::IF => Node::If {
            condition: field(0),
            yes: field(1),
            no: field(2),
        },
        kinds::CALL => Node::Call {
            label: field(0),
            function: field(1),
        },
        kinds::TUPLE => Node::Tuple {
            tag: field(0),
            fields: record.fields(1),
        },
        kinds::CASE => Node::Case {
            scrutinee: field(0),
            clauses: record.clauses(),
        },
        kind => unreachable!("kind {kind} was not due"),
    }
}

/// References, record by record. Labels, tags and indices are free.
fn check_references(translation: &Translation) -> Result<(), Refusal> {
    let nodes = translation.nodes.len();
    let far = |node: &u16| *node as usize >= nodes;
    let first_formal = 1 + translation.counts.len();
    for (number, actuals) in translation.formals.iter().enumerate() {
        if actuals.iter().any(far) {
            return Err(Refusal::new(OUT_OF_RANGE, (first_formal + number) as u32));
        }
    }
    for (number, node) in translation.nodes.iter().enumerate() {
        let out_of_range = match node {
            Node::Number(_) => false,
            Node::Reading(reading) => *reading >= translation.readings,
            Node::Formal(formal) => *formal as usize >= translation.formals.len(),
            Node::Select { node, .. } => far(node),
            Node::Operator { left, right, .. } => far(left) || far(right),
            Node::If { condition, yes, no } => far(condition) || far(yes) || far(no),
            Node::Call { function, .. } => *function as usize >= translation.counts.len(),
            Node::Tuple { fields, .. } => fields.iter().any(far),
            Node::Case { scrutinee, clauses } => {
                far(scrutinee) || clauses.iter().any(|clause| far(&clause.1))
            }
        };
        if out_of_range {
            return Err(Refusal::new(OUT_OF_RANGE, translation.record_of(number)));
        }
    }
    Ok(())
}

fn put(file: &mut Vec<u8>, fields: &[u16]) {
    for field in fields {
        file.extend_from_slice(&field.to_le_bytes());
    }
}

/// Length and kind of a record with so many fields.
fn put_start(file: &mut Vec<u8>, kind: u16, fields: usize) {
    put(file, &[(4 + 2 * fields) as u16, kind]);
}

fn put_record(file: &mut Vec<u8>, kind: u16, fields: &[u16]) {
    put_start(file, kind, fields.len());
    put(file, fields);
}

/// The file of a translation.
pub fn write(translation: &Translation) -> Vec<u8> {
    let mut file = Vec::with_capacity(GREATEST);
    let head = [
        translation.readings,
        translation.formals.len() as u16,
        translation.counts.len() as u16,
        translation.nodes.len() as u16,
    ];
    put_record(&mut file, kinds::HEAD, &head);
    for (&count, &parameters) in translation.counts.iter().zip(&translation.parameters) {
        put_record(&mut file, kinds::FUNCTION, &[count, parameters]);
    }
    for actuals in &translation.formals {
        put_record(&mut file, kinds::FORMAL_LIST, actuals);
    }
    for node in &translation.nodes {
        write_node(&mut file, node);
    }
    file
}

fn write_node(file: &mut Vec<u8>, node: &Node) {
    match node {
        Node::Number(number) => {
            let bits = *number as u32;
            put_record(file, kinds::NUMBER, &[bits as u16, (bits >> 16) as u16]);
        }
        Node::Reading(reading) => put_record(file, kinds::READING, &[*reading]),
        Node::Formal(formal) => put_record(file, kinds::FORMAL, &[*formal]),
        Node::Select { node, index } => put_record(file, kinds::SELECT, &[*node, *index]),
        Node::Operator { code, left, right } => {
            put_record(file, kinds::OPERATOR, &[*code, *left, *right])
        }
        Node::If { condition, yes, no } => put_record(file, kinds::IF, &[*condition, *yes, *no]),
        Node::Call { label, function } => put_record(file, kinds::CALL, &[*label, *function]),
        Node::Tuple { tag, fields } => {
            put_start(file, kinds::TUPLE, 1 + fields.len());
            put(file, &[*tag]);
            put(file, fields);
        }
        Node::Case { scrutinee, clauses } => {
            put_start(file, kinds::CASE, 1 + 2 * clauses.len());
            put(file, &[*scrutinee]);
            for &(tag, clause) in clauses {
                put(file, &[tag, clause]);
            }
        }
    }
}
