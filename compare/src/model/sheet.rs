//! Sheets: their form in memory and the reader. The reader's verdict is the
//! sheet or a refusal before number 8.

use super::records::{bodies, owners, Record, Records};
use super::types::{Signature, Types};
use super::{Behaviour, Refusal};
use zifnora::kinds::sheet as kinds;
use zifnora::numbers::{BAD_COUNT, OVERSIZE};

#[derive(Clone, Debug, PartialEq, Eq, Hash)]
pub enum Node {
    Number(i32),
    Reading(u16),
    Parameter(u16),
    Pattern(u16),
    Operator {
        code: u16,
        left: u16,
        right: u16,
    },
    If {
        condition: u16,
        yes: u16,
        no: u16,
    },
    Call {
        function: u16,
        arguments: Vec<u16>,
    },
    Build {
        constructor: u16,
        arguments: Vec<u16>,
    },
    Case {
        scrutinee: u16,
        clauses: Vec<(u16, u16)>,
    },
}

#[derive(Clone, Debug)]
pub struct Sheet {
    pub readings: u16,
    /// Arity of each constructor.
    pub arities: Vec<u16>,
    /// Parameter count of each function.
    pub parameters: Vec<u16>,
    /// Node count of each function.
    pub counts: Vec<u16>,
    pub nodes: Vec<Node>,
    /// Function of each node.
    pub owners: Vec<u16>,
    /// Body of each function.
    pub bodies: Vec<u16>,
    /// Of a typed sheet.
    pub types: Option<Types>,
}

impl Sheet {
    /// Record number of a node.
    pub fn record_of(&self, node: usize) -> u32 {
        (1 + self.arities.len() + self.counts.len() + node) as u32
    }

    /// The scrutinee of the case that is a function's body; an accepted sheet
    /// has pattern variables only below such a case.
    pub fn scrutinee(&self, function: u16) -> u16 {
        match &self.nodes[self.bodies[function as usize] as usize] {
            Node::Case { scrutinee, .. } => *scrutinee,
            _ => unreachable!("pattern variable outside a case"),
        }
    }
}

const GREATEST: usize = 32_768;

/// Reads a sheet: accepted, or the first refusal in document 01's order.
pub fn read<B: Behaviour>(behaviour: &B, file: &[u8]) -> Result<Sheet, Refusal> {
    let sheet = read_records(behaviour, file)?;
    behaviour.check_references(&sheet)?;
    behaviour.check_tree(&sheet)?;
    behaviour.check_patterns(&sheet)?;
    behaviour.check_types(&sheet)?;
    Ok(sheet)
}

/// The ranges of a sheet's counts.
const READINGS: u16 = 32;
const CONSTRUCTORS: u16 = 64;
const FUNCTIONS: u16 = 64;
const NODES: u16 = 1024;
const ARITY: u16 = 8;

/// Record by record: 2, then 1, 3 and 4.
fn read_records<B: Behaviour>(behaviour: &B, file: &[u8]) -> Result<Sheet, Refusal> {
    if file.len() > GREATEST {
        return Err(Refusal::new(OVERSIZE, 0));
    }
    let mut records = Records::new(file);
    let head = behaviour.next_record(&mut records, &[kinds::HEAD])?;
    let [readings, constructors, functions, nodes_due] = [0, 1, 2, 3].map(|at| head.field(at));
    let ranges = readings <= READINGS && constructors <= CONSTRUCTORS;
    if !ranges || !(1..=FUNCTIONS).contains(&functions) || !(1..=NODES).contains(&nodes_due) {
        return Err(Refusal::new(BAD_COUNT, 0));
    }
    let first = records.next_kind();
    let mut declared = Declared {
        typed: first.is_some_and(|kind| behaviour.is_typed(kind)),
        ..Declared::default()
    };
    for _ in 0..constructors {
        declared.read_constructor(behaviour, &mut records)?;
    }
    for function in 1..=functions {
        let number = declared.read_function(behaviour, &mut records)?;
        if function == functions {
            behaviour.check_sum(&declared.counts, nodes_due, number)?;
        }
    }
    let mut nodes = Vec::with_capacity(nodes_due as usize);
    for _ in 0..nodes_due {
        nodes.push(node(behaviour.next_record(&mut records, &kinds::NODES)?));
    }
    behaviour.finish(&records)?;
    let counts = declared.counts;
    Ok(Sheet {
        readings,
        arities: declared.arities,
        parameters: declared.parameters,
        nodes,
        owners: owners(&counts),
        bodies: bodies(&counts),
        counts,
        types: declared.typed.then_some(declared.types),
    })
}

/// What the records of the constructors and functions say.
#[derive(Default)]
struct Declared {
    typed: bool,
    arities: Vec<u16>,
    parameters: Vec<u16>,
    counts: Vec<u16>,
    types: Types,
}

impl Declared {
    /// Arity, and in a typed sheet own type and field types.
    fn read_constructor<B: Behaviour>(
        &mut self,
        behaviour: &B,
        records: &mut Records,
    ) -> Result<(), Refusal> {
        let kind = match self.typed {
            true => kinds::TYPED_CONSTRUCTOR,
            false => kinds::CONSTRUCTOR,
        };
        let record = behaviour.next_record(records, &[kind])?;
        let arity = record.field(0);
        let mut fits = arity <= ARITY;
        if self.typed {
            let types = Signature::of(&record, 1);
            fits &= behaviour.own_type_fits(types.result) && types.takes(behaviour, arity);
            self.types.constructors.push(types);
        }
        self.arities.push(arity);
        in_range(fits, &record)
    }

    /// Parameter count, node count, and in a typed sheet result type and
    /// parameter types; the record's number.
    fn read_function<B: Behaviour>(
        &mut self,
        behaviour: &B,
        records: &mut Records,
    ) -> Result<u32, Refusal> {
        let kind = match self.typed {
            true => kinds::TYPED_FUNCTION,
            false => kinds::FUNCTION,
        };
        let record = behaviour.next_record(records, &[kind])?;
        let (parameters, count) = (record.field(0), record.field(1));
        let mut fits = parameters <= ARITY && count >= 1;
        if self.typed {
            let types = Signature::of(&record, 2);
            fits &= behaviour.type_fits(types.result) && types.takes(behaviour, parameters);
            self.types.functions.push(types);
        }
        self.parameters.push(parameters);
        self.counts.push(count);
        in_range(fits, &record)?;
        Ok(record.number)
    }
}

/// 4 at a record of which a count or type is outside its range.
fn in_range(fits: bool, record: &Record) -> Result<(), Refusal> {
    match fits {
        true => Ok(()),
        false => Err(Refusal::new(BAD_COUNT, record.number)),
    }
}

/// The node counts sum to the nodes due; else 4 at the last function.
pub fn check_sum(counts: &[u16], nodes_due: u16, place: u32) -> Result<(), Refusal> {
    let sum: u64 = counts.iter().map(|&count| count as u64).sum();
    if sum != nodes_due as u64 {
        return Err(Refusal::new(BAD_COUNT, place));
    }
    Ok(())
}

fn node(record: Record) -> Node {
    let field = |at: usize| record.field(at);
    match record.kind {
        kinds::NUMBER => Node::Number(record.signed()),
        kinds::READING => Node::Reading(field(0)),
        kinds::PARAMETER => Node::Parameter(field(0)),
        kinds::PATTERN_VARIABLE => Node::Pattern(field(0)),
        kinds::OPERATOR => Node::Operator {
            code: field(0),
            left: field(1),
            right: field(2),
        },
        kinds::IF => Node::If {
            condition: field(0),
            yes: field(1),
            no: field(2),
        },
        kinds::CALL => Node::Call {
            function: field(0),
            arguments: record.fields(1),
        },
        kinds::BUILD => Node::Build {
            constructor: field(0),
            arguments: record.fields(1),
        },
        kinds::CASE => Node::Case {
            scrutinee: field(0),
            clauses: record.clauses(),
        },
        kind => unreachable!("kind {kind} was not due"),
    }
}

impl Node {
    /// Whether a test holds of a child, tried in the order of the fields.
    pub fn any_child(&self, mut test: impl FnMut(u16) -> bool) -> bool {
        match self {
            Node::Number(_) | Node::Reading(_) | Node::Parameter(_) | Node::Pattern(_) => false,
            Node::Operator { left, right, .. } => test(*left) || test(*right),
            Node::If { condition, yes, no } => test(*condition) || test(*yes) || test(*no),
            Node::Call { arguments, .. } | Node::Build { arguments, .. } => {
                arguments.iter().any(|&argument| test(argument))
            }
            Node::Case { scrutinee, clauses } => {
                test(*scrutinee) || clauses.iter().any(|clause| test(clause.1))
            }
        }
    }

    /// Sees every child, in the order of the fields.
    pub fn each_child(&self, mut see: impl FnMut(u16)) {
        self.any_child(|child| {
            see(child);
            false
        });
    }
}
