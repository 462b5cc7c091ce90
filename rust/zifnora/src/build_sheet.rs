//! A small builder of sheet files, typed or not: expression trees in, records
//! out. It writes what it is told; nothing here checks the rules of a sheet.

pub use crate::kinds::operators::*;
use crate::kinds::sheet as kinds;
pub use crate::typed_program::TypedProgram;
use std::iter::once;

/// An expression of a sheet. Functions, constructors, readings, parameters
/// and fields go by their numbers from 0.
#[derive(Clone, Debug)]
pub enum Expr {
    Number(i32),
    Reading(u16),
    /// A parameter, by its position.
    Parameter(u16),
    /// A pattern variable, by the position of its field.
    Pattern(u16),
    /// A code of `kinds::operators`, and the two operands.
    Operator(u16, Box<Expr>, Box<Expr>),
    /// Condition, then the nodes for nonzero and for zero.
    If(Box<Expr>, Box<Expr>, Box<Expr>),
    Call(u16, Vec<Expr>),
    Build(u16, Vec<Expr>),
    /// Scrutinee, then constructor and node of each clause.
    Case(Box<Expr>, Vec<(u16, Expr)>),
}

// Short forms for sheets written by hand.
pub fn number(number: i32) -> Expr {
    Expr::Number(number)
}
pub fn reading(reading: u16) -> Expr {
    Expr::Reading(reading)
}
pub fn parameter(position: u16) -> Expr {
    Expr::Parameter(position)
}
pub fn pattern(position: u16) -> Expr {
    Expr::Pattern(position)
}
pub fn operator(code: u16, left: Expr, right: Expr) -> Expr {
    Expr::Operator(code, Box::new(left), Box::new(right))
}
pub fn if_else(condition: Expr, yes: Expr, no: Expr) -> Expr {
    Expr::If(Box::new(condition), Box::new(yes), Box::new(no))
}
pub fn call(function: u16, arguments: Vec<Expr>) -> Expr {
    Expr::Call(function, arguments)
}
pub fn build(constructor: u16, arguments: Vec<Expr>) -> Expr {
    Expr::Build(constructor, arguments)
}
pub fn case(scrutinee: Expr, clauses: Vec<(u16, Expr)>) -> Expr {
    Expr::Case(Box::new(scrutinee), clauses)
}

/// A whole sheet.
#[derive(Clone, Debug)]
pub struct Program {
    /// How many readings a run takes.
    pub readings: u16,
    /// The arity of each constructor.
    pub arities: Vec<u16>,
    /// Parameter count and body of each function; function 0 is `result`.
    pub functions: Vec<(u16, Expr)>,
}

/// A node before it has a number: kind, fields, and which fields are
/// children (position in the function's list).
struct Loose {
    kind: u16,
    fields: Vec<u16>,
    children: Vec<(usize, usize)>,
}

/// A field of a node: a number that stays, or a child.
enum Part<'a> {
    Field(u16),
    Child(&'a Expr),
}

impl Expr {
    /// Number of nodes.
    pub fn size(&self) -> usize {
        let parts = self.parts().into_iter();
        let children = parts.map(|part| match part {
            Part::Field(_) => 0,
            Part::Child(child) => child.size(),
        });
        1 + children.sum::<usize>()
    }

    fn kind(&self) -> u16 {
        match self {
            Expr::Number(_) => kinds::NUMBER,
            Expr::Reading(_) => kinds::READING,
            Expr::Parameter(_) => kinds::PARAMETER,
            Expr::Pattern(_) => kinds::PATTERN_VARIABLE,
            Expr::Operator(..) => kinds::OPERATOR,
            Expr::If(..) => kinds::IF,
            Expr::Call(..) => kinds::CALL,
            Expr::Build(..) => kinds::BUILD,
            Expr::Case(..) => kinds::CASE,
        }
    }

    /// The fields of the node's record, in order.
    fn parts(&self) -> Vec<Part<'_>> {
        use Part::{Child, Field};
        match self {
            Expr::Number(number) => {
                let bits = *number as u32;
                vec![Field(bits as u16), Field((bits >> 16) as u16)]
            }
            Expr::Reading(field) | Expr::Parameter(field) | Expr::Pattern(field) => {
                vec![Field(*field)]
            }
            Expr::Operator(code, left, right) => vec![Field(*code), Child(left), Child(right)],
            Expr::If(condition, yes, no) => vec![Child(condition), Child(yes), Child(no)],
            Expr::Call(target, arguments) | Expr::Build(target, arguments) => {
                let arguments = arguments.iter().map(Child);
                once(Field(*target)).chain(arguments).collect()
            }
            Expr::Case(scrutinee, clauses) => {
                let clauses = clauses.iter();
                let pairs = clauses.flat_map(|(number, node)| [Field(*number), Child(node)]);
                once(Child(scrutinee)).chain(pairs).collect()
            }
        }
    }

    /// Adds the nodes in post-order; the position of this one.
    fn flatten(&self, into: &mut Vec<Loose>) -> usize {
        let (mut fields, mut children) = (Vec::new(), Vec::new());
        for part in self.parts() {
            match part {
                Part::Field(field) => fields.push(field),
                Part::Child(child) => {
                    children.push((fields.len(), child.flatten(into)));
                    fields.push(0);
                }
            }
        }
        into.push(Loose {
            kind: self.kind(),
            fields,
            children,
        });
        into.len() - 1
    }
}

/// Adds a record to a file: its length, its kind and its fields.
pub fn put_record(file: &mut Vec<u8>, kind: u16, fields: &[u16]) {
    file.extend_from_slice(&((4 + 2 * fields.len()) as u16).to_le_bytes());
    file.extend_from_slice(&kind.to_le_bytes());
    for field in fields {
        file.extend_from_slice(&field.to_le_bytes());
    }
}

impl Program {
    /// The file, with the nodes of each function in post-order.
    pub fn encode(&self) -> Vec<u8> {
        self.declared().encode_ordered(|_| 0, false)
    }

    /// The file, with the nodes of each function in an order picked by
    /// `pick` (below its argument) among the nodes whose children are out.
    pub fn encode_shuffled(&self, pick: impl FnMut(usize) -> usize) -> Vec<u8> {
        self.declared().encode_ordered(pick, true)
    }

    fn declared(&self) -> Declared<'_> {
        let constructors = self.arities.iter();
        let functions = self.functions.iter().map(|(parameters, body)| {
            let fields = vec![*parameters, body.size() as u16];
            (kinds::FUNCTION, fields, body)
        });
        Declared {
            readings: self.readings,
            constructors: constructors
                .map(|&arity| (kinds::CONSTRUCTOR, vec![arity]))
                .collect(),
            functions: functions.collect(),
        }
    }
}

/// A sheet before its nodes are out: kind and fields of the records of its
/// constructors, and of its functions with their bodies.
pub(crate) struct Declared<'a> {
    pub readings: u16,
    pub constructors: Vec<(u16, Vec<u16>)>,
    pub functions: Vec<(u16, Vec<u16>, &'a Expr)>,
}

impl Declared<'_> {
    pub fn encode_ordered(&self, mut pick: impl FnMut(usize) -> usize, shuffle: bool) -> Vec<u8> {
        let total: usize = self.functions.iter().map(|(.., body)| body.size()).sum();
        let mut file = Vec::new();
        let head = [
            self.readings,
            self.constructors.len() as u16,
            self.functions.len() as u16,
            total as u16,
        ];
        put_record(&mut file, kinds::HEAD, &head);
        for (kind, fields) in &self.constructors {
            put_record(&mut file, *kind, fields);
        }
        for (kind, fields, _) in &self.functions {
            put_record(&mut file, *kind, fields);
        }
        let mut first = 0;
        for (.., body) in &self.functions {
            let mut nodes = Vec::new();
            body.flatten(&mut nodes);
            let order: Vec<usize> = match shuffle {
                true => shuffled(&nodes, &mut pick),
                false => (0..nodes.len()).collect(),
            };
            put_nodes(&mut file, &nodes, &order, first);
            first += nodes.len();
        }
        file
    }
}

/// The nodes of a function in an order, numbered from `first` on.
fn put_nodes(file: &mut Vec<u8>, nodes: &[Loose], order: &[usize], first: usize) {
    let mut number_of = vec![0; nodes.len()];
    for (place, &node) in order.iter().enumerate() {
        number_of[node] = (first + place) as u16;
    }
    for &node in order {
        let mut fields = nodes[node].fields.clone();
        for &(field, child) in &nodes[node].children {
            fields[field] = number_of[child];
        }
        put_record(file, nodes[node].kind, &fields);
    }
}

/// An order in which every child comes before its parent.
fn shuffled(nodes: &[Loose], pick: &mut impl FnMut(usize) -> usize) -> Vec<usize> {
    let mut parent = vec![usize::MAX; nodes.len()];
    let mut waiting = vec![0; nodes.len()];
    for (position, node) in nodes.iter().enumerate() {
        waiting[position] = node.children.len();
        for &(_, child) in &node.children {
            parent[child] = position;
        }
    }
    let mut ready: Vec<usize> = (0..nodes.len())
        .filter(|&node| waiting[node] == 0)
        .collect();
    let mut order = Vec::new();
    while !ready.is_empty() {
        let chosen = pick(ready.len());
        let node = ready.swap_remove(chosen);
        order.push(node);
        if parent[node] != usize::MAX {
            waiting[parent[node]] -= 1;
            if waiting[parent[node]] == 0 {
                ready.push(parent[node]);
            }
        }
    }
    order
}
