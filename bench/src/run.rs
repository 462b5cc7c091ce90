//! A plain Rust run to measure against, over nodes decoded before it starts;
//! contexts are cells in the lent bytes, which remember the values of formals
//! and are given back after calls. A visit calls itself for operands,
//! conditions, scrutinees, selected nodes, bodies of calls and actuals whose
//! value is remembered; its last visit is a loop's turn.

use crate::nodes::{Node, Operator, Program};
use crate::plain::two_bytes;
use compare::interface::Allowances;
use zifnora::numbers;
use zifnora::sizes::{CELL_BYTES, ENTRY_BYTES};

/// Where the entries of a cell start, and where its callee stands.
const FIRST_ENTRY: usize = 4;
const CALLEE: usize = CELL_BYTES - 2;

/// The kinds of entries.
const EMPTY: u16 = 0;
const NUMBER: u16 = 1;
const CONSTRUCTOR: u16 = 2;

type Cell = [u8; CELL_BYTES];

#[derive(Clone, Copy)]
enum Value {
    Number(i32),
    Tuple { node: u16, context: u16 },
}

struct Run<'a> {
    nodes: &'a [Node],
    formals: &'a [Vec<u16>],
    readings: &'a [i32],
    cells: &'a mut [u8],
    allowances: Allowances,
    steps: u32,
    /// How many cells are alive, and the most that were alive together.
    live: u32,
    most: u32,
    /// The oldest cell in which a constructor was remembered since the newest
    /// open call, or the cell of that call where that is older.
    oldest: u16,
}

/// How a run ended: outcome and value, steps taken, the most cells alive
/// together.
#[derive(Clone, Copy, Debug, PartialEq, Eq)]
pub struct Ended {
    pub outcome: u16,
    pub value: i32,
    pub steps: u32,
    pub cells: u16,
}

/// Runs a decoded translation.
pub fn run(program: &Program, readings: &[i32], allowances: Allowances, cells: &mut [u8]) -> Ended {
    let mut run = Run {
        nodes: &program.nodes,
        formals: &program.formals,
        readings,
        cells,
        allowances,
        steps: 0,
        live: 0,
        most: 0,
        oldest: 0,
    };
    let (outcome, value) = match run.visit(program.body, 0, 1) {
        Ok(Value::Number(number)) => (numbers::NUMBER, number),
        Ok(Value::Tuple { node, .. }) => (numbers::CONSTRUCTOR, run.fields(node).0 as i32),
        Err(number) => (number, 0),
    };
    Ended {
        outcome,
        value,
        steps: run.steps,
        cells: run.most as u16,
    }
}

impl<'a> Run<'a> {
    /// Visits a node; `open` counts the open visits, this one included. The
    /// error is the number of a stop or a fault.
    fn visit(&mut self, mut node: u16, mut context: u16, mut open: u32) -> Result<Value, u16> {
        loop {
            self.count(open)?;
            (node, context) = match &self.nodes[node as usize] {
                Node::Number(number) => return Ok(Value::Number(*number)),
                Node::Reading(reading) => {
                    return Ok(Value::Number(self.readings[*reading as usize]));
                }
                Node::Tuple { .. } => return Ok(Value::Tuple { node, context }),
                Node::Operator {
                    operator,
                    left,
                    right,
                } => {
                    let left = self.number(*left, context, open)?;
                    let right = self.number(*right, context, open)?;
                    return compute(*operator, left, right).map(Value::Number);
                }
                Node::Formal {
                    formal,
                    function,
                    position,
                } => {
                    let cell = self.head(context)?;
                    let own = two_bytes(cell, CALLEE) == *function;
                    if own {
                        if let Some(value) = remembered(cell, *position) {
                            return Ok(value);
                        }
                    }
                    let (actual, tail) = self.actual(*formal, cell)?;
                    if own {
                        let value = self.visit(actual, tail, open + 1)?;
                        self.remember(context, *position, value);
                        return Ok(value);
                    }
                    (actual, tail)
                }
                Node::Select { node, index } => {
                    let (tuple, context) = self.tuple(*node, context, open)?;
                    match (*index, self.fields(tuple)) {
                        (0, (tag, _)) => return Ok(Value::Number(tag as i32)),
                        (index, (_, fields)) => (field(fields, index)?, context),
                    }
                }
                Node::If { condition, yes, no } => {
                    let condition = self.number(*condition, context, open)?;
                    (if condition != 0 { *yes } else { *no }, context)
                }
                Node::Call {
                    label,
                    function,
                    body,
                } => {
                    let cell = self.cell(*label, context, *function)?;
                    return self.body(*body, cell, open);
                }
                Node::Case { scrutinee, clauses } => {
                    let (tuple, _) = self.tuple(*scrutinee, context, open)?;
                    (chosen(clauses, self.fields(tuple).0)?, context)
                }
            };
            open += 1;
        }
    }

    /// The two stops of a visit, and its step.
    fn count(&mut self, open: u32) -> Result<(), u16> {
        if self.steps == self.allowances.steps {
            return Err(numbers::NO_STEP);
        }
        if open > self.allowances.nesting {
            return Err(numbers::NO_NESTING);
        }
        self.steps += 1;
        Ok(())
    }

    /// Visits a node that has to give a number.
    fn number(&mut self, node: u16, context: u16, open: u32) -> Result<i32, u16> {
        match self.visit(node, context, open + 1)? {
            Value::Number(number) => Ok(number),
            Value::Tuple { .. } => Err(numbers::NUMBER_WANTED),
        }
    }

    /// Visits a node that has to give a tuple: its node and its context.
    fn tuple(&mut self, node: u16, context: u16, open: u32) -> Result<(u16, u16), u16> {
        match self.visit(node, context, open + 1)? {
            Value::Number(_) => Err(numbers::CONSTRUCTOR_WANTED),
            Value::Tuple { node, context } => Ok((node, context)),
        }
    }

    /// Tag and fields of a tuple.
    fn fields(&self, node: u16) -> (u16, &'a [u16]) {
        match &self.nodes[node as usize] {
            Node::Tuple { tag, fields } => (*tag, fields),
            _ => unreachable!("a tuple value names a tuple"),
        }
    }

    /// The bytes of a context's head.
    fn head(&self, context: u16) -> Result<&Cell, u16> {
        if context == 0 {
            return Err(numbers::NO_ACTUAL);
        }
        let cells = &self.cells[CELL_BYTES * (context as usize - 1)..];
        Ok(cells.first_chunk().expect("a whole cell"))
    }

    /// The actual that the head label names, and the tail.
    fn actual(&self, formal: u16, cell: &Cell) -> Result<(u16, u16), u16> {
        let (label, tail) = (two_bytes(cell, 0), two_bytes(cell, 2));
        let actuals = &self.formals[formal as usize];
        let actual = actuals.get(label as usize).ok_or(numbers::NO_ACTUAL)?;
        Ok((*actual, tail))
    }

    /// Visits the body of a call under its cell; after a number the cells made
    /// since the call are given back, unless an older one remembers a
    /// constructor since then.
    fn body(&mut self, body: u16, cell: u16, open: u32) -> Result<Value, u16> {
        let before = std::mem::replace(&mut self.oldest, cell);
        let value = self.visit(body, cell, open + 1)?;
        if matches!(value, Value::Number(_)) && cell <= self.oldest {
            self.live = cell as u32 - 1;
        }
        self.oldest = self.oldest.min(before);
        Ok(value)
    }

    /// One cell more, with empty entries; its number.
    fn cell(&mut self, label: u16, context: u16, function: u16) -> Result<u16, u16> {
        if self.live >= self.allowances.cells {
            return Err(numbers::NO_CELL);
        }
        let cells = &mut self.cells[CELL_BYTES * self.live as usize..];
        let cell: &mut Cell = cells.first_chunk_mut().expect("a whole cell");
        *cell = [0; CELL_BYTES];
        cell[..2].copy_from_slice(&label.to_le_bytes());
        cell[2..FIRST_ENTRY].copy_from_slice(&context.to_le_bytes());
        cell[CALLEE..].copy_from_slice(&function.to_le_bytes());
        self.live += 1;
        self.most = self.most.max(self.live);
        Ok(self.live as u16)
    }

    /// Writes the entry of a position, all but its last two bytes.
    fn remember(&mut self, context: u16, position: u16, value: Value) {
        let (kind, bytes) = match value {
            Value::Number(number) => (NUMBER, number.to_le_bytes()),
            Value::Tuple { node, context: own } => {
                self.oldest = self.oldest.min(context);
                let both = node as u32 | (own as u32) << 16;
                (CONSTRUCTOR, both.to_le_bytes())
            }
        };
        let at = CELL_BYTES * (context as usize - 1) + entry_at(position);
        let entry = &mut self.cells[at..][..6];
        entry[..2].copy_from_slice(&kind.to_le_bytes());
        entry[2..].copy_from_slice(&bytes);
    }
}

fn entry_at(position: u16) -> usize {
    FIRST_ENTRY + ENTRY_BYTES * position as usize
}

/// What a cell remembers at a position.
fn remembered(cell: &Cell, position: u16) -> Option<Value> {
    let entry = &cell[entry_at(position)..][..6];
    let [low, high] = [2, 4].map(|at| two_bytes(entry, at));
    match two_bytes(entry, 0) {
        EMPTY => None,
        NUMBER => Some(Value::Number((low as u32 | (high as u32) << 16) as i32)),
        _ => Some(Value::Tuple {
            node: low,
            context: high,
        }),
    }
}

fn field(fields: &[u16], index: u16) -> Result<u16, u16> {
    let field = fields.get(index as usize - 1);
    field.copied().ok_or(numbers::NO_FIELD)
}

fn chosen(clauses: &[(u16, u16)], tag: u16) -> Result<u16, u16> {
    let clause = clauses.iter().find(|clause| clause.0 == tag);
    clause.map(|clause| clause.1).ok_or(numbers::NO_CLAUSE)
}

fn compute(operator: Operator, left: i32, right: i32) -> Result<i32, u16> {
    Ok(match operator {
        Operator::Add => left.wrapping_add(right),
        Operator::Subtract => left.wrapping_sub(right),
        Operator::Multiply => left.checked_mul(right).ok_or(numbers::OVERFLOW)?,
        Operator::Divide if right == 0 => return Err(numbers::ZERO_DIVISOR),
        Operator::Divide => left.wrapping_div(right),
        Operator::Less => (left < right) as i32,
        Operator::Equal => (left == right) as i32,
    })
}
