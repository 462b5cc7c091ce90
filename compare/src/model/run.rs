//! The run of a translation.

use super::answer::Answer;
use super::cells::{Cell, Value, CELL_BYTES};
use super::live_cells::LiveCells;
use super::translation::{self, Node, Translation};
use super::{Behaviour, Refusal};
use crate::interface::Allowances;
use zifnora::numbers;

/// The ceilings of the allowances.
const NESTING: u32 = 1024;
const CELLS: u32 = 960;

pub struct Run<'a, B> {
    behaviour: &'a B,
    pub translation: &'a Translation,
    readings: &'a [i32],
    allowances: Allowances,
    /// The lent bytes, as they were before the run until it has ended.
    pub lent: &'a mut [u8],
    /// Function and position of each formal.
    places: Vec<(u16, u16)>,
    pub steps: u32,
    pub cells: LiveCells,
}

/// Runs a translation file; the cells that were alive are left in the lent
/// bytes.
pub fn run<B: Behaviour>(
    behaviour: &B,
    file: &[u8],
    readings: &[i32],
    allowances: Allowances,
    lent: &mut [u8],
) -> Answer {
    match behaviour.accept(file, readings, allowances, lent.len()) {
        Ok(translation) => behaviour.run_accepted(&translation, readings, allowances, lent),
        Err(refusal) => Answer::refused(refusal),
    }
}

/// The file's own checks, then the count of readings, then the allowances.
pub fn accept<B: Behaviour>(
    behaviour: &B,
    file: &[u8],
    readings: &[i32],
    allowances: Allowances,
    lent: usize,
) -> Result<Translation, Refusal> {
    let translation = translation::read(behaviour, file)?;
    check_input(behaviour, &translation, readings, allowances, lent)?;
    Ok(translation)
}

/// 9, then 10.
pub fn check_input<B: Behaviour>(
    behaviour: &B,
    translation: &Translation,
    readings: &[i32],
    allowances: Allowances,
    lent: usize,
) -> Result<(), Refusal> {
    if readings.len() != translation.readings as usize {
        return Err(Refusal::new(numbers::BAD_READINGS, 0));
    }
    if behaviour.bad_allowance(allowances, lent) {
        return Err(Refusal::new(numbers::BAD_ALLOWANCE, 0));
    }
    Ok(())
}

pub fn bad_allowance(allowances: Allowances, lent: usize) -> bool {
    !(1..=NESTING).contains(&allowances.nesting)
        || allowances.cells > CELLS
        || lent < CELL_BYTES * allowances.cells as usize
}

/// Runs a translation on readings that are as many as it asks for, with
/// allowances that are within their ceilings.
pub fn run_accepted<B: Behaviour>(
    behaviour: &B,
    translation: &Translation,
    readings: &[i32],
    allowances: Allowances,
    lent: &mut [u8],
) -> Answer {
    let formals = 0..translation.formals.len() as u16;
    let mut run = Run {
        behaviour,
        translation,
        readings,
        allowances,
        lent,
        places: formals
            .map(|formal| behaviour.place_of(translation, formal))
            .collect(),
        steps: 0,
        cells: LiveCells::default(),
    };
    let end = run.visit(translation.bodies[0], 0, 1);
    behaviour.write_cells(&run.cells.written, run.lent);
    run.answer(end)
}

/// The stop of a visit for which no step is left or which is too deep: 11
/// before 12.
pub fn stop(no_step: bool) -> u16 {
    if no_step {
        numbers::NO_STEP
    } else {
        numbers::NO_NESTING
    }
}

/// The node of the first clause with a tag.
pub fn chosen_clause(clauses: &[(u16, u16)], tag: u16) -> Option<u16> {
    let clause = clauses.iter().find(|clause| clause.0 == tag);
    clause.map(|clause| clause.1)
}

impl<B: Behaviour> Run<'_, B> {
    /// The answer of a run that ended so.
    fn answer(&self, end: Result<Value, u16>) -> Answer {
        let mut answer = Answer {
            steps: self.steps,
            cells: self.behaviour.cell_count(&self.cells, &end) as u16,
            ..Answer::default()
        };
        match end {
            Ok(Value::Number(number)) => answer.value = number,
            Ok(Value::Tuple { node, context }) => {
                answer.outcome = numbers::CONSTRUCTOR;
                answer.value = self.tuple(node).0 as i32;
                answer.node = node;
                answer.context = context;
            }
            Err(number) => answer.outcome = number,
        }
        answer
    }

    /// Visits a node; `open` counts the open visits, this one included.
    pub fn visit(&mut self, node: u16, context: u16, open: u32) -> Result<Value, u16> {
        self.count(open)?;
        let translation = self.translation;
        match &translation.nodes[node as usize] {
            Node::Number(number) => Ok(Value::Number(*number)),
            Node::Reading(reading) => Ok(Value::Number(self.readings[*reading as usize])),
            Node::Formal(formal) => self.formal(*formal, context, open),
            Node::Select { node, index } => self.select(*node, *index, context, open),
            Node::Operator { code, left, right } => {
                let behaviour = self.behaviour;
                let (left, right) = behaviour.operands(self, (*left, *right), context, open)?;
                behaviour.operate(*code, left, right).map(Value::Number)
            }
            Node::If { condition, yes, no } => {
                let condition = self.number(*condition, context, open)?;
                let taken = if condition != 0 { *yes } else { *no };
                self.visit(taken, context, open + 1)
            }
            Node::Call { label, function } => self.call(*label, *function, context, open),
            Node::Tuple { .. } => self.behaviour.visit_tuple(self, node, context, open),
            Node::Case { scrutinee, clauses } => self.case(*scrutinee, clauses, context, open),
        }
    }

    /// The two stops of a visit, and its step.
    fn count(&mut self, open: u32) -> Result<(), u16> {
        let no_step = self.steps == self.allowances.steps;
        let too_deep = open > self.allowances.nesting;
        if no_step || too_deep {
            return Err(self.behaviour.stop(no_step, too_deep));
        }
        self.steps += 1;
        Ok(())
    }

    /// One cell more, and the body under it; then cells may be given back.
    fn call(&mut self, label: u16, function: u16, context: u16, open: u32) -> Result<Value, u16> {
        let behaviour = self.behaviour;
        if behaviour.is_full(&self.cells, self.allowances.cells) {
            return Err(numbers::NO_CELL);
        }
        let cell = behaviour.new_cell(self, Cell::new(label, context, function));
        let cell = self.cells.open(cell);
        behaviour.count_opened(&mut self.cells);
        let body = self.translation.bodies[function as usize];
        let end = self.visit(body, cell, open + 1);
        behaviour.close_call(&mut self.cells, &end);
        end
    }

    /// Visits a node that has to give a number.
    fn number(&mut self, node: u16, context: u16, open: u32) -> Result<i32, u16> {
        match self.visit(node, context, open + 1)? {
            Value::Number(number) => Ok(number),
            Value::Tuple { .. } => Err(numbers::NUMBER_WANTED),
        }
    }

    /// Visits a node that has to give a constructor: node and context.
    fn constructor(&mut self, node: u16, context: u16, open: u32) -> Result<(u16, u16), u16> {
        match self.visit(node, context, open + 1)? {
            Value::Number(_) => Err(numbers::CONSTRUCTOR_WANTED),
            Value::Tuple { node, context } => Ok((node, context)),
        }
    }

    /// Tag and fields of a tuple.
    pub fn tuple(&self, node: u16) -> (u16, &[u16]) {
        match &self.translation.nodes[node as usize] {
            Node::Tuple { tag, fields } => (*tag, fields),
            _ => unreachable!("a tuple value names a tuple node"),
        }
    }

    /// The left operand has to be a number before the right is visited.
    pub fn operands(
        &mut self,
        (left, right): (u16, u16),
        context: u16,
        open: u32,
    ) -> Result<(i32, i32), u16> {
        let left = self.number(left, context, open)?;
        let right = self.number(right, context, open)?;
        Ok((left, right))
    }

    /// "if the head cell remembers it, that value is used, else the actual is
    /// visited and a value is remembered".
    fn formal(&mut self, formal: u16, context: u16, open: u32) -> Result<Value, u16> {
        if context == 0 {
            return Err(numbers::NO_ACTUAL);
        }
        let number = context as usize - 1;
        let cell = self.cells.written[number];
        let (function, position) = self.places[formal as usize];
        let behaviour = self.behaviour;
        if behaviour.uses(cell.callee, function) {
            if let Some(value) = cell.remembered(position) {
                return Ok(behaviour.recall(self, context, value));
            }
        }
        let end = self.actual(formal, context, open);
        match behaviour.worth_remembering(end) {
            Some(value) if behaviour.remembers(cell.callee, function) => {
                behaviour.remember(&mut self.cells.written[number], position, value);
                behaviour.note_remembered(&mut self.cells, context, value);
            }
            _ => {}
        }
        end
    }

    /// The actual that the head label names, under the tail.
    fn actual(&mut self, formal: u16, context: u16, open: u32) -> Result<Value, u16> {
        let cell = self.cells.written[context as usize - 1];
        let actuals = &self.translation.formals[formal as usize];
        let Some(&actual) = actuals.get(cell.label as usize) else {
            return Err(numbers::NO_ACTUAL);
        };
        let under = self.behaviour.actual_context(context, cell.previous);
        self.visit(actual, under, open + 1)
    }

    /// Index 0 is the tag; index i is field i-1 under the tuple's context.
    fn select(&mut self, node: u16, index: u16, context: u16, open: u32) -> Result<Value, u16> {
        let (tuple, own) = self.constructor(node, context, open)?;
        let (tag, fields) = self.tuple(tuple);
        if index == 0 {
            return Ok(Value::Number(tag as i32));
        }
        let Some(&field) = fields.get(index as usize - 1) else {
            return Err(numbers::NO_FIELD);
        };
        let under = self.behaviour.field_context(context, own);
        self.visit(field, under, open + 1)
    }

    /// The scrutinee, then the first clause with its tag.
    fn case(
        &mut self,
        scrutinee: u16,
        clauses: &[(u16, u16)],
        context: u16,
        open: u32,
    ) -> Result<Value, u16> {
        let (tuple, _) = self.constructor(scrutinee, context, open)?;
        let (tag, _) = self.tuple(tuple);
        let Some(clause) = self.behaviour.chosen_clause(clauses, tag) else {
            return Err(numbers::NO_CLAUSE);
        };
        self.visit(clause, context, open + 1)
    }
}
