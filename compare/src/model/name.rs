//! Call by name: the sheet's own answer, by document 01's "Meaning".
//! No labels, no cells, no allowances; a step and a depth budget keep it
//! finite here.

use super::operator;
use super::sheet::{Node, Sheet};
use zifnora::numbers::{CONSTRUCTOR, CONSTRUCTOR_WANTED, NO_CLAUSE, NUMBER, NUMBER_WANTED};

/// The sheet's own answer.
#[derive(Clone, Copy, Debug, PartialEq, Eq)]
pub enum Own {
    Number(i32),
    Constructor(u16),
    Fault(u16),
    /// Not known within the budget.
    Unknown,
}

impl Own {
    /// Outcome and value as a run's answer would have them.
    pub fn outcome(&self) -> Option<(u16, i32)> {
        match *self {
            Own::Number(number) => Some((NUMBER, number)),
            Own::Constructor(number) => Some((CONSTRUCTOR, number as i32)),
            Own::Fault(number) => Some((number, 0)),
            Own::Unknown => None,
        }
    }
}

/// A constructor: the node that built it, and the setting it was built in.
#[derive(Clone, Copy)]
struct Built {
    node: u16,
    setting: usize,
}

/// Parameters stand for the arguments of `call`, each in setting `from`.
/// `held` is the constructor that a case has chosen by.
#[derive(Clone, Copy)]
struct Setting {
    call: Option<u16>,
    from: usize,
    held: Option<Built>,
}

impl Setting {
    fn of_call(call: u16, from: usize) -> Setting {
        Setting {
            call: Some(call),
            from,
            held: None,
        }
    }
}

enum Value {
    Number(i32),
    Built(Built),
}

enum End {
    Fault(u16),
    Budget,
}

struct Meaning<'a> {
    sheet: &'a Sheet,
    readings: &'a [i32],
    settings: Vec<Setting>,
    steps_left: u64,
    depth: u32,
}

/// The sheet's own answer, within a budget of steps and of depth.
pub fn answer(sheet: &Sheet, readings: &[i32], steps: u64, depth: u32) -> Own {
    let nothing = Setting {
        call: None,
        from: 0,
        held: None,
    };
    let mut meaning = Meaning {
        sheet,
        readings,
        settings: vec![nothing],
        steps_left: steps,
        depth,
    };
    match meaning.value(sheet.bodies[0], 0, 1) {
        Ok(Value::Number(number)) => Own::Number(number),
        Ok(Value::Built(built)) => Own::Constructor(meaning.built(built).0),
        Err(End::Fault(number)) => Own::Fault(number),
        Err(End::Budget) => Own::Unknown,
    }
}

impl<'a> Meaning<'a> {
    fn value(&mut self, node: u16, setting: usize, depth: u32) -> Result<Value, End> {
        if self.steps_left == 0 || depth > self.depth {
            return Err(End::Budget);
        }
        self.steps_left -= 1;
        let sheet = self.sheet;
        match &sheet.nodes[node as usize] {
            Node::Number(number) => Ok(Value::Number(*number)),
            Node::Reading(reading) => Ok(Value::Number(self.readings[*reading as usize])),
            Node::Parameter(position) => {
                let Setting { call, from, .. } = self.settings[setting];
                let arguments = self.arguments(call);
                self.value(arguments[*position as usize], from, depth + 1)
            }
            Node::Call { function, .. } => {
                let fresh = self.add(Setting::of_call(node, setting));
                self.value(sheet.bodies[*function as usize], fresh, depth + 1)
            }
            Node::Build { .. } => Ok(Value::Built(Built { node, setting })),
            Node::Case { scrutinee, clauses } => self.case(*scrutinee, clauses, setting, depth),
            Node::Pattern(position) => {
                let built = self.settings[setting].held.expect("stands in a clause");
                let field = self.built(built).1[*position as usize];
                self.value(field, built.setting, depth + 1)
            }
            Node::If { condition, yes, no } => {
                let condition = self.number(*condition, setting, depth + 1)?;
                let taken = if condition != 0 { *yes } else { *no };
                self.value(taken, setting, depth + 1)
            }
            Node::Operator { code, left, right } => {
                let left = self.number(*left, setting, depth + 1)?;
                let right = self.number(*right, setting, depth + 1)?;
                let result = operator::apply(*code, left, right);
                result.map(Value::Number).map_err(End::Fault)
            }
        }
    }

    fn case(
        &mut self,
        scrutinee: u16,
        clauses: &[(u16, u16)],
        setting: usize,
        depth: u32,
    ) -> Result<Value, End> {
        let built = match self.value(scrutinee, setting, depth + 1)? {
            Value::Number(_) => return Err(End::Fault(CONSTRUCTOR_WANTED)),
            Value::Built(built) => built,
        };
        let (constructor, _) = self.built(built);
        let Some(clause) = clauses.iter().find(|clause| clause.0 == constructor) else {
            return Err(End::Fault(NO_CLAUSE));
        };
        let holding = Setting {
            held: Some(built),
            ..self.settings[setting]
        };
        let holding = self.add(holding);
        self.value(clause.1, holding, depth + 1)
    }

    fn number(&mut self, node: u16, setting: usize, depth: u32) -> Result<i32, End> {
        match self.value(node, setting, depth)? {
            Value::Number(number) => Ok(number),
            Value::Built(_) => Err(End::Fault(NUMBER_WANTED)),
        }
    }

    fn add(&mut self, setting: Setting) -> usize {
        self.settings.push(setting);
        self.settings.len() - 1
    }

    fn arguments(&self, call: Option<u16>) -> &'a [u16] {
        match call.map(|node| &self.sheet.nodes[node as usize]) {
            Some(Node::Call { arguments, .. }) => arguments,
            _ => unreachable!("a parameter stands in a called function"),
        }
    }

    /// Constructor number and argument nodes.
    fn built(&self, built: Built) -> (u16, &'a [u16]) {
        match &self.sheet.nodes[built.node as usize] {
            Node::Build {
                constructor,
                arguments,
            } => (*constructor, arguments),
            _ => unreachable!("built by a build node"),
        }
    }
}
