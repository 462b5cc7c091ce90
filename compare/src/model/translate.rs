//! The translator (002, figure 7).

use super::sheet::{self, Sheet};
use super::translation::{Node, Translation};
use super::{trees, Behaviour};

/// Which calls of a function share a label.
#[derive(Clone, Copy, Debug, PartialEq, Eq)]
pub enum Labelling {
    /// Those that are equal trees (document 02, request 4; 002, section 3.4).
    EqualCalls,
    /// None (document 01; 002, section 2.1).
    EachCall,
}

/// The translation of an accepted sheet.
pub fn translate<B: Behaviour>(behaviour: &B, sheet: &Sheet, labelling: Labelling) -> Translation {
    let classes = match labelling {
        Labelling::EqualCalls => trees::classes(behaviour, sheet),
        Labelling::EachCall => (0..sheet.nodes.len() as u16).collect(),
    };
    let mut calls = Calls::new(sheet, classes);
    let mut nodes = Vec::with_capacity(sheet.nodes.len());
    for number in 0..sheet.nodes.len() {
        nodes.push(translate_node(sheet, number, &mut calls));
    }
    Translation {
        readings: sheet.readings,
        counts: sheet.counts.clone(),
        parameters: sheet.parameters.clone(),
        formals: calls.formals,
        nodes,
        bodies: sheet.bodies.clone(),
    }
}

/// Labels and actuals, as the calls are met.
struct Calls {
    /// First formal of each function: formals go by function, then position.
    first_formal: Vec<u16>,
    formals: Vec<Vec<u16>>,
    next_label: Vec<u16>,
    /// Calls of one class share a label.
    classes: Vec<u16>,
    /// The label of each class of calls that were met.
    labels: Vec<Option<u16>>,
}

impl Calls {
    fn new(sheet: &Sheet, classes: Vec<u16>) -> Calls {
        let mut first_formal = Vec::new();
        let mut count = 0;
        for &parameters in &sheet.parameters {
            first_formal.push(count);
            count += parameters;
        }
        Calls {
            first_formal,
            formals: vec![Vec::new(); count as usize],
            next_label: vec![0; sheet.parameters.len()],
            labels: vec![None; classes.len()],
            classes,
        }
    }

    /// The label of a call; a new one is the next number, and notes the
    /// arguments.
    fn label(&mut self, number: usize, function: u16, arguments: &[u16]) -> u16 {
        let class = self.classes[number] as usize;
        if let Some(label) = self.labels[class] {
            return label;
        }
        let callee = function as usize;
        let label = self.next_label[callee];
        self.next_label[callee] += 1;
        self.labels[class] = Some(label);
        let first = self.first_formal[callee] as usize;
        for (formal, &argument) in self.formals[first..].iter_mut().zip(arguments) {
            formal.push(argument);
        }
        label
    }
}

fn translate_node(sheet: &Sheet, number: usize, calls: &mut Calls) -> Node {
    let owner = sheet.owners[number];
    match &sheet.nodes[number] {
        &sheet::Node::Number(number) => Node::Number(number),
        &sheet::Node::Reading(reading) => Node::Reading(reading),
        &sheet::Node::Parameter(position) => {
            Node::Formal(calls.first_formal[owner as usize] + position)
        }
        &sheet::Node::Pattern(position) => Node::Select {
            node: sheet.scrutinee(owner),
            index: position + 1,
        },
        &sheet::Node::Operator { code, left, right } => Node::Operator { code, left, right },
        &sheet::Node::If { condition, yes, no } => Node::If { condition, yes, no },
        sheet::Node::Call {
            function,
            arguments,
        } => Node::Call {
            label: calls.label(number, *function, arguments),
            function: *function,
        },
        sheet::Node::Build {
            constructor,
            arguments,
        } => Node::Tuple {
            tag: *constructor,
            fields: arguments.clone(),
        },
        sheet::Node::Case { scrutinee, clauses } => Node::Case {
            scrutinee: *scrutinee,
            clauses: clauses.clone(),
        },
    }
}
