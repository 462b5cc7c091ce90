//! Faults in the types of a sheet and of its nodes, and in the rules of types.

use super::fault::Fault;
use super::Faulty;
use crate::model::rules::{case_around, clause_around};
use crate::model::sheet::{Node, Sheet};
use crate::model::types::{self, NUMBER};
use crate::model::typing::{self, Rule, Typing};
use crate::model::{Refusal, TypeBehaviour};
use zifnora::kinds::sheet as kinds;
use zifnora::sizes::MOST_TYPES;

// As in `Behaviour`, each method is the model's own step but for the faults
// that it names.
impl TypeBehaviour for Faulty {
    fn is_typed(&self, kind: u16) -> bool {
        match self.0 {
            Fault::TypedByConstructors => kind == kinds::TYPED_CONSTRUCTOR,
            _ => types::is_typed(kind),
        }
    }

    fn own_type_fits(&self, of: u16) -> bool {
        match self.0 {
            Fault::OwnTypeZero => types::type_fits(of),
            _ => types::own_type_fits(looked_at(self.0, of)),
        }
    }

    fn type_fits(&self, of: u16) -> bool {
        match self.0 {
            Fault::TypeZeroRefused => types::own_type_fits(of),
            _ => types::type_fits(looked_at(self.0, of)),
        }
    }

    fn check_types(&self, sheet: &Sheet) -> Result<(), Refusal> {
        match self.0 {
            Fault::DataTypesAlike => typing::check_types(self, &with_data_alike(sheet)),
            _ => typing::check_types(self, sheet),
        }
    }

    fn type_of(&self, typing: &Typing, node: usize) -> u16 {
        wrong_type(self.0, typing, node).unwrap_or_else(|| typing::type_of(typing, node))
    }

    fn rules(&self, typing: &Typing, node: usize) -> Vec<Rule> {
        let rules = typing::rules(typing, node);
        match self.0 {
            Fault::ClauseNodeAtCase => clause_nodes_at_case(typing, node, rules),
            Fault::PartAtItself => parts_at_themselves(typing, node, rules),
            _ => rules,
        }
    }

    fn holds(&self, typing: &Typing, rule: Rule) -> bool {
        is_skipped(self.0, typing, rule)
            || wrongly_held(self.0, typing, rule).unwrap_or_else(|| typing::holds(typing, rule))
    }

    fn ill_typed_node(&self, typing: &Typing) -> Option<usize> {
        let mut nodes = 0..typing.sheet.nodes.len();
        match self.0 {
            Fault::IllTypedLast => nodes.rfind(|&node| typing::is_ill_typed(self, typing, node)),
            _ => typing::ill_typed_node(self, typing),
        }
    }

    fn ill_typed_place(&self, typing: &Typing, node: usize) -> u32 {
        let Typing { sheet, .. } = typing;
        let function = sheet.owners[node];
        let body = sheet.bodies[function as usize] as usize == node;
        let wrong_body = body && !typing::holds(typing, Rule::Body(node as u16));
        match self.0 {
            Fault::IllTypedNodePlace => node as u32,
            Fault::BodyAtFunction if wrong_body => 1 + sheet.arities.len() as u32 + function as u32,
            _ => sheet.record_of(node),
        }
    }
}

/// A type as a fault looks at it for its range.
fn looked_at(fault: Fault, of: u16) -> u16 {
    let greatest = MOST_TYPES as u16;
    match fault {
        Fault::TypeAboveRange if of == greatest + 1 => greatest,
        Fault::TypeAtTopRefused if of == greatest => greatest + 1,
        Fault::TypeLowByte => of & 0xFF,
        _ => of,
    }
}

/// The sheet with 1 for each type of data.
fn with_data_alike(sheet: &Sheet) -> Sheet {
    let mut sheet = sheet.clone();
    if let Some(types) = &mut sheet.types {
        for types in types.constructors.iter_mut().chain(&mut types.functions) {
            types.result = types.result.min(1);
            types.parameters.iter_mut().for_each(|of| *of = 1.min(*of));
        }
    }
    sheet
}

/// The type at the position after this one, that of the first after the last.
fn next(types: &[u16], position: usize) -> u16 {
    types[(position + 1) % types.len()]
}

/// The type that a fault gives a node in place of the right one.
fn wrong_type(fault: Fault, typing: &Typing, node: usize) -> Option<u16> {
    let Typing {
        sheet,
        types,
        parents,
        of,
    } = typing;
    let own = &types.functions[sheet.owners[node] as usize];
    match (fault, &sheet.nodes[node]) {
        (Fault::CallAsNumber, Node::Call { .. }) => Some(NUMBER),
        (Fault::CallOfCaller, Node::Call { .. }) => Some(own.result),
        (Fault::BuildByConstructor, Node::Build { constructor, .. }) => Some(*constructor),
        (Fault::CaseAsNumber, Node::Case { .. }) => Some(NUMBER),
        (Fault::SecondNodeUnchecked, Node::If { no, .. }) => Some(of[*no as usize]),
        (Fault::ParameterNextPosition, Node::Parameter(position)) => {
            Some(next(&own.parameters, *position as usize))
        }
        (Fault::PatternAsNumber, Node::Pattern(_)) => Some(NUMBER),
        (Fault::PatternNextPosition, Node::Pattern(position)) => {
            let constructor = clause_around(sheet, parents, node)?;
            let fields = &types.constructors[constructor as usize].parameters;
            Some(next(fields, *position as usize))
        }
        (Fault::PatternOfFirstClause, Node::Pattern(position)) => {
            let first = case_around(sheet, parents, node)?.clauses.first()?;
            Some(typing::field_type(types, Some(first.0), *position))
        }
        _ => None,
    }
}

/// The nodes of clauses looked at where the case is.
fn clause_nodes_at_case(typing: &Typing, node: usize, mut rules: Vec<Rule>) -> Vec<Rule> {
    rules.retain(|rule| !matches!(rule, Rule::ClauseNode(_)));
    if let Node::Case { clauses, .. } = &typing.sheet.nodes[node] {
        rules.extend(clauses.iter().map(|clause| Rule::ClauseNode(clause.1)));
    }
    rules
}

/// The part of a node that a rule is about, if it is about one part alone.
fn part(rule: &Rule) -> Option<usize> {
    match *rule {
        Rule::Left(node) | Rule::Right(node) | Rule::Condition(node) => Some(node as usize),
        Rule::Argument { node, .. } | Rule::Field { node, .. } => Some(node as usize),
        Rule::Scrutinee(node) => Some(node as usize),
        _ => None,
    }
}

/// The rules about one part looked at where that part is.
fn parts_at_themselves(typing: &Typing, node: usize, mut rules: Vec<Rule>) -> Vec<Rule> {
    rules.retain(|rule| part(rule).is_none());
    if let Some(parent) = typing.parents[node] {
        let above = typing::rules(typing, parent).into_iter();
        rules.extend(above.filter(|rule| part(rule) == Some(node)));
    }
    rules
}

/// The clauses of the case above a node.
fn clauses_above<'a>(typing: &Typing<'a>, node: u16) -> &'a [(u16, u16)] {
    let parent = typing.parents[node as usize].map(|parent| &typing.sheet.nodes[parent]);
    match parent {
        Some(Node::Case { clauses, .. }) => clauses,
        _ => &[],
    }
}

/// Whether a fault does not look at a rule.
fn is_skipped(fault: Fault, typing: &Typing, rule: Rule) -> bool {
    match (fault, rule) {
        (Fault::BodyUnchecked, Rule::Body(_)) => true,
        (Fault::ClauseNodeUnchecked, Rule::ClauseNode(_)) => true,
        (Fault::FirstClauseNodeOnly, Rule::ClauseNode(node)) => {
            clauses_above(typing, node)[0].1 != node
        }
        (Fault::ClauseOfAnyType, Rule::Clause { .. }) => true,
        (
            Fault::FirstClauseOnly,
            Rule::Clause {
                constructor,
                scrutinee,
            },
        ) => clauses_above(typing, scrutinee)[0].0 != constructor,
        (Fault::NumberScrutinee, Rule::Scrutinee(_)) => true,
        (Fault::NumberScrutinee, Rule::Clause { scrutinee, .. }) => {
            typing.of[scrutinee as usize] == NUMBER
        }
        (Fault::ArgumentsUnchecked, Rule::Argument { .. }) => true,
        (
            Fault::LastArgumentUnchecked,
            Rule::Argument {
                function, position, ..
            },
        ) => position + 1 == typing.types.functions[function as usize].parameters.len(),
        (Fault::FieldsUnchecked, Rule::Field { .. }) => true,
        (
            Fault::LastFieldUnchecked,
            Rule::Field {
                constructor,
                position,
                ..
            },
        ) => {
            position + 1
                == typing.types.constructors[constructor as usize]
                    .parameters
                    .len()
        }
        (Fault::ThirdNodeUnchecked | Fault::SecondNodeUnchecked, Rule::Arms { .. }) => true,
        (Fault::ConditionUnchecked, Rule::Condition(_)) => true,
        (Fault::LeftUnchecked, Rule::Left(_)) => true,
        (Fault::RightUnchecked, Rule::Right(_)) => true,
        _ => false,
    }
}

/// Whether a fault takes a rule for kept, where it decides otherwise.
fn wrongly_held(fault: Fault, typing: &Typing, rule: Rule) -> Option<bool> {
    let Typing { sheet, types, .. } = typing;
    let of = |node: u16| typing.of[node as usize];
    match (fault, rule) {
        (
            Fault::ArgumentsShifted,
            Rule::Argument {
                node,
                function,
                position,
            },
        ) => {
            let parameters = &types.functions[function as usize].parameters;
            Some(of(node) == next(parameters, position))
        }
        (
            Fault::FieldsShifted,
            Rule::Field {
                node,
                constructor,
                position,
            },
        ) => {
            let fields = &types.constructors[constructor as usize].parameters;
            Some(of(node) == next(fields, position))
        }
        (Fault::ResultNotNumber, Rule::Body(node)) if sheet.owners[node as usize] == 0 => {
            Some(of(node) == NUMBER)
        }
        (Fault::MissingClauseRefused, Rule::Scrutinee(node)) => {
            let clauses = clauses_above(typing, node);
            let has_clause = |number: u16| clauses.iter().any(|clause| clause.0 == number);
            let mut constructors = (0..).zip(&types.constructors);
            Some(constructors.all(|(number, types)| types.result != of(node) || has_clause(number)))
        }
        _ => None,
    }
}
