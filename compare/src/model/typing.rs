//! The rules of types (document 02, request 11): 22 at the first node that
//! breaks one.

use super::rules::{clause_around, parents};
use super::sheet::{Node, Sheet};
use super::types::{Types, NUMBER};
use super::{Refusal, TypeBehaviour};
use zifnora::numbers::ILL_TYPED;

/// A typed sheet with the types of its nodes.
pub struct Typing<'a> {
    pub sheet: &'a Sheet,
    pub types: &'a Types,
    pub parents: Vec<Option<usize>>,
    /// The types of the nodes so far.
    pub of: Vec<u16>,
}

/// A rule about nodes, with what it is about.
#[derive(Clone, Copy, Debug, PartialEq, Eq)]
pub enum Rule {
    /// "operators, their operands and conditions are of type 0".
    Left(u16),
    Right(u16),
    Condition(u16),
    /// "Both arms of an if agree".
    Arms {
        yes: u16,
        no: u16,
    },
    /// "Arguments have their callee's parameter types".
    Argument {
        node: u16,
        function: u16,
        position: usize,
    },
    /// "built fields have their constructor's field types".
    Field {
        node: u16,
        constructor: u16,
        position: usize,
    },
    /// "the scrutinee's type, which is not 0".
    Scrutinee(u16),
    /// "Clauses belong to the scrutinee's type".
    Clause {
        constructor: u16,
        scrutinee: u16,
    },
    /// "A body, or of a case each clause's node, has its function's result type".
    Body(u16),
    ClauseNode(u16),
}

/// "22 (ill typed), after 6, at the first node in order that breaks a rule".
pub fn check_types<B: TypeBehaviour>(behaviour: &B, sheet: &Sheet) -> Result<(), Refusal> {
    let Some(types) = &sheet.types else {
        return Ok(());
    };
    let typing = typing(behaviour, sheet, types);
    match behaviour.ill_typed_node(&typing) {
        Some(node) => {
            let place = behaviour.ill_typed_place(&typing, node);
            Err(Refusal::new(ILL_TYPED, place))
        }
        None => Ok(()),
    }
}

/// Children are smaller, so their types are known.
fn typing<'a, B: TypeBehaviour>(behaviour: &B, sheet: &'a Sheet, types: &'a Types) -> Typing<'a> {
    let mut typing = Typing {
        sheet,
        types,
        parents: parents(sheet),
        of: Vec::with_capacity(sheet.nodes.len()),
    };
    for node in 0..sheet.nodes.len() {
        let of = behaviour.type_of(&typing, node);
        typing.of.push(of);
    }
    typing
}

/// The type of a node.
pub fn type_of(typing: &Typing, node: usize) -> u16 {
    let Typing { sheet, types, .. } = typing;
    let function = &types.functions[sheet.owners[node] as usize];
    match &sheet.nodes[node] {
        Node::Number(_) | Node::Reading(_) | Node::Operator { .. } => NUMBER,
        Node::Parameter(position) => function.parameters[*position as usize],
        Node::Pattern(position) => {
            let constructor = clause_around(sheet, &typing.parents, node);
            field_type(types, constructor, *position)
        }
        Node::If { yes, .. } => typing.of[*yes as usize],
        Node::Call { function, .. } => types.functions[*function as usize].result,
        Node::Build { constructor, .. } => types.constructors[*constructor as usize].result,
        Node::Case { .. } => function.result,
    }
}

/// The type of a pattern variable by its constructor; the rules for it are
/// checked before.
pub fn field_type(types: &Types, constructor: Option<u16>, position: u16) -> u16 {
    let fields = constructor.map(|number| &types.constructors[number as usize].parameters);
    let field = fields.and_then(|fields| fields.get(position as usize));
    field.copied().unwrap_or(NUMBER)
}

/// The first node that breaks a rule.
pub fn ill_typed_node<B: TypeBehaviour>(behaviour: &B, typing: &Typing) -> Option<usize> {
    (0..typing.sheet.nodes.len()).find(|&node| is_ill_typed(behaviour, typing, node))
}

pub fn is_ill_typed<B: TypeBehaviour>(behaviour: &B, typing: &Typing, node: usize) -> bool {
    let rules = behaviour.rules(typing, node);
    rules.into_iter().any(|rule| !behaviour.holds(typing, rule))
}

/// The rules that break at a node: "a wrong body or clause's node breaks at
/// itself, all else at the parent".
pub fn rules(typing: &Typing, node: usize) -> Vec<Rule> {
    let mut rules = rules_about_children(&typing.sheet.nodes[node]);
    let function = typing.sheet.owners[node];
    if typing.sheet.bodies[function as usize] as usize == node {
        rules.push(Rule::Body(node as u16));
    }
    if is_clause(typing, node) {
        rules.push(Rule::ClauseNode(node as u16));
    }
    rules
}

fn rules_about_children(node: &Node) -> Vec<Rule> {
    match node {
        Node::Number(_) | Node::Reading(_) | Node::Parameter(_) | Node::Pattern(_) => vec![],
        &Node::Operator { left, right, .. } => vec![Rule::Left(left), Rule::Right(right)],
        &Node::If { condition, yes, no } => {
            vec![Rule::Condition(condition), Rule::Arms { yes, no }]
        }
        Node::Call {
            function,
            arguments,
        } => {
            let arguments = arguments.iter().enumerate();
            let rule = |(position, &node)| Rule::Argument {
                node,
                function: *function,
                position,
            };
            arguments.map(rule).collect()
        }
        Node::Build {
            constructor,
            arguments,
        } => {
            let arguments = arguments.iter().enumerate();
            let rule = |(position, &node)| Rule::Field {
                node,
                constructor: *constructor,
                position,
            };
            arguments.map(rule).collect()
        }
        Node::Case { scrutinee, clauses } => {
            let mut rules = vec![Rule::Scrutinee(*scrutinee)];
            rules.extend(clauses.iter().map(|clause| Rule::Clause {
                constructor: clause.0,
                scrutinee: *scrutinee,
            }));
            rules
        }
    }
}

/// Whether a node is that of a clause.
fn is_clause(typing: &Typing, node: usize) -> bool {
    let parent = typing.parents[node].map(|parent| &typing.sheet.nodes[parent]);
    match parent {
        Some(Node::Case { clauses, .. }) => clauses.iter().any(|clause| clause.1 as usize == node),
        _ => false,
    }
}

pub fn holds(typing: &Typing, rule: Rule) -> bool {
    let Typing { sheet, types, .. } = typing;
    let of = |node: u16| typing.of[node as usize];
    match rule {
        Rule::Left(node) | Rule::Right(node) | Rule::Condition(node) => of(node) == NUMBER,
        Rule::Arms { yes, no } => of(yes) == of(no),
        Rule::Argument {
            node,
            function,
            position,
        } => of(node) == types.functions[function as usize].parameters[position],
        Rule::Field {
            node,
            constructor,
            position,
        } => of(node) == types.constructors[constructor as usize].parameters[position],
        Rule::Scrutinee(node) => of(node) != NUMBER,
        Rule::Clause {
            constructor,
            scrutinee,
        } => types.constructors[constructor as usize].result == of(scrutinee),
        Rule::Body(node) | Rule::ClauseNode(node) => {
            let function = sheet.owners[node as usize];
            of(node) == types.functions[function as usize].result
        }
    }
}
