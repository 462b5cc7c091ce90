//! Well typed sheets with one thing in them changed, so that few rules of types
//! are broken, or none.

use super::random::Random;
use zifnora::build_sheet::{build, call, number, parameter, pattern, Expr, TypedProgram};

/// Changes a sheet in one way.
pub fn break_types(random: &mut Random, program: &mut TypedProgram) {
    match random.below(20) {
        0..=8 => exchange(random, program),
        9..=11 => shift(random, program),
        12 | 13 => redeclare_result(random, program),
        14..=16 => redeclare_part(random, program),
        17 | 18 => add_clause(random, program),
        _ => number_constructor(random, program),
    }
}

/// What an expression is to the one that it is a part of.
#[derive(Clone, Copy, Debug, PartialEq, Eq, PartialOrd, Ord)]
enum Role {
    Body,
    Left,
    Right,
    Condition,
    Yes,
    No,
    Argument,
    Field,
    Scrutinee,
    Clause,
}

/// Where an expression stands: its role, and the constructor of the clause
/// around.
#[derive(Clone, Copy)]
struct Place {
    role: Role,
    clause: Option<u16>,
}

/// Sees the body of a function and all its parts, each after its own parts.
fn each(body: &mut Expr, see: &mut impl FnMut(&mut Expr, Place)) {
    let place = Place {
        role: Role::Body,
        clause: None,
    };
    each_part(body, place, see);
}

fn each_part(expr: &mut Expr, place: Place, see: &mut impl FnMut(&mut Expr, Place)) {
    let mut part = |part: &mut Expr, role: Role| each_part(part, Place { role, ..place }, see);
    match expr {
        Expr::Number(_) | Expr::Reading(_) | Expr::Parameter(_) | Expr::Pattern(_) => {}
        Expr::Operator(_, left, right) => {
            part(left, Role::Left);
            part(right, Role::Right);
        }
        Expr::If(condition, yes, no) => {
            part(condition, Role::Condition);
            part(yes, Role::Yes);
            part(no, Role::No);
        }
        Expr::Call(_, parts) => parts.iter_mut().for_each(|one| part(one, Role::Argument)),
        Expr::Build(_, parts) => parts.iter_mut().for_each(|one| part(one, Role::Field)),
        Expr::Case(scrutinee, clauses) => {
            part(scrutinee, Role::Scrutinee);
            for (constructor, node) in clauses {
                let clause = Some(*constructor);
                let role = Role::Clause;
                each_part(node, Place { role, clause }, see);
            }
        }
    }
    see(expr, place);
}

/// Exchanges one expression, of any role alike, for a small one that is mostly of
/// another type.
fn exchange(random: &mut Random, program: &mut TypedProgram) {
    let old = program.clone();
    let mut roles = Vec::new();
    for (.., body) in &mut program.functions {
        each(body, &mut |_, place| roles.push(place.role));
    }
    let mut present = roles.clone();
    present.sort();
    present.dedup();
    let role = random.pick(&present);
    let places: Vec<usize> = (0..roles.len()).filter(|&at| roles[at] == role).collect();
    let chosen = random.pick(&places);
    let mut at = 0;
    for (function, (.., body)) in program.functions.iter_mut().enumerate() {
        each(body, &mut |expr, place| {
            if at == chosen {
                *expr = small(random, &old, function, place.clause);
            }
            at += 1;
        });
    }
}

/// A small expression of any type that can stand in a function and a clause.
fn small(
    random: &mut Random,
    program: &TypedProgram,
    function: usize,
    clause: Option<u16>,
) -> Expr {
    let fields = clause.map_or(0, |clause| program.constructors[clause as usize].1.len());
    let parameters = program.functions[function].1.len();
    let constructors = program.constructors.len();
    match random.below(8) {
        0 if parameters > 0 => parameter(random.below(parameters) as u16),
        1 if fields > 0 => pattern(random.below(fields) as u16),
        2 | 3 => {
            let callee = random.below(program.functions.len());
            let parameters = program.functions[callee].1.iter();
            let arguments = parameters.map(|&of| simplest(program, of, DEPTH));
            call(callee as u16, arguments.collect())
        }
        4..=6 if constructors > 0 => built(program, random.below(constructors), DEPTH),
        _ => number(random.number()),
    }
}

/// How deep the simplest expression of a type may be.
const DEPTH: u32 = 3;

/// An expression of a type, if there is one so deep; else a number.
fn simplest(program: &TypedProgram, of: u16, depth: u32) -> Expr {
    let all = program.constructors.iter().enumerate();
    let own = all.filter(|(_, constructor)| constructor.0 == of);
    match own.min_by_key(|(_, constructor)| constructor.1.len()) {
        Some((constructor, _)) if depth > 0 => built(program, constructor, depth - 1),
        _ => number(0),
    }
}

fn built(program: &TypedProgram, constructor: usize, depth: u32) -> Expr {
    let fields = program.constructors[constructor].1.iter();
    let arguments = fields.map(|&of| simplest(program, of, depth));
    build(constructor as u16, arguments.collect())
}

/// Shifts all positions of a kind by one: of pattern variables, of parameters,
/// of arguments or of built fields.
fn shift(random: &mut Random, program: &mut TypedProgram) {
    let way = random.below(4);
    let forward = random.chance(50);
    let shifted = |position: u16, count: usize| {
        let by = if forward { 1 } else { count - 1 };
        ((position as usize + by) % count) as u16
    };
    let arities: Vec<usize> = program.constructors.iter().map(|all| all.1.len()).collect();
    for (_, parameters, body) in &mut program.functions {
        each(body, &mut |expr, place| match (way, expr) {
            (0, Expr::Pattern(position)) => {
                let clause = place.clause.expect("stands in a clause");
                *position = shifted(*position, arities[clause as usize]);
            }
            (1, Expr::Parameter(position)) => *position = shifted(*position, parameters.len()),
            (2, Expr::Call(_, parts)) | (3, Expr::Build(_, parts)) if !parts.is_empty() => {
                let by = shifted(0, parts.len());
                parts.rotate_left(by as usize);
            }
            _ => {}
        });
    }
}

/// Gives a function the result type of a constructor and a body of that type;
/// its calls stay.
fn redeclare_result(random: &mut Random, program: &mut TypedProgram) {
    if program.constructors.is_empty() {
        return;
    }
    let constructor = random.below(program.constructors.len());
    let body = built(program, constructor, DEPTH);
    let function = random.below(program.functions.len());
    let own = program.constructors[constructor].0;
    let redeclared = &mut program.functions[function];
    (redeclared.0, redeclared.2) = (own, body);
}

/// Gives a field or a parameter another type, and all that is built or called
/// with it a part of that type; its uses stay.
fn redeclare_part(random: &mut Random, program: &mut TypedProgram) {
    let constructors = program.constructors.iter();
    let mut types: Vec<u16> = constructors.map(|constructor| constructor.0).collect();
    types.push(0);
    let of = random.pick(&types);
    let part = simplest(program, of, DEPTH);
    let field = random.chance(60);
    let all: Vec<&mut Vec<u16>> = match field {
        true => program
            .constructors
            .iter_mut()
            .map(|all| &mut all.1)
            .collect(),
        false => program.functions.iter_mut().map(|all| &mut all.1).collect(),
    };
    let mut with_parts: Vec<(usize, &mut Vec<u16>)> = all.into_iter().enumerate().collect();
    with_parts.retain(|(_, parts)| !parts.is_empty());
    if with_parts.is_empty() {
        return;
    }
    let (number, parts) = with_parts.swap_remove(random.below(with_parts.len()));
    let position = random.below(parts.len());
    parts[position] = of;
    for (.., body) in &mut program.functions {
        each(body, &mut |expr, _| match expr {
            Expr::Build(own, parts) if field && *own as usize == number => {
                parts[position] = part.clone();
            }
            Expr::Call(own, parts) if !field && *own as usize == number => {
                parts[position] = part.clone();
            }
            _ => {}
        });
    }
}

/// Gives a case a clause for any constructor, in its place.
fn add_clause(random: &mut Random, program: &mut TypedProgram) {
    let old = program.clone();
    let mut cases = Vec::new();
    for (result, _, body) in &mut program.functions {
        if let Expr::Case(_, clauses) = body {
            cases.push((*result, clauses));
        }
    }
    if cases.is_empty() {
        return;
    }
    let (result, clauses) = cases.swap_remove(random.below(cases.len()));
    let constructor = random.below(old.constructors.len()) as u16;
    let place = clauses.partition_point(|clause| clause.0 < constructor);
    let there = clauses.get(place).map(|clause| clause.0);
    if there != Some(constructor) {
        clauses.insert(place, (constructor, simplest(&old, result, DEPTH)));
    }
}

/// Adds a constructor of type 0, and builds it in place of one number.
fn number_constructor(random: &mut Random, program: &mut TypedProgram) {
    let constructor = program.constructors.len() as u16;
    program.constructors.push((0, vec![]));
    let function = random.below(program.functions.len());
    each(&mut program.functions[function].2, &mut |expr, _| {
        if matches!(expr, Expr::Number(_)) && random.chance(20) {
            *expr = build(constructor, vec![]);
        }
    });
}
