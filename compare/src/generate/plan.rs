//! The plan of a random sheet: readings, constructors and functions, each
//! with types (0 number, 1.. data) so that most sheets do some work before
//! they fault. A few expressions break the types on purpose, unless the plan
//! is strict.

use super::random::Random;

pub struct Constructor {
    pub own: u16,
    pub fields: Vec<u16>,
}

pub struct Function {
    pub result: u16,
    pub parameters: Vec<u16>,
}

pub struct Plan {
    pub readings: u16,
    pub types: u16,
    pub constructors: Vec<Constructor>,
    pub functions: Vec<Function>,
    /// With fuel, the first parameter of a function is a number that calls
    /// count down, so that most recursion ends.
    pub fuel: bool,
    /// No expression breaks the types; the first constructor of each type
    /// takes numbers only.
    pub strict: bool,
}

/// Ranges from which a plan's counts are taken.
pub struct Limits {
    pub readings: (usize, usize),
    pub constructors: (usize, usize),
    pub functions: (usize, usize),
    pub parameters: (usize, usize),
    pub arity: (usize, usize),
}

fn between(random: &mut Random, range: (usize, usize)) -> usize {
    random.between(range.0, range.1)
}

/// A number, or one of so many types of data.
fn some_type(random: &mut Random, types: u16) -> u16 {
    if types == 0 || random.chance(45) {
        0
    } else {
        random.between(1, types as usize) as u16
    }
}

pub fn plan(random: &mut Random, limits: &Limits, strict: bool) -> Plan {
    let readings = between(random, limits.readings) as u16;
    let count = between(random, limits.constructors);
    let types = if count == 0 {
        0
    } else {
        random.between(1, 3.min(count)) as u16
    };
    let fuel = random.chance(75);
    let constructors = (0..count)
        .map(|number| constructor(random, limits, types, strict, number))
        .collect();
    let count = between(random, limits.functions);
    let mut functions: Vec<Function> = (0..count)
        .map(|number| function(random, limits, types, fuel, number))
        .collect();
    // Most sheets end with a number.
    if random.chance(70) {
        functions[0].result = 0;
    }
    Plan {
        readings,
        types,
        constructors,
        functions,
        fuel,
        strict,
    }
}

/// The first constructor of a type of data.
pub fn first_of(of: u16) -> usize {
    of as usize - 1
}

/// The first constructor of a type has no or few fields.
fn constructor(
    random: &mut Random,
    limits: &Limits,
    types: u16,
    strict: bool,
    number: usize,
) -> Constructor {
    let first = number < types as usize;
    let greatest = if first {
        2.max(limits.arity.0)
    } else {
        limits.arity.1
    };
    let arity = random.between(limits.arity.0, greatest);
    let taken = if first && strict { 0 } else { types };
    Constructor {
        own: number as u16 % types + 1,
        fields: (0..arity).map(|_| some_type(random, taken)).collect(),
    }
}

fn function(
    random: &mut Random,
    limits: &Limits,
    types: u16,
    fuel: bool,
    number: usize,
) -> Function {
    let mut parameters = Vec::new();
    if number > 0 {
        let count = between(random, limits.parameters);
        parameters = (0..count).map(|_| some_type(random, types)).collect();
    }
    if fuel && !parameters.is_empty() {
        parameters[0] = 0;
    }
    Function {
        result: some_type(random, types),
        parameters,
    }
}
