//! Types for sheets. Those that a rule of types makes the same are found by
//! joining classes; what is left open is picked.

use super::random::Random;
use super::repeat::Site;
use zifnora::build_sheet::{Expr, Program, TypedProgram};
use zifnora::sizes::MOST_TYPES;

/// The types that a sheet names: class 0 is that of numbers; then come those of
/// each constructor, its own first, and of each function, its result first.
struct Classes {
    constructors: Vec<usize>,
    functions: Vec<usize>,
    /// The class that a class was joined with, itself if none.
    joined: Vec<usize>,
    /// Whether a class has a constructor's own type.
    data: Vec<bool>,
    well_typed: bool,
}

const NUMBER: usize = 0;

/// The sheet with types that keep all rules, if there are such types; else with
/// types that break some. And whether it is well typed.
pub fn infer(random: &mut Random, program: &Program) -> (TypedProgram, bool) {
    let mut classes = Classes::of(program);
    for (function, (_, body)) in program.functions.iter().enumerate() {
        let site = Site {
            function,
            clause: None,
        };
        let of = classes.expr(body, site);
        classes.join(of, classes.functions[function]);
    }
    (classes.named(random, program), classes.well_typed)
}

/// The sheet with any types.
pub fn guess(random: &mut Random, program: &Program) -> TypedProgram {
    Classes::of(program).named(random, program)
}

impl Classes {
    fn of(program: &Program) -> Classes {
        let mut data = vec![false];
        let mut add = |own: bool, count: u16| {
            let first = data.len();
            data.push(own);
            data.resize(first + 1 + count as usize, false);
            first
        };
        let arities = program.arities.iter();
        let constructors = arities.map(|&arity| add(true, arity)).collect();
        let functions = program.functions.iter();
        let functions = functions.map(|function| add(false, function.0)).collect();
        Classes {
            constructors,
            functions,
            joined: (0..data.len()).collect(),
            data,
            well_typed: true,
        }
    }

    fn class(&self, of: usize) -> usize {
        let mut class = of;
        while self.joined[class] != class {
            class = self.joined[class];
        }
        class
    }

    /// Makes two types the same, unless one is that of numbers and the other a
    /// constructor's.
    fn join(&mut self, one: usize, other: usize) {
        let [one, other, number] = [one, other, NUMBER].map(|of| self.class(of));
        let data = self.data[one] || self.data[other];
        if one == other {
            return;
        }
        if data && [one, other].contains(&number) {
            self.well_typed = false;
            return;
        }
        self.joined[other] = one;
        self.data[one] = data;
    }

    /// The class of an expression's type, once its rules are kept.
    fn expr(&mut self, expr: &Expr, site: Site) -> usize {
        match expr {
            Expr::Number(_) | Expr::Reading(_) => NUMBER,
            Expr::Parameter(position) => self.functions[site.function] + 1 + *position as usize,
            Expr::Pattern(position) => {
                let constructor = site.clause.expect("stands in a clause");
                self.constructors[constructor] + 1 + *position as usize
            }
            Expr::Operator(_, left, right) => {
                for operand in [left, right] {
                    let of = self.expr(operand, site);
                    self.join(of, NUMBER);
                }
                NUMBER
            }
            Expr::If(condition, yes, no) => {
                let [condition, yes, no] = [condition, yes, no].map(|part| self.expr(part, site));
                self.join(condition, NUMBER);
                self.join(yes, no);
                yes
            }
            Expr::Call(function, arguments) => {
                self.arguments(self.functions[*function as usize], arguments, site)
            }
            Expr::Build(constructor, arguments) => {
                self.arguments(self.constructors[*constructor as usize], arguments, site)
            }
            Expr::Case(scrutinee, clauses) => self.case(scrutinee, clauses, site),
        }
    }

    /// What takes the arguments has its own class first.
    fn arguments(&mut self, first: usize, arguments: &[Expr], site: Site) -> usize {
        for (position, argument) in arguments.iter().enumerate() {
            let of = self.expr(argument, site);
            self.join(of, first + 1 + position);
        }
        first
    }

    fn case(&mut self, scrutinee: &Expr, clauses: &[(u16, Expr)], site: Site) -> usize {
        let scrutinee = self.expr(scrutinee, site);
        let result = self.functions[site.function];
        for (constructor, node) in clauses {
            let constructor = *constructor as usize;
            self.join(self.constructors[constructor], scrutinee);
            let clause = Some(constructor);
            let of = self.expr(node, Site { clause, ..site });
            self.join(of, result);
        }
        result
    }

    /// The sheet with a type for each class; two classes may get the same.
    fn named(&self, random: &mut Random, program: &Program) -> TypedProgram {
        let known = known_types(random);
        let types: Vec<u16> = self
            .data
            .iter()
            .map(|&data| match !data && random.chance(40) {
                true => 0,
                false => random.pick(&known),
            })
            .collect();
        let of = |class: usize| match self.class(class) {
            class if class == self.class(NUMBER) => 0,
            class => types[class],
        };
        let taken = |first: usize, count: usize| (first + 1..=first + count).map(of).collect();
        let constructors = self.constructors.iter().zip(&program.arities);
        let functions = self.functions.iter().zip(&program.functions);
        TypedProgram {
            readings: program.readings,
            constructors: constructors
                .map(|(&first, &arity)| (of(first), taken(first, arity as usize)))
                .collect(),
            functions: functions
                .map(|(&first, (count, body))| {
                    (of(first), taken(first, *count as usize), body.clone())
                })
                .collect(),
        }
    }
}

/// A few types from 1 on, or many.
fn known_types(random: &mut Random) -> Vec<u16> {
    let count = random.pick(&[1, 2, 2, 3, 3, 8, MOST_TYPES]);
    let mut known = || match random.below(6) {
        0 => 1,
        1 => MOST_TYPES,
        _ => random.between(1, MOST_TYPES),
    };
    (0..count).map(|_| known() as u16).collect()
}
