//! Sheets whose runs give cells back: calls on numbers that make many cells of
//! which few are alive together; and lists handed on from call to call, first
//! worked out inside a call that ends with a number and read after it.

use super::random::Random;
use zifnora::build_sheet::*;

const NIL: u16 = 0;
const CONS: u16 = 1;

/// The functions that build lists, by their numbers.
const MAKE: u16 = 1;
const CHANGE: u16 = 2;

/// Functions on numbers that call each other twice and more, the first
/// parameter of each counted down.
pub fn numbers(random: &mut Random) -> Program {
    let parameters: Vec<u16> = (0..random.between(1, 3))
        .map(|_| random.between(1, 3) as u16)
        .collect();
    let mut grow = Grow {
        random,
        consumers: parameters.iter().map(|&all| (0, all)).collect(),
        first: 1,
        inside: None,
    };
    let result = grow.several(2);
    let mut functions = vec![(0, result)];
    for &all in &parameters {
        grow.inside = Some(Inside::with(0, all));
        let body = grow.counted();
        functions.push((all, body));
    }
    Program {
        readings: 2,
        arities: vec![],
        functions,
    }
}

/// make(n) = Cons(n, make(n - 1)) or Nil, change(l) = the same list with other
/// heads, and functions on lists and a number, which end with numbers.
pub fn lists(random: &mut Random) -> Program {
    let count = random.between(1, 4);
    let consumers: Vec<(u16, u16)> = (0..count)
        .map(|_| (random.between(1, 3) as u16, 1))
        .collect();
    let n = || parameter(0);
    let rest = call(MAKE, vec![operator(SUBTRACT, n(), number(1))]);
    let make = if_else(
        operator(LESS, number(0), n()),
        build(CONS, vec![operator(ADD, n(), reading(0)), rest]),
        build(NIL, vec![]),
    );
    let head = operator(ADD, pattern(0), number(10));
    let changed = build(CONS, vec![head, call(CHANGE, vec![pattern(1)])]);
    let change = case(
        parameter(0),
        vec![(NIL, build(NIL, vec![])), (CONS, changed)],
    );
    let mut grow = Grow {
        random,
        consumers: consumers.clone(),
        first: 3,
        inside: None,
    };
    let result = grow.several(1);
    let mut functions = vec![(0, result), (1, make), (1, change)];
    for &(lists, numbers) in &consumers {
        grow.inside = Some(Inside::with(lists, numbers));
        let body = grow.consumer();
        functions.push((lists + numbers, body));
    }
    Program {
        readings: 2,
        arities: vec![0, 2],
        functions,
    }
}

/// What an expression inside a function can name.
#[derive(Clone, Copy)]
struct Inside {
    /// The position of the first parameter that is a number, and how many are.
    numbers: (u16, u16),
    /// How many parameters are lists; they come first.
    lists: u16,
    /// Whether it stands in a clause of Cons.
    fields: bool,
}

impl Inside {
    fn with(lists: u16, numbers: u16) -> Inside {
        Inside {
            numbers: (lists, numbers),
            lists,
            fields: false,
        }
    }
}

struct Grow<'a> {
    random: &'a mut Random,
    /// How many lists and numbers the functions on them take, and the number of
    /// the first of these functions.
    consumers: Vec<(u16, u16)>,
    first: u16,
    inside: Option<Inside>,
}

impl Grow<'_> {
    /// A number that is worked out by so many calls at least.
    fn several(&mut self, least: usize) -> Expr {
        let count = self.random.between(least, 3);
        let mut all = self.call();
        for _ in 1..count {
            let code = self.random.pick(&[ADD, ADD, SUBTRACT]);
            let next = match self.random.below(3) {
                0 => self.leaf(),
                _ => self.call(),
            };
            all = match self.random.below(2) {
                0 => operator(code, all, next),
                _ => operator(code, next, all),
            };
        }
        all
    }

    /// `if 0 < n then (with calls) else (without)`.
    fn counted(&mut self) -> Expr {
        let at = self.inside.map_or(0, |inside| inside.numbers.0);
        let least = self.random.between(1, 2);
        let go = self.several(least);
        let stop = self.leaf();
        if_else(operator(LESS, number(0), parameter(at)), go, stop)
    }

    /// The body of a function on lists: a case on a list, or counted calls.
    fn consumer(&mut self) -> Expr {
        if self.random.chance(25) {
            return self.counted();
        }
        let scrutinee = self.list();
        let none = self.leaf();
        if let Some(inside) = &mut self.inside {
            inside.fields = true;
        }
        let some = self.counted();
        case(scrutinee, vec![(NIL, none), (CONS, some)])
    }

    fn call(&mut self) -> Expr {
        let callee = self.random.below(self.consumers.len());
        let (lists, numbers) = self.consumers[callee];
        let mut arguments: Vec<Expr> = (0..lists).map(|_| self.list()).collect();
        arguments.push(self.fuel());
        for _ in 1..numbers {
            arguments.push(match self.random.below(12) {
                0 => self.call(),
                _ => self.leaf(),
            });
        }
        call(self.first + callee as u16, arguments)
    }

    /// One less than the own first number, or a small number.
    fn fuel(&mut self) -> Expr {
        match self.inside {
            Some(inside) => operator(SUBTRACT, parameter(inside.numbers.0), number(1)),
            None => number(self.random.pick(&[1, 2, 3, 4, 5, 6, 9])),
        }
    }

    fn leaf(&mut self) -> Expr {
        let Some(inside) = self.inside else {
            return self.constant();
        };
        let (first, count) = inside.numbers;
        match self.random.below(6) {
            0 => self.constant(),
            1 | 2 if inside.fields => pattern(0),
            3 if inside.fields => operator(ADD, pattern(0), parameter(first)),
            _ => parameter(first + self.random.below(count as usize) as u16),
        }
    }

    fn constant(&mut self) -> Expr {
        match self.random.below(4) {
            0 => reading(self.random.below(2) as u16),
            _ => number(self.random.below(9) as i32),
        }
    }

    /// A list: mostly one that was handed on.
    fn list(&mut self) -> Expr {
        let inside = self.inside.unwrap_or(Inside::with(0, 0));
        match self.random.below(10) {
            0..=4 if inside.lists > 0 => parameter(self.random.below(inside.lists as usize) as u16),
            5 | 6 if inside.fields => pattern(1),
            7 => {
                let list = self.list();
                call(CHANGE, vec![list])
            }
            _ => {
                let length = match self.inside {
                    Some(inside) if self.random.chance(50) => parameter(inside.numbers.0),
                    _ => number(self.random.between(0, 3) as i32),
                };
                call(MAKE, vec![length])
            }
        }
    }
}
