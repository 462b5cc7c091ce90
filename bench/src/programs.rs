//! Small versions of document 002's benchmark programs, as sheets.

use zifnora::build_sheet::*;

pub struct Benchmark {
    pub name: &'static str,
    /// Inputs to try, greatest first; the first that fits the limits counts.
    pub inputs: Vec<i32>,
    pub program: fn(i32) -> Program,
}

pub fn all() -> Vec<Benchmark> {
    vec![
        Benchmark {
            name: "fib",
            inputs: down(20),
            program: fib,
        },
        Benchmark {
            name: "ack",
            inputs: down(9),
            program: ack,
        },
        Benchmark {
            name: "tak",
            inputs: down(9),
            program: tak,
        },
        Benchmark {
            name: "collatz",
            inputs: down(30),
            program: collatz,
        },
        Benchmark {
            name: "primes",
            inputs: down(120),
            program: primes,
        },
        Benchmark {
            name: "reverse",
            inputs: down(12),
            program: reverse,
        },
        Benchmark {
            name: "sort",
            inputs: down(12),
            program: sort,
        },
        Benchmark {
            name: "queens",
            inputs: down(4),
            program: queens,
        },
    ]
}

fn down(from: i32) -> Vec<i32> {
    (1..=from).rev().collect()
}

fn numeric(functions: Vec<(u16, Expr)>) -> Program {
    Program {
        readings: 0,
        arities: vec![],
        functions,
    }
}

fn minus(expr: Expr, less: i32) -> Expr {
    operator(SUBTRACT, expr, number(less))
}

/// r0 + 1
pub fn sum_of_reading() -> Program {
    let sum = operator(ADD, reading(0), number(1));
    of_reading(numeric(vec![(0, sum)]))
}

pub fn fib_of_reading() -> Program {
    of_reading(fib_of(reading(0)))
}

fn of_reading(program: Program) -> Program {
    Program {
        readings: 1,
        ..program
    }
}

pub fn fib(input: i32) -> Program {
    fib_of(number(input))
}

/// fib n = if n < 2 then n else fib (n-1) + fib (n-2)
fn fib_of(input: Expr) -> Program {
    let again = |less| call(1, vec![minus(parameter(0), less)]);
    let body = if_else(
        operator(LESS, parameter(0), number(2)),
        parameter(0),
        operator(ADD, again(1), again(2)),
    );
    numeric(vec![(0, call(1, vec![input])), (1, body)])
}

/// ack m n, on (2, input)
fn ack(input: i32) -> Program {
    let inner = call(1, vec![parameter(0), minus(parameter(1), 1)]);
    let body = if_else(
        operator(EQUAL, parameter(0), number(0)),
        operator(ADD, parameter(1), number(1)),
        if_else(
            operator(EQUAL, parameter(1), number(0)),
            call(1, vec![minus(parameter(0), 1), number(1)]),
            call(1, vec![minus(parameter(0), 1), inner]),
        ),
    );
    numeric(vec![
        (0, call(1, vec![number(2), number(input)])),
        (2, body),
    ])
}

/// tak x y z, on (input, input / 2, 0)
fn tak(input: i32) -> Program {
    let again = |x, y, z| call(1, vec![minus(parameter(x), 1), parameter(y), parameter(z)]);
    let three = vec![again(0, 1, 2), again(1, 2, 0), again(2, 0, 1)];
    let body = if_else(
        operator(LESS, parameter(1), parameter(0)),
        call(1, three),
        parameter(2),
    );
    numeric(vec![
        (
            0,
            call(1, vec![number(input), number(input / 2), number(0)]),
        ),
        (3, body),
    ])
}

/// collatz n = if n = 1 then 0 else 1 + collatz (if even n then n/2 else 3n+1)
fn collatz(input: i32) -> Program {
    let half = || operator(DIVIDE, parameter(0), number(2));
    let even = operator(EQUAL, parameter(0), operator(MULTIPLY, number(2), half()));
    let odd = operator(ADD, operator(MULTIPLY, number(3), parameter(0)), number(1));
    let next = call(1, vec![if_else(even, half(), odd)]);
    let body = if_else(
        operator(EQUAL, parameter(0), number(1)),
        number(0),
        operator(ADD, number(1), next),
    );
    numeric(vec![(0, call(1, vec![number(input)])), (1, body)])
}

/// Number of primes up to the input, by trial division.
fn primes(input: i32) -> Program {
    let count = if_else(
        operator(LESS, parameter(0), number(2)),
        number(0),
        operator(
            ADD,
            call(2, vec![parameter(0), number(2)]),
            call(1, vec![minus(parameter(0), 1)]),
        ),
    );
    let multiple = operator(
        MULTIPLY,
        parameter(1),
        operator(DIVIDE, parameter(0), parameter(1)),
    );
    let prime = if_else(
        operator(
            LESS,
            parameter(0),
            operator(MULTIPLY, parameter(1), parameter(1)),
        ),
        number(1),
        if_else(
            operator(EQUAL, parameter(0), multiple),
            number(0),
            call(
                2,
                vec![parameter(0), operator(ADD, parameter(1), number(1))],
            ),
        ),
    );
    numeric(vec![
        (0, call(1, vec![number(input)])),
        (1, count),
        (2, prime),
    ])
}

const NIL: u16 = 0;
const CONS: u16 = 1;

fn nil() -> Expr {
    build(NIL, vec![])
}

fn cons(head: Expr, tail: Expr) -> Expr {
    build(CONS, vec![head, tail])
}

fn lists(functions: Vec<(u16, Expr)>) -> Program {
    Program {
        readings: 0,
        arities: vec![0, 2],
        functions,
    }
}

/// range n = n : range (n-1); sum
fn range_and_sum() -> [(u16, Expr); 2] {
    let range = if_else(
        operator(EQUAL, parameter(0), number(0)),
        nil(),
        cons(parameter(0), call(1, vec![minus(parameter(0), 1)])),
    );
    let sum = case(
        parameter(0),
        vec![
            (NIL, number(0)),
            (CONS, operator(ADD, pattern(0), call(2, vec![pattern(1)]))),
        ],
    );
    [(1, range), (1, sum)]
}

/// sum (reverse (range n)), reverse by append
fn reverse(input: i32) -> Program {
    let result = call(2, vec![call(3, vec![call(1, vec![number(input)])])]);
    let [range, sum] = range_and_sum();
    let back = call(4, vec![call(3, vec![pattern(1)]), cons(pattern(0), nil())]);
    let reverse = case(parameter(0), vec![(NIL, nil()), (CONS, back)]);
    let onto = cons(pattern(0), call(4, vec![pattern(1), parameter(1)]));
    let append = case(parameter(0), vec![(NIL, parameter(1)), (CONS, onto)]);
    lists(vec![(0, result), range, sum, (1, reverse), (2, append)])
}

/// sum (sort (range n)), insertion sort
fn sort(input: i32) -> Program {
    let result = call(2, vec![call(3, vec![call(1, vec![number(input)])])]);
    let [range, sum] = range_and_sum();
    let put = call(4, vec![pattern(0), call(3, vec![pattern(1)])]);
    let sort = case(parameter(0), vec![(NIL, nil()), (CONS, put)]);
    let further = cons(pattern(0), call(4, vec![parameter(0), pattern(1)]));
    let place = if_else(
        operator(LESS, parameter(0), pattern(0)),
        cons(parameter(0), cons(pattern(0), pattern(1))),
        further,
    );
    let insert = case(
        parameter(1),
        vec![(NIL, cons(parameter(0), nil())), (CONS, place)],
    );
    lists(vec![(0, result), range, sum, (1, sort), (2, insert)])
}

/// The ways to put n queens on n columns, no two on a line: the rows of those
/// placed are a list.
///
/// place k l = if k = 0 then 1 else row n k l
/// row r k l = if r = 0 then 0
///             else (if safe r 1 l then place (k-1) (r : l) else 0) + row (r-1) k l
/// safe r d l = case l of [] -> 1
///              h : t -> if r = h then 0 else if (r-h) * (r-h) = d * d then 0 else safe r (d+1) t
fn queens(input: i32) -> Program {
    let [r, k, l] = [0, 1, 2].map(parameter);
    let place = if_else(
        operator(EQUAL, parameter(0), number(0)),
        number(1),
        call(2, vec![number(input), parameter(0), parameter(1)]),
    );
    let put = call(1, vec![minus(k.clone(), 1), cons(r.clone(), l.clone())]);
    let here = if_else(
        call(3, vec![r.clone(), number(1), l.clone()]),
        put,
        number(0),
    );
    let row = if_else(
        operator(EQUAL, r.clone(), number(0)),
        number(0),
        operator(ADD, here, call(2, vec![minus(r.clone(), 1), k, l.clone()])),
    );
    let apart = || operator(SUBTRACT, parameter(0), pattern(0));
    let square = |part: Expr| operator(MULTIPLY, part.clone(), part);
    let further = vec![
        parameter(0),
        operator(ADD, parameter(1), number(1)),
        pattern(1),
    ];
    let beside = if_else(
        operator(EQUAL, square(apart()), square(parameter(1))),
        number(0),
        call(3, further),
    );
    let clear = if_else(operator(EQUAL, r, pattern(0)), number(0), beside);
    let safe = case(l, vec![(NIL, number(1)), (CONS, clear)]);
    lists(vec![
        (0, call(1, vec![number(input), nil()])),
        (2, place),
        (3, row),
        (3, safe),
    ])
}
