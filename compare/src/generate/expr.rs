//! Random expressions over a plan.

use super::plan::{first_of, Plan};
use super::random::Random;
use super::repeat::{Earlier, Site};
use zifnora::build_sheet::{build, call, case, if_else, number, operator, parameter, Expr};
use zifnora::build_sheet::{ADD, DIVIDE, LESS, MULTIPLY, SUBTRACT};

/// Grows the expressions of one function.
pub struct Grow<'a> {
    pub random: &'a mut Random,
    pub plan: &'a Plan,
    /// What the sheet has already.
    earlier: &'a mut Earlier,
    pub function: usize,
    /// Nodes still to be spent.
    pub left: i32,
    /// Constructor of the clause around, if any.
    pub(super) clause: Option<usize>,
    calls: bool,
    /// Only functions after the own one are called (so that calls end).
    upwards: bool,
}

const DEPTH: u32 = 9;

/// Factors with a product at an end of the range, just inside or just
/// outside.
const PRODUCTS: [(i32, i32); 5] = [
    (i32::MAX, 1),
    (65_536, 32_768),
    (i32::MIN, -1),
    (-65_536, 32_768),
    (715_827_883, -3),
];

impl<'a> Grow<'a> {
    pub fn new(
        random: &'a mut Random,
        plan: &'a Plan,
        earlier: &'a mut Earlier,
        function: usize,
        left: i32,
    ) -> Grow<'a> {
        Grow {
            random,
            plan,
            earlier,
            function,
            left,
            clause: None,
            calls: true,
            upwards: false,
        }
    }

    fn site(&self) -> Site {
        Site {
            function: self.function,
            clause: self.clause,
        }
    }

    /// The body of the function.
    pub fn body(&mut self) -> Expr {
        let result = self.plan.functions[self.function].result;
        if self.plan.types > 0 && self.random.chance(45) {
            let of = self.random.between(1, self.plan.types as usize) as u16;
            return self.case(of, result, 85);
        }
        self.guarded(result)
    }

    /// A case over type `of`; each constructor of the type gets a clause in
    /// `percent` of all cases.
    pub fn case(&mut self, of: u16, result: u16, percent: usize) -> Expr {
        // The scrutinee is visited before a guard: with fuel it calls no
        // function that might call this one again, or none at all.
        self.upwards = self.plan.fuel && self.random.chance(95);
        self.calls = self.random.chance(85);
        let share = self.left / 4;
        let all = self.left - share;
        self.left = share;
        let scrutinee = self.scrutinee(of);
        self.calls = true;
        self.upwards = false;
        let plan = self.plan;
        let chosen: Vec<usize> = (0..plan.constructors.len())
            .filter(|&number| {
                let belongs = plan.constructors[number].own == of;
                let foreign = if plan.strict { 0 } else { 2 };
                self.random.chance(if belongs { percent } else { foreign })
            })
            .take(64)
            .collect();
        let chosen = match chosen.len() {
            0 => vec![first_of(of)],
            _ => chosen,
        };
        let mut clauses = Vec::new();
        for &constructor in &chosen {
            self.clause = Some(constructor);
            self.left = all / chosen.len() as i32;
            let node = self.guarded(result);
            clauses.push((constructor as u16, node));
        }
        self.clause = None;
        case(scrutinee, clauses)
    }

    /// A new scrutinee, or one that the sheet has already.
    fn scrutinee(&mut self, of: u16) -> Expr {
        let site = self.site();
        if self.random.chance(15) {
            let again = self.earlier.scrutinee(self.random, self.plan, of, site);
            if let Some(again) = again {
                return again;
            }
        }
        let scrutinee = match self.calls {
            true => self.busy(of),
            false => self.expr(of, DEPTH),
        };
        self.earlier.note_scrutinee(of, site, &scrutinee);
        scrutinee
    }

    /// With fuel: `if 0 < fuel then (with calls) else (without)`.
    fn guarded(&mut self, result: u16) -> Expr {
        let has_fuel = !self.plan.functions[self.function].parameters.is_empty();
        if !self.plan.fuel || !has_fuel {
            return if self.function == 0 {
                self.busy(result)
            } else {
                self.expr(result, DEPTH)
            };
        }
        self.left -= 4;
        self.calls = false;
        let all = self.left;
        self.left = all / 3;
        let stop = self.expr(result, 3);
        self.calls = true;
        self.left = all - all / 3;
        let go = self.busy(result);
        match self.random.below(3) {
            0 => if_else(operator(LESS, parameter(0), number(1)), stop, go),
            1 => if_else(parameter(0), go, stop),
            _ => if_else(operator(LESS, number(0), parameter(0)), go, stop),
        }
    }

    /// An expression that does some work: mostly a call, or an operator on
    /// two calls.
    fn busy(&mut self, of: u16) -> Expr {
        if self.left > 1 && self.random.chance(70) {
            self.left -= 1;
            if of == 0 && self.random.chance(40) {
                if let (Some(one), Some(two)) = (self.callee(0), self.callee(0)) {
                    let code = self.random.below(6) as u16;
                    let left = self.call(one, DEPTH);
                    let right = self.call(two, DEPTH);
                    return operator(code, left, right);
                }
            }
            if let Some(function) = self.callee(of) {
                return self.call(function, DEPTH);
            }
        }
        self.expr(of, DEPTH)
    }

    /// An expression of a type, now and then of another one.
    pub fn expr(&mut self, of: u16, depth: u32) -> Expr {
        let of = if !self.plan.strict && self.random.chance(2) {
            self.random.between(0, self.plan.types as usize) as u16
        } else {
            of
        };
        self.left -= 1;
        if self.left <= 0 || depth == 0 || self.random.chance(15) {
            return self.leaf(of, depth);
        }
        match self.random.below(10) {
            0 => self.condition(of, depth),
            1..=4 if self.calls => match self.callee(of) {
                Some(function) => self.call(function, depth),
                None => self.make(of, depth),
            },
            _ => self.make(of, depth),
        }
    }

    fn condition(&mut self, of: u16, depth: u32) -> Expr {
        let condition = self.expr(0, depth - 1);
        let yes = self.expr(of, depth - 1);
        let no = self.expr(of, depth - 1);
        if_else(condition, yes, no)
    }

    /// An operator or a built constructor.
    fn make(&mut self, of: u16, depth: u32) -> Expr {
        if of == 0 {
            if self.random.chance(3) {
                return operator(DIVIDE, number(i32::MIN), number(-1));
            }
            if self.random.chance(3) {
                let (left, right) = self.random.pick(&PRODUCTS);
                return operator(MULTIPLY, number(left), number(right));
            }
            let code = self.random.below(6) as u16;
            let left = self.expr(0, depth - 1);
            let right = self.expr(0, depth - 1);
            return operator(code, left, right);
        }
        match self.constructor(of, usize::MAX) {
            Some(constructor) => self.build(constructor, depth - 1),
            None => self.leaf(of, depth),
        }
    }

    pub(super) fn build(&mut self, constructor: usize, depth: u32) -> Expr {
        let plan = self.plan;
        let fields = &plan.constructors[constructor].fields;
        let arguments = fields
            .iter()
            .map(|&field| self.expr(field, depth))
            .collect();
        build(constructor as u16, arguments)
    }

    pub(super) fn constructor(&mut self, of: u16, greatest_arity: usize) -> Option<usize> {
        let all: Vec<usize> = (0..self.plan.constructors.len())
            .filter(|&number| {
                let constructor = &self.plan.constructors[number];
                constructor.own == of && constructor.fields.len() <= greatest_arity
            })
            .collect();
        (!all.is_empty()).then(|| self.random.pick(&all))
    }

    fn callee(&mut self, of: u16) -> Option<usize> {
        let functions = &self.plan.functions;
        let first = if self.upwards { self.function + 1 } else { 0 };
        let all: Vec<usize> = (first..functions.len())
            .filter(|&number| functions[number].result == of)
            .collect();
        let function = (!all.is_empty()).then(|| self.random.pick(&all))?;
        // Calls of `result` never end with fuel; keep them few.
        (function > 0 || self.random.chance(5)).then_some(function)
    }

    /// A new call, or one that the sheet has already.
    pub fn call(&mut self, function: usize, depth: u32) -> Expr {
        let (plan, site) = (self.plan, self.site());
        if !self.upwards && self.random.chance(20) {
            let size = 4 + self.left.max(0) as usize;
            let again = self.earlier.call(self.random, plan, function, site, size);
            if let Some(again) = again {
                self.left -= again.size() as i32;
                return again;
            }
        }
        let mut arguments = Vec::new();
        for (position, &parameter) in plan.functions[function].parameters.iter().enumerate() {
            if plan.fuel && position == 0 {
                arguments.push(self.fuel());
            } else {
                arguments.push(self.expr(parameter, depth.saturating_sub(1)));
            }
        }
        let call = call(function as u16, arguments);
        self.earlier.note_call(site, &call);
        call
    }

    /// The fuel handed on: one less than the own, or a small number.
    fn fuel(&mut self) -> Expr {
        if self.plan.functions[self.function].parameters.is_empty() {
            return number(self.random.below(8) as i32);
        }
        match self.random.below(12) {
            0 => operator(ADD, number(-1), parameter(0)),
            1 => number(self.random.below(3) as i32),
            _ => operator(SUBTRACT, parameter(0), number(1)),
        }
    }
}
