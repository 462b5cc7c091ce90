//! The leaves of random expressions.

use super::expr::Grow;
use super::plan::first_of;
use zifnora::build_sheet::{build, number, parameter, pattern, Expr};

impl Grow<'_> {
    /// An expression with few nodes.
    pub(super) fn leaf(&mut self, of: u16, depth: u32) -> Expr {
        let plan = self.plan;
        let positions = |types: &[u16]| -> Vec<u16> {
            (0..types.len() as u16)
                .filter(|&at| types[at as usize] == of)
                .collect()
        };
        if let Some(constructor) = self.clause {
            let fields = positions(&plan.constructors[constructor].fields);
            if !fields.is_empty() && self.random.chance(60) {
                return pattern(self.random.pick(&fields));
            }
        }
        let parameters = positions(&plan.functions[self.function].parameters);
        if !parameters.is_empty() && self.random.chance(75) {
            return parameter(self.random.pick(&parameters));
        }
        if of == 0 {
            if plan.readings > 0 && self.random.chance(30) {
                return Expr::Reading(self.random.below(plan.readings as usize) as u16);
            }
            return number(self.random.number());
        }
        if let Some(constructor) = self.constructor(of, 0) {
            return build(constructor as u16, vec![]);
        }
        match self.constructor(of, 3) {
            // Leaves stay small: few levels, and none at all far over budget.
            Some(constructor) if depth > 0 && self.left > -200 => {
                self.build(constructor, depth.min(2) - 1)
            }
            _ if plan.strict => {
                let first = first_of(of);
                let arity = plan.constructors[first].fields.len();
                let numbers = (0..arity).map(|_| number(self.random.number()));
                build(first as u16, numbers.collect())
            }
            _ => number(self.random.number()),
        }
    }
}
