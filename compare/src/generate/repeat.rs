//! Calls and scrutinees that a sheet has already, to be written again: in the
//! same function or clause, or in another, where a parameter or a pattern
//! variable may be another one.

use super::plan::Plan;
use super::random::Random;
use zifnora::build_sheet::Expr;

/// Where an expression stands: its function, and the constructor of the
/// clause around it, if any.
#[derive(Clone, Copy)]
pub struct Site {
    pub function: usize,
    pub clause: Option<usize>,
}

#[derive(Default)]
pub struct Earlier {
    calls: Vec<(Site, Expr)>,
    /// With their types.
    scrutinees: Vec<(u16, Site, Expr)>,
}

impl Earlier {
    pub fn note_call(&mut self, site: Site, call: &Expr) {
        self.calls.push((site, call.clone()));
    }

    pub fn note_scrutinee(&mut self, of: u16, site: Site, scrutinee: &Expr) {
        self.scrutinees.push((of, site, scrutinee.clone()));
    }

    /// A call of a function that can stand at a site, of at most `size` nodes.
    pub fn call(
        &self,
        random: &mut Random,
        plan: &Plan,
        function: usize,
        site: Site,
        size: usize,
    ) -> Option<Expr> {
        let callee =
            |expr: &Expr| matches!(expr, Expr::Call(callee, _) if *callee as usize == function);
        // With fuel from `result` a call from elsewhere may never end.
        let ends = |from: Site| !plan.fuel || site.function == 0 || from.function > 0;
        let all = self.calls.iter().filter(|(from, expr)| {
            callee(expr) && ends(*from) && expr.size() <= size && fits(plan, *from, expr, site)
        });
        some(random, all.map(|(_, expr)| expr).collect())
    }

    pub fn scrutinee(&self, random: &mut Random, plan: &Plan, of: u16, site: Site) -> Option<Expr> {
        let all = self.scrutinees.iter().filter(|(own, from, expr)| {
            *own == of && expr.size() <= 12 && fits(plan, *from, expr, site)
        });
        some(random, all.map(|(_, _, expr)| expr).collect())
    }
}

fn some(random: &mut Random, from: Vec<&Expr>) -> Option<Expr> {
    (!from.is_empty()).then(|| random.pick(&from).clone())
}

/// Whether the parameters and pattern variables of an expression have the same
/// types at another site.
fn fits(plan: &Plan, from: Site, expr: &Expr, to: Site) -> bool {
    let parameters = |site: Site| &plan.functions[site.function].parameters[..];
    let fields = |site: Site| match site.clause {
        Some(constructor) => &plan.constructors[constructor].fields[..],
        None => &[],
    };
    let same = |from: &[u16], to: &[u16], at: u16| {
        let at = at as usize;
        to.get(at).is_some_and(|of| from.get(at) == Some(of))
    };
    match expr {
        Expr::Parameter(position) => same(parameters(from), parameters(to), *position),
        Expr::Pattern(position) => same(fields(from), fields(to), *position),
        _ => parts(expr)
            .into_iter()
            .all(|part| fits(plan, from, part, to)),
    }
}

/// The parts of an expression that is no case.
pub fn parts(expr: &Expr) -> Vec<&Expr> {
    match expr {
        Expr::Number(_) | Expr::Reading(_) | Expr::Parameter(_) | Expr::Pattern(_) => vec![],
        Expr::Operator(_, left, right) => vec![left, right],
        Expr::If(condition, yes, no) => vec![condition, yes, no],
        Expr::Call(_, arguments) | Expr::Build(_, arguments) => arguments.iter().collect(),
        Expr::Case(..) => unreachable!("a case is a body"),
    }
}
