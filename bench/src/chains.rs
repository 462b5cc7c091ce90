//! Translations and sheets whose visits nest in one way until the nesting
//! allowance stops them; and cells that are one context.

use zifnora::build_sheet::{
    build, call, case, if_else, number, operator, put_record, Expr, Program, ADD,
};
use zifnora::kinds::translation::*;
use zifnora::sizes::{CELL_BYTES, MOST_CELLS, MOST_FUNCTIONS};

type Record = (u16, Vec<u16>);

/// A translation with a parameter count and one node list for each function.
fn translation(actuals: &[Vec<u16>], functions: &[(u16, Vec<Record>)]) -> Vec<u8> {
    let nodes: usize = functions.iter().map(|function| function.1.len()).sum();
    let mut file = Vec::new();
    let head = [actuals.len(), functions.len(), nodes].map(|count| count as u16);
    put_record(&mut file, HEAD, &[0, head[0], head[1], head[2]]);
    for (parameters, nodes) in functions {
        put_record(&mut file, FUNCTION, &[nodes.len() as u16, *parameters]);
    }
    for list in actuals {
        put_record(&mut file, FORMAL_LIST, list);
    }
    for (kind, fields) in functions.iter().flat_map(|function| &function.1) {
        put_record(&mut file, *kind, fields);
    }
    file
}

/// One function; its last node refers to itself.
fn looping(nodes: Vec<Record>) -> Vec<u8> {
    translation(&[], &[(0, nodes)])
}

/// Operators around the last node, for ways to nest that take a cell for each
/// visit: there are fewer cells than visits may be open.
fn inside_operators(nodes: Vec<Record>) -> Vec<Record> {
    let mut nodes = nodes;
    for _ in 0..100 {
        let inner = nodes.len() as u16 - 1;
        nodes.push((OPERATOR, vec![ADD, inner, inner]));
    }
    nodes
}

fn calls() -> Vec<u8> {
    let call = || vec![(CALL, vec![0, 1])];
    translation(&[], &[(0, inside_operators(call())), (0, call())])
}

/// Translations that nest in one way, with what nests.
pub fn translations() -> Vec<(&'static str, Vec<u8>)> {
    let one = || (NUMBER, vec![1, 0]);
    let tuple = |fields: &[u16]| (TUPLE, [&[0], fields].concat());
    vec![
        ("left operand", looping(vec![(OPERATOR, vec![ADD, 0, 0])])),
        (
            "right operand",
            looping(vec![one(), (OPERATOR, vec![ADD, 0, 1])]),
        ),
        ("condition", looping(vec![(IF, vec![0, 0, 0])])),
        ("branch of an if", looping(vec![one(), (IF, vec![0, 1, 1])])),
        ("call", calls()),
        ("scrutinee", looping(vec![(CASE, vec![0, 0, 0])])),
        (
            "clause of a case",
            looping(vec![tuple(&[]), (CASE, vec![0, 0, 1])]),
        ),
        ("selected node", looping(vec![(SELECT, vec![0, 1])])),
        (
            "selected field",
            looping(vec![tuple(&[1]), (SELECT, vec![0, 1])]),
        ),
        ("actual of a formal", formals(true)),
        ("under a foreign cell", formals(false)),
        ("each in turn", in_turn()),
    ]
}

/// Formals whose actual is a formal, under a context of almost as many labels
/// as there may be cells. A call of function 1 leads through one function after the other to a tuple, whose
/// first field is that call again and whose second is the last function's
/// formal; each selection makes the tuple's context longer. Each function has
/// the formal that is visited under its cells, or function 0 has all.
fn formals(own: bool) -> Vec<u8> {
    const CALLED: u16 = MOST_FUNCTIONS as u16 - 1;
    const SELECTIONS: u16 = MOST_CELLS as u16 / CALLED;
    // Formal f is node f; its actual is the formal before it.
    let count = if own { CALLED } else { 1 };
    let mut result: Vec<Record> = (0..count).map(|formal| (FORMAL, vec![formal])).collect();
    let actuals: Vec<Vec<u16>> = (0..count)
        .map(|formal| vec![(formal + count - 1) % count])
        .collect();
    let first_call = result.len() as u16;
    result.push((CALL, vec![0, 1]));
    for selection in 0..SELECTIONS {
        let index = if selection + 1 == SELECTIONS { 2 } else { 1 };
        result.push((SELECT, vec![first_call + selection, index]));
    }
    let mut functions = vec![(!own as u16, inside_operators(result))];
    for function in 1..CALLED {
        functions.push((own as u16, vec![(CALL, vec![0, function + 1])]));
    }
    let tuple = (TUPLE, vec![0, first_call, count - 1]);
    functions.push((own as u16, vec![tuple]));
    translation(&actuals, &functions)
}

/// Operator, if, case, selection, call and formal, each inside the one
/// before, and the operator again.
fn in_turn() -> Vec<u8> {
    let operator = 5;
    let nodes = vec![
        (FORMAL, vec![0]),
        (CALL, vec![0, 1]),
        (SELECT, vec![1, 1]),
        (CASE, vec![2, 0, 2]),
        (IF, vec![3, 3, 3]),
        (OPERATOR, vec![ADD, 4, 4]),
    ];
    let body = vec![(IF, vec![0, 0, 0])];
    translation(&[vec![operator]], &[(0, nodes), (1, body)])
}

/// Sheets that nest, with what nests: the innermost node is a call of the
/// sheet's only function.
pub fn sheets() -> Vec<(&'static str, Vec<u8>)> {
    let sheet = |arities: &[u16], body: Expr| {
        let program = Program {
            readings: 0,
            arities: arities.to_vec(),
            functions: vec![(0, body)],
        };
        program.encode()
    };
    let again = || call(0, vec![]);
    let sum = (0..500).fold(again(), |inner, _| operator(ADD, inner, number(1)));
    let ifs = (0..300).fold(again(), |inner, _| if_else(inner, number(1), number(1)));
    vec![
        ("left operand", sheet(&[], sum)),
        ("condition", sheet(&[], ifs)),
        (
            "scrutinee and call",
            sheet(&[0], case(again(), vec![(0, build(0, vec![]))])),
        ),
    ]
}

/// Cells up to the ceiling, each with the one before it as previous cell.
pub fn context() -> Vec<u8> {
    let mut cells = vec![0; CELL_BYTES * MOST_CELLS as usize];
    for (previous, cell) in cells.chunks_exact_mut(CELL_BYTES).enumerate() {
        cell[2..4].copy_from_slice(&(previous as u16).to_le_bytes());
    }
    cells
}
