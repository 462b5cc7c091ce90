//! Costs of the interface beside plain Rust in the same process: of a step,
//! of accepting a file, of translating, of a sheet in canonical form, of rows in
//! one call, of searching a reading; and the stack that the calls take.

mod canonical;
mod chains;
mod largest;
mod measure;
mod nodes;
mod pad;
mod plain;
mod programs;
mod run;
mod searches;
mod stack;
mod stack_table;
mod tables;
mod templates;

use compare::interface::Interface;

#[cfg(feature = "archive")]
fn subject() -> (&'static dyn Interface, &'static str) {
    (&compare::archive::Archive, "interface: the archive")
}

#[cfg(not(feature = "archive"))]
fn subject() -> (&'static dyn Interface, &'static str) {
    (
        compare::model::correct(),
        "interface: THE MODEL (no archive linked)",
    )
}

type Table = fn(&dyn Interface);

/// The tables, by the words that choose them.
const TABLES: [(&str, Table); 8] = [
    ("steps", tables::steps),
    ("largest", largest::largest),
    ("sizes", tables::sizes),
    ("translations", tables::translations),
    ("canonical", canonical::canonical),
    ("rows", tables::rows),
    ("search", searches::searches),
    ("stack", stack_table::stack),
];

fn main() {
    let chosen: Vec<String> = std::env::args().skip(1).collect();
    let (subject, title) = subject();
    println!("{title}; plain: a Rust run over decoded nodes, same process");
    for (word, table) in TABLES {
        if chosen.is_empty() || chosen.iter().any(|other| other == word) {
            println!();
            table(subject);
        }
    }
}
