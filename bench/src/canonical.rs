//! Sheets in canonical form, beside translating them.

use crate::measure::times;
use crate::plain::two_bytes;
use crate::stack_table::greatest_typed_sheet;
use crate::tables::greatest_sheet;
use crate::{pad, programs, templates};
use compare::generate::{ceiling, damage::records, random::Random, renumber};
use compare::interface::{count, Interface};
use compare::model::correct;
use std::hint::black_box;
use zifnora::build_sheet::Program;
use zifnora::sizes::{SHEET_BYTES, TRANSLATION_BYTES};

/// Writing a sheet in canonical form, beside translating it: with its nodes in that
/// form already, and in any order.
pub fn canonical(subject: &dyn Interface) {
    println!("Writing a sheet in canonical form beside translating it");
    println!("ordered: the nodes are in post-order already; shuffled: in any order");
    print!("sheet                   nodes  bytes   ordered  translate  ratio");
    println!("  shuffled  translate  ratio");
    let mut greatest = 0.0;
    let print_start = |name: &str, sheet: &[u8], nodes: usize| {
        print!("{:<22} {:>6} {:>6}", name, nodes, sheet.len());
    };
    for (name, sheet) in sheets() {
        let ordered = form(&sheet);
        let shuffled = renumber::renumbered(&mut Random::new(1), &sheet);
        print_start(name, &sheet, nodes(&sheet));
        for sheet in [ordered, shuffled] {
            greatest = f64::max(greatest, print_cost(subject, &sheet));
        }
        println!();
    }
    let refused = ceiling::long(&mut Random::new(1), SHEET_BYTES, false);
    print_start("refused (6), longest", &refused, records(&refused).len());
    print_cost(subject, &refused);
    println!();
    print!("the greatest ratio to the time of translating, of accepted sheets:");
    println!(" {greatest:.2} (goal: at most 1)");
}

/// The sheets, up to all limits, by their names.
fn sheets() -> Vec<(&'static str, Vec<u8>)> {
    let padded = |count: usize| pad::pad(&programs::fib(12), count, false);
    let encoded = |(name, program): (&'static str, Program)| (name, program.encode());
    let mut sheets = vec![
        ("fib 12, padded", padded(20).encode()),
        ("fib 12, padded", padded(1000).encode()),
        ("greatest (all limits)", greatest_sheet()),
        ("typed (all limits)", greatest_typed_sheet()),
    ];
    sheets.extend(templates::all().into_iter().map(encoded));
    sheets.extend(templates::deep_and_wide().into_iter().map(encoded));
    sheets.push(("typed chain of builds", templates::typed_chain().encode()));
    sheets
}

/// The canonical form of a sheet, by the model.
fn form(sheet: &[u8]) -> Vec<u8> {
    let mut out = vec![0; sheet.len()];
    let length = count(correct().canonical_sheet(sheet, &mut out));
    assert_eq!(length, Some(sheet.len()), "the sheet is accepted");
    out
}

/// The number of nodes in a sheet's head.
fn nodes(sheet: &[u8]) -> usize {
    two_bytes(sheet, 10) as usize
}

/// Prints what a sheet costs in canonical form and translated; the ratio.
fn print_cost(on: &dyn Interface, sheet: &[u8]) -> f64 {
    let [canonical, translated] = canonical_cost(on, sheet);
    let ratio = canonical / translated;
    print!(" {canonical:>9.0} {translated:>10.0} {ratio:>6.2}");
    ratio
}

/// Nanoseconds of writing a sheet in canonical form and of translating it, each
/// into a buffer of the greatest length. A sheet may be refused; the form has to be
/// the model's.
fn canonical_cost(on: &dyn Interface, sheet: &[u8]) -> [f64; 2] {
    let mut forms = [(); 2].map(|()| vec![0; SHEET_BYTES]);
    let [one, two] = forms.each_mut();
    let answers = [
        on.canonical_sheet(sheet, one),
        correct().canonical_sheet(sheet, two),
    ];
    assert_eq!(answers[0], answers[1], "the same answer");
    assert_eq!(forms[0], forms[1], "the same form");
    let (mut form, mut translation) = (vec![0; SHEET_BYTES], vec![0; TRANSLATION_BYTES]);
    times([
        &mut || {
            black_box(on.canonical_sheet(black_box(sheet), &mut form));
        },
        &mut || {
            black_box(on.translate(black_box(sheet), &mut translation));
        },
    ])
}
