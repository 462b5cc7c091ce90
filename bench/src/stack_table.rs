//! What is printed of the stack that the calls take.

use crate::measure::{agreed, greatest, lent_cells, translated, MOST_RECORDS};
use crate::plain::two_bytes;
use crate::tables::greatest_sheet;
use crate::{chains, stack, templates};
use compare::generate::{random::Random, typed_ceiling};
use compare::interface::{count, Allowances, Interface, Search};
use compare::model::answer::RECORD;
use zifnora::numbers;
use zifnora::sizes::{
    LABEL_BYTES, MOST_CELLS, MOST_NESTING, MOST_ROWS, TRANSLATION_BYTES, VIEW_BYTES,
};

/// A typed sheet at all limits.
pub fn greatest_typed_sheet() -> Vec<u8> {
    typed_ceiling::greatest(&mut Random::new(1))
}

/// What nests, and the file or the sheet.
type Named = (&'static str, Vec<u8>);

/// Bytes of stack of the calls.
pub fn stack(subject: &dyn Interface) {
    println!("Stack in bytes; a visit: from 512 to 1,024 open visits");
    println!("call               what nests             1 visit  1,024 visits  a visit");
    let mut translations = chains::translations();
    for (name, file) in &translations {
        let end = agreed(subject, file);
        assert_eq!(end.outcome, numbers::NO_NESTING, "{name} nests");
    }
    let greatest = greatest_sheet();
    translations.push(("(file at all limits)", translated(subject, &greatest)));
    let at_limits = [
        ("(sheet at all limits)", greatest),
        ("(typed, all limits)", greatest_typed_sheet()),
    ];
    let mut record = [0; RECORD];
    translation_stack_rows(subject, &translations, &mut record);
    sheet_stack_rows(subject, &at_limits, &mut record);
    listing_stack_lines(subject);
    view_stack_line(subject, &record);
}

/// The calls that run a translation.
fn translation_stack_rows(subject: &dyn Interface, files: &[Named], record: &mut [u8]) {
    let mut cells = lent_cells();
    for (name, file) in files {
        let readings = vec![0; two_bytes(file, 4) as usize];
        stack_row("run", name, |allowances| {
            subject.run(file, &readings, allowances, &mut cells, record);
        });
    }
    for (name, file) in files {
        let readings = vec![0; two_bytes(file, 4) as usize];
        stack_row("run for a hirer", name, |allowances| {
            subject.run_for_hirer(file, u32::MAX, &readings, allowances, &mut cells, record);
        });
    }
    for (name, file) in files {
        rows_stack_row(subject, name, file);
    }
    for (name, file) in files {
        search_stack_row(subject, name, file);
    }
}

/// The calls that translate a sheet.
fn sheet_stack_rows(subject: &dyn Interface, at_limits: &[Named], record: &mut [u8]) {
    let (mut cells, mut out) = (lent_cells(), vec![0; TRANSLATION_BYTES]);
    for (name, sheet) in chains::sheets().iter().chain(at_limits) {
        let readings = vec![0; two_bytes(sheet, 4) as usize];
        stack_row("translate and run", name, |allowances| {
            subject.translate_and_run(sheet, &mut out, &readings, allowances, &mut cells, record);
        });
    }
    for (name, sheet) in at_limits {
        stack_line("translate", name, &mut || {
            subject.translate(sheet, &mut out);
        });
    }
    for (name, sheet) in at_limits {
        stack_line("translated length", name, &mut || {
            subject.translated_length(sheet, u64::MAX);
        });
    }
    let chain = ("(chain of all nodes)", templates::chain().encode());
    for (name, sheet) in at_limits.iter().chain([&chain]) {
        let length = count(subject.canonical_sheet(sheet, &mut out));
        assert_eq!(length, Some(sheet.len()), "{name} written");
        stack_line("canonical sheet", name, &mut || {
            subject.canonical_sheet(sheet, &mut out);
        });
    }
}

/// Listing a context of one cell, and one of all cells.
fn listing_stack_lines(subject: &dyn Interface) {
    let cells = chains::context();
    let mut out = vec![0; LABEL_BYTES * MOST_CELLS as usize];
    for (name, cell) in [("(one cell)", 1), ("(all cells)", MOST_CELLS)] {
        let labels = count(subject.list_context(&cells, cell, &mut out));
        assert_eq!(labels, Some(cell as usize), "{name} listed");
        stack_line("list context", name, &mut || {
            subject.list_context(&cells, cell, &mut out);
        });
    }
}

/// The driver's view of a record that a run left.
fn view_stack_line(subject: &dyn Interface, record: &[u8]) {
    let mut out = [0; VIEW_BYTES];
    let written = count(subject.driver_view(record, &mut out));
    assert_eq!(written, Some(VIEW_BYTES), "viewed");
    stack_line("driver's view", "(a run's record)", &mut || {
        subject.driver_view(record, &mut out);
    });
}

fn rows_stack_row(subject: &dyn Interface, name: &str, file: &[u8]) {
    let readings = vec![0; MOST_ROWS as usize * two_bytes(file, 4) as usize];
    let (mut cells, mut records) = (lent_cells(), [0; MOST_RECORDS]);
    stack_row("run rows", name, |allowances| {
        subject.run_rows(
            file,
            MOST_ROWS,
            &readings,
            allowances,
            &mut cells,
            &mut records,
        );
    });
}

/// A search of several values, in the file with a reading where it asks for none.
fn search_stack_row(subject: &dyn Interface, name: &str, file: &[u8]) {
    let mut file = file.to_vec();
    file[4] = file[4].max(1);
    let readings = vec![0; two_bytes(&file, 4) as usize];
    let search = Search {
        position: 0,
        lowest: 0,
        highest: 15,
        wanted: i32::MIN,
    };
    let mut cells = lent_cells();
    let code = subject.find_reading(&file, &readings, search, greatest(1), &mut cells);
    assert_eq!(code >> 32, numbers::NO_VALUE as u64, "{name} searched");
    stack_row("find a reading", name, |allowances| {
        subject.find_reading(&file, &readings, search, allowances, &mut cells);
    });
}

/// One row of a call that visits nothing.
fn stack_line(call: &str, name: &str, work: &mut dyn FnMut()) {
    println!("{call:<18} {name:<21} {:>8}", stack::depth(work));
}

/// One row: the stack at nesting 1 and 1,024, and of a visit.
fn stack_row(call: &str, name: &str, mut work: impl FnMut(Allowances)) {
    let [least, half, whole] = [1, MOST_NESTING / 2, MOST_NESTING].map(|nesting| {
        let allowances = Allowances {
            nesting,
            ..greatest(u32::MAX)
        };
        stack::depth(&mut || work(allowances))
    });
    let visit = (whole - half) as f64 / (MOST_NESTING / 2) as f64;
    println!("{call:<18} {name:<21} {least:>8} {whole:>13} {visit:>8.1}");
}
