//! compare [SHEETS] [DAMAGED] [SEED]   compares (100000 100000 1)
//! compare selftest [SEED]             the comparison finds deliberate faults
//! compare replay DIR                  performs a saved call again
//! compare case sheet|damaged NUMBER SEED   one case again

use compare::check;
use compare::generate::case::{damaged, well_formed};
use compare::interface::{shown, Interface};
use compare::model::correct;
use compare::replay;
use compare::selftest::{examine, selftest};
use compare::tally::Tally;
use compare::yardsticks::Yardsticks;
use std::fs::File;
use std::io::{Seek, SeekFrom, Write};
use std::path::{Path, PathBuf};
use std::process::exit;
use std::time::Instant;

mod watchdog;

#[cfg(feature = "archive")]
fn subject() -> (&'static dyn Interface, &'static str) {
    (&compare::archive::Archive, "interface against model")
}

#[cfg(not(feature = "archive"))]
fn subject() -> (&'static dyn Interface, &'static str) {
    (correct(), "MODEL AGAINST MODEL (no archive linked)")
}

const FOLDER: &str = "differences";

fn main() {
    // Runs nest up to 1,024 visits; a wide stack keeps that out of the way.
    let worker = std::thread::Builder::new()
        .stack_size(256 << 20)
        .spawn(start);
    let good = worker.expect("thread").join().unwrap_or(false);
    exit(if good { 0 } else { 1 });
}

fn start() -> bool {
    let arguments: Vec<String> = std::env::args().skip(1).collect();
    let words: Vec<&str> = arguments.iter().map(String::as_str).collect();
    let (subject, title) = subject();
    println!("{title}");
    let number = |at: usize, default: u64| match words.get(at).map(|word| word.parse()) {
        None => default,
        Some(Ok(number)) => number,
        Some(Err(_)) => usage(),
    };
    match words.first().copied() {
        Some("selftest") => selftest(subject, number(1, 1)),
        Some("replay") if words.len() == 2 => replay_call(subject, Path::new(words[1])),
        Some("case") if words.len() == 4 => one_case(subject, words[1], number(2, 0), number(3, 1)),
        _ => compare_all(
            subject,
            number(0, 100_000),
            number(1, 100_000),
            number(2, 1),
        ),
    }
}

fn usage() -> ! {
    eprintln!("compare [SHEETS] [DAMAGED] [SEED] | selftest [SEED] | replay DIR");
    eprintln!("      | case sheet|damaged NUMBER SEED");
    exit(2)
}

/// Compares one case; on a difference writes it into a folder.
fn one(subject: &dyn Interface, kind: &str, number: u64, seed: u64, tally: &mut Tally) -> bool {
    let case = match kind {
        "sheet" => well_formed(seed, number),
        "damaged" => damaged(seed, number),
        _ => usage(),
    };
    let Err(difference) = examine(case, subject, correct(), Yardsticks::ALL, tally) else {
        return true;
    };
    let origin = format!("case {kind} {number} {seed}");
    println!("DIFFERENCE at {origin}: {}", difference.what);
    let folder = PathBuf::from(FOLDER).join(format!("{kind}-{number}-{seed}"));
    match replay::write(&folder, &difference, &origin) {
        Ok(()) => println!("written; again with: compare replay {}", folder.display()),
        Err(error) => println!("could not write {}: {error}", folder.display()),
    }
    false
}

fn one_case(subject: &dyn Interface, kind: &str, number: u64, seed: u64) -> bool {
    let mut tally = Tally::default();
    let same = one(subject, kind, number, seed, &mut tally);
    tally.print();
    same
}

fn compare_all(subject: &dyn Interface, sheets: u64, files: u64, seed: u64) -> bool {
    // The case at work is kept in a file, so that a crash can be traced.
    let mut current = std::fs::create_dir_all(FOLDER)
        .and_then(|()| File::create(Path::new(FOLDER).join("current")))
        .expect("folder for differences");
    watchdog::start(format!("see {FOLDER}/current for the case"));
    let begin = Instant::now();
    let mut tally = Tally::default();
    for (kind, count) in [("sheet", sheets), ("damaged", files)] {
        for number in 0..count {
            let note = format!("case {kind} {number:>12} {seed}\n");
            let noted = current
                .seek(SeekFrom::Start(0))
                .and_then(|_| current.write_all(note.as_bytes()));
            noted.expect("note of the current case");
            watchdog::alive();
            if !one(subject, kind, number, seed, &mut tally) {
                return false;
            }
            let done = number + 1;
            if done % 10_000 == 0 || done == count {
                let seconds = begin.elapsed().as_secs_f64();
                println!("{kind} {done} of {count}: no difference ({seconds:.1} s)");
            }
        }
    }
    println!("No difference. Answers seen (number of the table: how often):");
    tally.print();
    true
}

fn replay_call(subject: &dyn Interface, folder: &Path) -> bool {
    let call = match replay::read(folder) {
        Ok(call) => call,
        Err(error) => {
            println!("cannot read {}: {error}", folder.display());
            return false;
        }
    };
    let theirs = call.perform(subject);
    let ours = call.perform(correct());
    println!(
        "{}: interface {}, model {}",
        call.name(),
        shown(theirs.code),
        shown(ours.code)
    );
    match check::check(&call, subject, correct(), Yardsticks::ALL) {
        Ok(_) => {
            println!("no difference");
            true
        }
        Err(difference) => {
            println!("DIFFERENCE {}", difference.what);
            false
        }
    }
}
