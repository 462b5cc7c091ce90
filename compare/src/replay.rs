//! Writes a call that differs into a folder, and reads it back.
//! `call.txt` holds the words and numbers, one file each the bytes.

use crate::call::{Call, RunInput};
use crate::check::Difference;
use crate::interface::{Allowances, Search};
use std::collections::HashMap;
use std::fs;
use std::io::{Error, ErrorKind, Result};
use std::path::Path;
use std::str::FromStr;

pub fn write(folder: &Path, difference: &Difference, origin: &str) -> Result<()> {
    fs::create_dir_all(folder)?;
    let put = |name: &str, bytes: &[u8]| fs::write(folder.join(name), bytes);
    let mut text = format!("call {}\n", difference.call.name());
    match &*difference.call {
        Call::Translate { sheet, out } => {
            put("sheet.bin", sheet)?;
            put("out.bin", out)?;
        }
        Call::Length { sheet, .. } => put("sheet.bin", sheet)?,
        Call::Canonical { sheet, out, other } => {
            put("sheet.bin", sheet)?;
            put("out.bin", out)?;
            put("other.bin", other)?;
        }
        Call::Run { of, file, input }
        | Call::Rows {
            of, file, input, ..
        }
        | Call::Hirer {
            of, file, input, ..
        }
        | Call::Search {
            of, file, input, ..
        } => {
            text += &write_input(folder, input)?;
            put("translation.bin", file)?;
            if let Some(sheet) = of {
                put("sheet.bin", sheet)?;
            }
        }
        Call::Joined { sheet, out, input } => {
            text += &write_input(folder, input)?;
            put("sheet.bin", sheet)?;
            put("out.bin", out)?;
        }
        Call::List { cells, out, .. } => {
            put("cells.bin", cells)?;
            put("out.bin", out)?;
        }
        Call::View { record, out, other } => {
            put("record.bin", record)?;
            put("out.bin", out)?;
            put("other.bin", other)?;
        }
    }
    if let Call::Hirer { other, .. } = &*difference.call {
        put("other.bin", &bytes_of(other))?;
    }
    text += &own_words(&difference.call);
    text += &format!("origin {origin}\n");
    text += &format!("difference {}\n", difference.what);
    fs::write(folder.join("call.txt"), text)
}

/// The words that only one kind of call has.
fn own_words(call: &Call) -> String {
    match call {
        Call::Length { room, .. } => format!("room {room}\n"),
        Call::Rows { rows, .. } => format!("rows {rows}\n"),
        Call::Hirer { set, .. } => format!("set {set}\n"),
        Call::List { cell, .. } => format!("cell {cell}\n"),
        Call::Search { search, .. } => {
            let Search {
                position,
                lowest,
                highest,
                wanted,
            } = search;
            format!("position {position}\nlowest {lowest}\nhighest {highest}\nwanted {wanted}\n")
        }
        _ => String::new(),
    }
}

fn bytes_of(readings: &[i32]) -> Vec<u8> {
    let bytes = readings.iter().flat_map(|reading| reading.to_le_bytes());
    bytes.collect()
}

fn readings_of(bytes: &[u8]) -> Vec<i32> {
    let fours = bytes.chunks_exact(4);
    let readings = fours.map(|four| i32::from_le_bytes([four[0], four[1], four[2], four[3]]));
    readings.collect()
}

/// Writes the bytes of a run's input; its words.
fn write_input(folder: &Path, input: &RunInput) -> Result<String> {
    fs::write(folder.join("readings.bin"), bytes_of(&input.readings))?;
    fs::write(folder.join("cells.bin"), &input.cells)?;
    fs::write(folder.join("record.bin"), &input.record)?;
    let Allowances {
        steps,
        nesting,
        cells,
    } = input.allowances;
    Ok(format!("steps {steps}\nnesting {nesting}\ncells {cells}\n"))
}

/// The words of a call, by name.
type Words<'a> = HashMap<&'a str, &'a str>;

fn wrong(what: &str) -> Error {
    Error::new(ErrorKind::InvalidData, format!("call.txt: {what}"))
}

fn number<N: FromStr>(words: &Words, name: &str) -> Result<N> {
    let word = words.get(name).ok_or_else(|| wrong(name))?;
    word.parse().map_err(|_| wrong(name))
}

fn read_input(folder: &Path, words: &Words) -> Result<RunInput> {
    Ok(RunInput {
        readings: readings_of(&fs::read(folder.join("readings.bin"))?),
        allowances: Allowances {
            steps: number(words, "steps")?,
            nesting: number(words, "nesting")?,
            cells: number(words, "cells")?,
        },
        cells: fs::read(folder.join("cells.bin"))?,
        record: fs::read(folder.join("record.bin"))?,
    })
}

fn read_search(words: &Words) -> Result<Search> {
    Ok(Search {
        position: number(words, "position")?,
        lowest: number(words, "lowest")?,
        highest: number(words, "highest")?,
        wanted: number(words, "wanted")?,
    })
}

pub fn read(folder: &Path) -> Result<Call> {
    let text = fs::read_to_string(folder.join("call.txt"))?;
    let words: Words = text
        .lines()
        .filter_map(|line| line.split_once(' '))
        .collect();
    let get = |name: &str| fs::read(folder.join(name));
    match words.get("call").copied() {
        Some("translate") => Ok(Call::Translate {
            sheet: get("sheet.bin")?,
            out: get("out.bin")?,
        }),
        Some("translated_length") => Ok(Call::Length {
            sheet: get("sheet.bin")?,
            room: number(&words, "room")?,
        }),
        Some("canonical_sheet") => Ok(Call::Canonical {
            sheet: get("sheet.bin")?,
            out: get("out.bin")?,
            other: get("other.bin")?,
        }),
        Some("run") => Ok(Call::Run {
            of: get("sheet.bin").ok(),
            file: get("translation.bin")?,
            input: read_input(folder, &words)?,
        }),
        Some("run_for_hirer") => Ok(Call::Hirer {
            of: get("sheet.bin").ok(),
            file: get("translation.bin")?,
            set: number(&words, "set")?,
            input: read_input(folder, &words)?,
            other: readings_of(&get("other.bin")?),
        }),
        Some("run_rows") => Ok(Call::Rows {
            of: get("sheet.bin").ok(),
            file: get("translation.bin")?,
            rows: number(&words, "rows")?,
            input: read_input(folder, &words)?,
        }),
        Some("find_reading") => Ok(Call::Search {
            of: get("sheet.bin").ok(),
            file: get("translation.bin")?,
            search: read_search(&words)?,
            input: read_input(folder, &words)?,
        }),
        Some("translate_and_run") => Ok(Call::Joined {
            sheet: get("sheet.bin")?,
            out: get("out.bin")?,
            input: read_input(folder, &words)?,
        }),
        Some("list_context") => Ok(Call::List {
            cells: get("cells.bin")?,
            cell: number(&words, "cell")?,
            out: get("out.bin")?,
        }),
        Some("driver_view") => Ok(Call::View {
            record: get("record.bin")?,
            out: get("out.bin")?,
            other: get("other.bin")?,
        }),
        _ => Err(wrong("call")),
    }
}

#[cfg(test)]
mod tests {
    use super::*;

    fn is_read_back(call: Call) {
        let difference = Difference {
            what: "none".to_string(),
            call: Box::new(call.clone()),
        };
        let folder = format!("compare-replay-{}-{}", call.name(), std::process::id());
        let folder = std::env::temp_dir().join(folder);
        write(&folder, &difference, "test").expect("written");
        let again = read(&folder).expect("read");
        fs::remove_dir_all(&folder).expect("removed");
        assert_eq!(format!("{again:?}"), format!("{call:?}"));
    }

    #[test]
    fn a_view_is_read_back() {
        is_read_back(Call::View {
            record: vec![1, 2, 3],
            out: vec![4, 5],
            other: vec![6],
        });
    }

    #[test]
    fn a_canonical_sheet_is_read_back() {
        is_read_back(Call::Canonical {
            sheet: vec![1, 2],
            out: vec![3],
            other: vec![],
        });
    }

    fn input() -> RunInput {
        RunInput {
            readings: vec![-1, 2],
            allowances: Allowances {
                steps: 3,
                nesting: 4,
                cells: 5,
            },
            cells: vec![6, 7],
            record: vec![8],
        }
    }

    #[test]
    fn a_hirers_run_is_read_back() {
        is_read_back(Call::Hirer {
            of: Some(vec![9]),
            file: vec![10],
            set: 11,
            input: input(),
            other: vec![-12, 2],
        });
    }

    #[test]
    fn a_search_is_read_back() {
        is_read_back(Call::Search {
            of: Some(vec![9]),
            file: vec![10],
            search: Search {
                position: u32::MAX,
                lowest: i32::MIN,
                highest: -11,
                wanted: i32::MAX,
            },
            input: input(),
        });
    }
}
