//! Chooses the calls with which a file is examined, and compares them.

use crate::call::{inner, After, Call, RunInput};
use crate::check::{check, Difference};
use crate::generate::random::Random;
use crate::generate::sizes;
use crate::interface::{count, Allowances, Interface};
use crate::model::answer::{Answer, RECORD};
use crate::tally::Tally;
use crate::yardsticks::Yardsticks;
use zifnora::numbers::{is_refusal, is_stop, NO_NESTING};
use zifnora::sizes::{CELL_BYTES, MOST_CELLS, MOST_NESTING, TRANSLATION_BYTES};

pub struct Examiner<'a> {
    pub subject: &'a dyn Interface,
    pub reference: &'a dyn Interface,
    pub by: Yardsticks,
    pub tally: &'a mut Tally,
    /// The answers of the runs so far.
    pub answers: Vec<Answer>,
    /// The translations that were run, each with the sheet that it is the
    /// translation of.
    pub translations: Vec<(Vec<u8>, Option<Vec<u8>>)>,
}

/// Readings due, by the head of a sheet or translation; a damaged head asks
/// for 40 at most.
pub(crate) fn readings_due(file: &[u8]) -> usize {
    match file.len() {
        0..=5 => 0,
        _ => (u16::from_le_bytes([file[4], file[5]]) as usize).min(40),
    }
}

impl Examiner<'_> {
    pub(crate) fn check(&mut self, call: &Call) -> Result<After, Difference> {
        let agreed = check(call, self.subject, self.reference, self.by)?;
        self.tally.add(call, &agreed);
        let runs = call.runs(&agreed.after);
        self.answers.extend(runs.iter().map(|run| run.answer));
        Ok(agreed.after)
    }

    /// A sheet, well-formed or damaged.
    pub fn sheet(&mut self, random: &mut Random, sheet: &[u8]) -> Result<(), Difference> {
        let mut scratch = vec![0; TRANSLATION_BYTES];
        let length = count(self.reference.translate(sheet, &mut scratch));
        let room = sizes::room(random, length.unwrap_or(100));
        let out = random.bytes(room);
        self.check(&Call::Translate {
            sheet: sheet.to_vec(),
            out,
        })?;

        self.lengths(sheet, length)?;

        let room = sizes::room(random, length.unwrap_or(100));
        let joined = Call::Joined {
            sheet: sheet.to_vec(),
            out: random.bytes(room),
            input: run_input(random, readings_due(sheet)),
        };
        let after = self.check(&joined)?;
        self.list(random, inner(&after.cells), &after)?;

        match length {
            Some(length) => {
                // Just enough room, so that every accepted sheet is translated.
                let out = random.bytes(length);
                self.check(&Call::Translate {
                    sheet: sheet.to_vec(),
                    out,
                })?;
                self.translation(random, &scratch[..length], Some(sheet))
            }
            None if random.chance(5) => self.translation(random, sheet, None),
            None => Ok(()),
        }
    }

    /// Asks for the length of a sheet's translation: at the length, one below
    /// and one above, 0, the greatest number, and one that is 0 on 32 bits.
    fn lengths(&mut self, sheet: &[u8], length: Option<usize>) -> Result<(), Difference> {
        let mut rooms = vec![0, 1 << 32, u64::MAX];
        if let Some(length) = length {
            let length = length as u64;
            rooms.extend([length - 1, length, length + 1]);
        }
        for room in rooms {
            let sheet = sheet.to_vec();
            self.check(&Call::Length { sheet, room })?;
        }
        Ok(())
    }

    /// A translation; `of` is the sheet that it is the translation of.
    pub fn translation(
        &mut self,
        random: &mut Random,
        file: &[u8],
        of: Option<&[u8]>,
    ) -> Result<(), Difference> {
        let due = readings_due(file);
        self.runs(random, file, of, due)?;
        self.batches(random, file, of, due)?;
        // The last draws here, so that those of the other runs stay the same.
        self.hired(random, file, of, due)?;
        let of = of.map(<[u8]>::to_vec);
        self.translations.push((file.to_vec(), of));
        Ok(())
    }

    fn runs(
        &mut self,
        random: &mut Random,
        file: &[u8],
        of: Option<&[u8]>,
        due: usize,
    ) -> Result<(), Difference> {
        let call = |input: RunInput| Call::Run {
            of: of.map(<[u8]>::to_vec),
            file: file.to_vec(),
            input,
        };
        let after = self.check(&call(run_input(random, due)))?;
        self.list(random, inner(&after.cells), &after)?;

        let ample = ample_input(random, due);
        let after = self.check(&call(ample.clone()))?;
        self.list(random, inner(&after.cells), &after)?;
        let Some(answer) = Answer::from_record(inner(&after.record)) else {
            return Ok(());
        };
        if is_refusal(answer.outcome) {
            return Ok(());
        }
        for allowances in edges(random, ample.allowances, &answer) {
            let input = edge_input(random, &ample, allowances);
            let after = self.check(&call(input.clone()))?;
            // Where nesting and steps run out at once.
            match Answer::from_record(inner(&after.record)) {
                Some(answer) if answer.outcome == NO_NESTING => {
                    self.check(&call(with_steps(input, answer.steps)))?;
                }
                _ => {}
            }
        }
        Ok(())
    }
}

fn with_steps(input: RunInput, steps: u32) -> RunInput {
    let allowances = Allowances {
        steps,
        ..input.allowances
    };
    RunInput {
        allowances,
        ..input
    }
}

/// Ample allowances and the right number of readings.
fn ample_input(random: &mut Random, due: usize) -> RunInput {
    let (steps, cells) = match random.below(100) {
        0 => (40_000, MOST_CELLS),
        1..=3 => (3000, MOST_CELLS),
        _ => (1500, 300),
    };
    let readings = (0..due).map(|_| random.number()).collect();
    RunInput {
        readings,
        allowances: Allowances {
            steps,
            nesting: MOST_NESTING,
            cells,
        },
        cells: random.bytes(CELL_BYTES * cells as usize),
        record: random.bytes(RECORD),
    }
}

pub(crate) fn run_input(random: &mut Random, due: usize) -> RunInput {
    let allowances = sizes::allowances(random);
    let readings = sizes::readings(random, due);
    let (cells, record) = (sizes::lent(random, allowances.cells), sizes::record(random));
    RunInput {
        readings,
        allowances,
        cells: random.bytes(cells),
        record: random.bytes(record),
    }
}

/// The same readings with other allowances and buffers.
fn edge_input(random: &mut Random, ample: &RunInput, allowances: Allowances) -> RunInput {
    let lent = CELL_BYTES * (allowances.cells as usize).min(sizes::CELLS_LENT);
    RunInput {
        readings: ample.readings.clone(),
        allowances,
        cells: random.bytes(lent),
        record: random.bytes(RECORD),
    }
}

/// Allowances just short and just enough for an answer already known.
fn edges(random: &mut Random, ample: Allowances, answer: &Answer) -> Vec<Allowances> {
    let mut found = Vec::new();
    let cells = answer.cells as u32;
    let stopped = is_stop(answer.outcome);
    if answer.steps > 0 {
        let steps = if random.chance(50) {
            answer.steps
        } else {
            answer.steps - 1
        };
        found.push(Allowances {
            steps,
            cells,
            ..ample
        });
    }
    if cells > 0 {
        found.push(Allowances {
            cells: cells - 1,
            ..ample
        });
    }
    if !stopped && random.chance(30) {
        found.push(Allowances {
            steps: u32::MAX,
            ..ample
        });
    }
    let deepest = if random.chance(70) { 20 } else { 200 };
    let nesting = random.between(1, deepest) as u32;
    found.push(Allowances {
        nesting,
        cells,
        ..ample
    });
    found
}
