//! Chooses the outputs and the second sheets with which the canonical form of a
//! sheet is examined.

use crate::call::Call;
use crate::check::Difference;
use crate::examine::Examiner;
use crate::generate::random::Random;
use crate::generate::{deep, one_change, renumber, sizes};
use crate::model::{Behaviour, Correct};

impl Examiner<'_> {
    /// The canonical form of a file; now and then also that of a deep sheet, which
    /// is run besides.
    pub fn canonical_forms(&mut self, random: &mut Random, file: &[u8]) -> Result<(), Difference> {
        self.canonical(random, file)?;
        if random.below(300) == 0 {
            let deep = deep::deep(random);
            self.sheet(random, &deep)?;
            self.canonical(random, &deep)?;
        }
        Ok(())
    }

    /// The canonical form of a file in outputs of just its length, longer, of any
    /// length, one byte short, and of no bytes; that of an accepted sheet beside that
    /// of the same in another order, and beside that of another.
    fn canonical(&mut self, random: &mut Random, file: &[u8]) -> Result<(), Difference> {
        let length = file.len();
        let (mut same, mut another) = (vec![], vec![]);
        if Correct.read_sheet(file).is_ok() {
            same = renumber::renumbered(random, file);
            another = changed(random, file);
        }
        let either = random.pick(&[&same, &another]);
        let calls = [
            (length, &same),
            (sizes::longer(random, length), &another),
            (sizes::room(random, length), either),
            (length.saturating_sub(1), &same),
            (0, &another),
        ];
        for (room, other) in calls {
            self.check(&Call::Canonical {
                sheet: file.to_vec(),
                out: random.bytes(room),
                other: other.clone(),
            })?;
        }
        Ok(())
    }
}

/// Another sheet with one change, half of the times with the nodes in another order
/// besides; empty where there is none.
fn changed(random: &mut Random, file: &[u8]) -> Vec<u8> {
    let changed = one_change::changed(random, file).unwrap_or_default();
    match changed.is_empty() || random.chance(50) {
        true => changed,
        false => renumber::renumbered(random, &changed),
    }
}
