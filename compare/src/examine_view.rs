//! Chooses the answer records whose driver's views are examined.

use crate::call::Call;
use crate::check::Difference;
use crate::examine::Examiner;
use crate::generate::answer_record::{any, damaged, near};
use crate::generate::random::Random;
use crate::generate::sizes;
use crate::model::answer::Answer;

impl Examiner<'_> {
    /// Views of the records that the runs before left, of other records, and
    /// of damaged ones; each beside a second record.
    pub fn views(&mut self, random: &mut Random) -> Result<(), Difference> {
        let left = std::mem::take(&mut self.answers);
        for answer in &left {
            let other = match random.chance(25) {
                true => random.pick(&left),
                false => near(random, answer),
            };
            self.view(random, answer.record().to_vec(), other)?;
        }
        for _ in 0..4 {
            let answer = any(random);
            let other = near(random, &answer);
            self.view(random, answer.record().to_vec(), other)?;
        }
        for _ in 0..3 {
            let answer = match left.len() {
                0 => any(random),
                _ => random.pick(&left),
            };
            let record = damaged(random, &answer);
            self.view(random, record, answer)?;
        }
        Ok(())
    }

    fn view(
        &mut self,
        random: &mut Random,
        record: Vec<u8>,
        other: Answer,
    ) -> Result<(), Difference> {
        let room = sizes::view(random);
        self.check(&Call::View {
            record,
            out: random.bytes(room),
            other: other.record().to_vec(),
        })?;
        Ok(())
    }
}
