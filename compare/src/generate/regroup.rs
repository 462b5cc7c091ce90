//! Translations of sheets with their formals in other hands: in other
//! functions, or visited under cells that other functions' calls made.

use super::damage::{records, HEAD_BYTES};
use super::random::Random;
use super::translation::parameters;
use crate::model::records::two_bytes;
use zifnora::kinds::translation as kinds;

/// Deals the formals of a translation out to its functions anew, or exchanges
/// some formals or callees for others. All is still in range.
pub fn regroup(random: &mut Random, file: &mut [u8]) {
    let [formals, functions] = [6, 8].map(|at| two_bytes(file, at) as usize);
    let way = random.below(4);
    let mut dealt = parameters(random, functions, formals).into_iter();
    let all = kinds_of(file);
    let mut set = |at: usize, value: usize| {
        file[at..at + 2].copy_from_slice(&(value as u16).to_le_bytes());
    };
    for (start, kind) in all {
        match kind {
            kinds::FUNCTION if way < 3 => {
                let count = dealt.next().expect("one for each function");
                set(start + 6, count as usize);
            }
            kinds::FORMAL if way > 0 && random.chance(30) => {
                set(start + 4, random.below(formals));
            }
            kinds::CALL if way > 1 && random.chance(10) => {
                set(start + 6, random.below(functions));
            }
            _ => {}
        }
    }
}

/// Start and kind of each record after the head.
fn kinds_of(file: &[u8]) -> Vec<(usize, u16)> {
    let all = records(file)
        .into_iter()
        .filter(|record| record.0 >= HEAD_BYTES);
    all.map(|(start, _)| (start, two_bytes(file, start + 2)))
        .collect()
}
