//! The cases of a comparison by number: well-formed sheets, and damaged or
//! odd files. A case depends on the seed and its number only.

use super::random::Random;
use super::sheet::encoded;
use super::{
    ceiling, damage, foreign, given_back, regroup, sheet, targeted, template, translation,
};
use super::{typed, typed_ceiling, typed_damage};
use crate::model::{Behaviour, Correct};
use zifnora::sizes::{SHEET_BYTES, TRANSLATION_BYTES};

pub enum Case {
    Sheet(Vec<u8>),
    Translation(Vec<u8>),
}

/// Well-formed sheet number `number`, and the generator to go on with.
pub fn well_formed(seed: u64, number: u64) -> (Case, Random) {
    let mut random = Random::of_case(seed, 1, number);
    let file = match random.below(300) {
        0 => ceiling::greatest(&mut random),
        1 | 2 => encoded(&mut random, |_| sheet::counting()),
        3..=22 => encoded(&mut random, template::template),
        23..=32 => encoded(&mut random, given_back::numbers),
        33..=48 => encoded(&mut random, given_back::lists),
        49..=199 => encoded(&mut random, sheet::sheet),
        200 => typed_ceiling::greatest(&mut random),
        _ => typed::well_typed(&mut random),
    };
    (Case::Sheet(file), random)
}

/// Damaged or odd file number `number`, and the generator to go on with.
pub fn damaged(seed: u64, number: u64) -> (Case, Random) {
    let mut random = Random::of_case(seed, 2, number);
    let case = match random.below(300) {
        0 => {
            let file = ceiling::greatest(&mut random);
            Case::Sheet(changed(&mut random, file, damage::damage))
        }
        1 => Case::Sheet(long_sheet(&mut random)),
        2 => Case::Translation(long_translation(&mut random)),
        3 => Case::Sheet(few_bytes(&mut random)),
        4 => {
            let file = encoded(&mut random, sheet::sheet);
            Case::Sheet(resized(&mut random, file, SHEET_BYTES))
        }
        5 => {
            let file = translation::translation(&mut random);
            Case::Translation(resized(&mut random, file, TRANSLATION_BYTES))
        }
        6..=59 => {
            let file = encoded(&mut random, sheet::sheet);
            Case::Sheet(changed(&mut random, file, damage::damage))
        }
        60..=119 => {
            let file = encoded(&mut random, sheet::sheet);
            Case::Sheet(changed(&mut random, file, targeted::break_rules))
        }
        120..=129 => {
            let file = translated(&encoded(&mut random, sheet::sheet));
            Case::Translation(changed(&mut random, file, either))
        }
        130..=139 => Case::Translation(foreign::foreign(&mut random)),
        140..=149 => {
            let mut file = translated(&encoded(&mut random, sheet::sheet));
            regroup::regroup(&mut random, &mut file);
            Case::Translation(file)
        }
        150..=179 => Case::Translation(translation::translation(&mut random)),
        180..=199 => {
            let file = translation::translation(&mut random);
            Case::Translation(changed(&mut random, file, either))
        }
        _ => Case::Sheet(damaged_typed(&mut random)),
    };
    (case, random)
}

/// A sheet that is typed, or was to be.
fn damaged_typed(random: &mut Random) -> Vec<u8> {
    let way = random.below(100);
    let mut file = match way {
        0 | 1 => typed_ceiling::greatest(random),
        2 | 3 => encoded(random, sheet::sheet),
        4..=6 => return typed::guessed(random),
        7..=12 => return typed::nearly(random),
        13..=57 => return typed::broken(random),
        58..=65 => typed::broken(random),
        _ => typed::well_typed(random),
    };
    match way {
        0 | 66..=78 => typed_damage::change_type(random, &mut file),
        2 | 3 | 79..=83 => typed_damage::mix(random, &mut file),
        84..=91 => typed_damage::relength(random, &mut file),
        92..=95 => damage::damage(random, &mut file),
        _ => targeted::break_rules(random, &mut file),
    }
    file
}

fn changed(random: &mut Random, file: Vec<u8>, change: fn(&mut Random, &mut Vec<u8>)) -> Vec<u8> {
    let mut file = file;
    change(random, &mut file);
    file
}

/// The file cut or filled with zeros to a size at or near `greatest`, or one
/// that two bytes cannot tell.
fn resized(random: &mut Random, file: Vec<u8>, greatest: usize) -> Vec<u8> {
    let mut file = file;
    let sizes = [
        greatest - 1,
        greatest,
        greatest + 1,
        65_536,
        65_536 + file.len(),
    ];
    file.resize(random.pick(&sizes), 0);
    file
}

fn few_bytes(random: &mut Random) -> Vec<u8> {
    let length = random.below(40);
    random.bytes(length)
}

/// The translation of a sheet.
pub fn translated(sheet: &[u8]) -> Vec<u8> {
    let mut out = vec![0; TRANSLATION_BYTES];
    let length = Correct.translate_into(sheet, &mut out);
    out.truncate(length.expect("generated sheets are accepted"));
    out
}

/// Any damage, or only references out of place.
fn either(random: &mut Random, file: &mut Vec<u8>) {
    if random.chance(50) {
        damage::damage(random, file);
    } else {
        targeted::break_rules(random, file);
    }
}

/// A sheet file at or near 32,768 bytes.
fn long_sheet(random: &mut Random) -> Vec<u8> {
    let target = random.pick(&[
        SHEET_BYTES - 4,
        SHEET_BYTES - 2,
        SHEET_BYTES,
        SHEET_BYTES,
        SHEET_BYTES + 2,
    ]);
    let wild = random.chance(30);
    let mut file = ceiling::long(random, target, wild);
    grow_or_cut(random, &mut file);
    file
}

/// A translation file at or near 40,960 bytes.
fn long_translation(random: &mut Random) -> Vec<u8> {
    let mut file = translation::longest(random);
    grow_or_cut(random, &mut file);
    file
}

fn grow_or_cut(random: &mut Random, file: &mut Vec<u8>) {
    match random.below(8) {
        0 => file.push(0),
        1 => file.truncate(file.len() - 1),
        2 => damage::damage(random, file),
        _ => {}
    }
}
