//! Typed sheets: well typed ones, and others given types.

use super::infer::{guess, infer};
use super::random::Random;
use super::reached::reached;
use super::typed_break::break_types;
use super::{given_back, sheet, template};
use zifnora::build_sheet::{Program, TypedProgram};

/// A well typed sheet.
pub fn well_typed(random: &mut Random) -> Vec<u8> {
    let program = inferred(random, any);
    encode(random, &program)
}

/// A sheet with one thing changed that was well typed before, mostly one of which
/// a run reaches many nodes.
pub fn broken(random: &mut Random) -> Vec<u8> {
    let make = random.pick(&[any, sheet::tiny, reached, reached]);
    let mut program = inferred(random, make);
    break_types(random, &mut program);
    encode(random, &program)
}

fn any(random: &mut Random) -> Program {
    match random.below(40) {
        0 => sheet::counting(),
        1..=3 => template::template(random),
        4 => given_back::numbers(random),
        5..=8 => given_back::lists(random),
        9 | 10 => sheet::sheet(random),
        11..=13 => sheet::tiny(random),
        14 => reached(random),
        _ => sheet::strict(random),
    }
}

/// A sheet that is made so, with its types, once it has some.
fn inferred(random: &mut Random, make: fn(&mut Random) -> Program) -> TypedProgram {
    loop {
        let program = make(random);
        if let (typed, true) = infer(random, &program) {
            return typed;
        }
    }
}

/// Any sheet, with types that break few of its rules or none.
pub fn nearly(random: &mut Random) -> Vec<u8> {
    let program = sheet::sheet(random);
    let (typed, _) = infer(random, &program);
    encode(random, &typed)
}

/// Any sheet, with any types.
pub fn guessed(random: &mut Random) -> Vec<u8> {
    let program = sheet::sheet(random);
    let typed = guess(random, &program);
    encode(random, &typed)
}

/// In post-order or with the nodes in another allowed order.
pub fn encode(random: &mut Random, program: &TypedProgram) -> Vec<u8> {
    if random.chance(40) {
        program.encode()
    } else {
        program.encode_shuffled(|bound| random.below(bound))
    }
}
