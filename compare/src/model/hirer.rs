//! The run for a hirer (document 02, request 5).

use super::answer::Answer;
use super::behaviour::HirerBehaviour;
use super::translation::{self, Node, Translation};
use super::{run, Refusal};
use crate::interface::Allowances;
use zifnora::numbers::CLOSED_READING;

/// What a hirer's run is given beside the file and the lent cells.
#[derive(Clone, Copy)]
pub struct Hire<'a> {
    /// The allowed readings, one bit each.
    pub set: u32,
    pub readings: &'a [i32],
    pub allowances: Allowances,
}

/// "Else the hirer's run is the owner's".
pub fn run_for_hirer<B: HirerBehaviour>(
    behaviour: &B,
    file: &[u8],
    hire: Hire,
    lent: &mut [u8],
) -> Answer {
    match behaviour.accept_for_hirer(file, hire, lent.len()) {
        Ok(accepted) => behaviour.run_accepted(&accepted, hire.readings, hire.allowances, lent),
        Err(refusal) => Answer::refused(refusal),
    }
}

/// "21 (closed), after 5 and before 9, place of the first such node's record".
pub fn accept<B: HirerBehaviour>(
    behaviour: &B,
    file: &[u8],
    hire: Hire,
    lent: usize,
) -> Result<Translation, Refusal> {
    let translation = translation::read(behaviour, file)?;
    if let Some(node) = behaviour.closed_node(&translation, hire.set) {
        let place = behaviour.closed_place(&translation, node);
        return Err(Refusal::new(CLOSED_READING, place));
    }
    run::check_input(
        behaviour,
        &translation,
        hire.readings,
        hire.allowances,
        lent,
    )?;
    Ok(translation)
}

/// The first "reading node outside the set, reached or not".
pub fn closed_node<B: HirerBehaviour>(
    behaviour: &B,
    translation: &Translation,
    set: u32,
) -> Option<usize> {
    let mut nodes = translation.nodes.iter();
    nodes.position(|node| is_closed(behaviour, node, set))
}

pub fn is_closed<B: HirerBehaviour>(behaviour: &B, node: &Node, set: u32) -> bool {
    match node {
        Node::Reading(reading) => !behaviour.reading_allowed(set, *reading),
        _ => false,
    }
}

/// Whether a reading is in a set.
pub fn reading_allowed(set: u32, reading: u16) -> bool {
    reading < 32 && set & 1 << reading != 0
}
