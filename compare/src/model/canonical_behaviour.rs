//! The steps of writing a sheet in canonical form that can be exchanged, beside
//! those of its reader.

use super::behaviour::{Behaviour, Correct};
use super::canonical;
use super::sheet::{Node, Sheet};
use super::Refusal;

pub trait CanonicalBehaviour: Behaviour {
    fn canonical_sheet(&self, file: &[u8], out: &mut [u8]) -> Result<usize, Refusal> {
        canonical::canonical_sheet(self, file, out)
    }

    /// Whether so many bytes are enough for the sheet.
    fn canonical_fits(&self, file: &[u8], room: usize) -> bool {
        canonical::canonical_fits(file, room)
    }

    fn canonical(&self, file: &[u8], sheet: &Sheet) -> Vec<u8> {
        canonical::canonical(self, file, sheet)
    }

    /// Head, constructors and functions.
    fn canonical_sections(&self, file: &[u8], sheet: &Sheet) -> Vec<u8> {
        canonical::sections(file, sheet).to_vec()
    }

    /// The nodes in their new order.
    fn canonical_order(&self, sheet: &Sheet) -> Vec<u16> {
        canonical::order(self, sheet)
    }

    /// The children of a node in the order in which they are written.
    fn canonical_children(&self, node: &Node) -> Vec<u16> {
        canonical::children(node)
    }

    /// A node as it is written, where `numbers` has the new number of each.
    fn canonical_node(&self, sheet: &Sheet, node: u16, numbers: &[u16]) -> Node {
        let new = |child: u16| numbers[child as usize];
        canonical::renumbered(&sheet.nodes[node as usize], new)
    }
}

impl CanonicalBehaviour for Correct {}
