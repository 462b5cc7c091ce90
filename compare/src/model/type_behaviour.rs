//! The steps around types that can be exchanged, in the manner of `Behaviour`.

use super::sheet::Sheet;
use super::typing::{self, Rule, Typing};
use super::{types, Refusal};

pub trait TypeBehaviour: Sized {
    /// Whether the kind of the record after the head is that of a typed sheet.
    fn is_typed(&self, kind: u16) -> bool {
        types::is_typed(kind)
    }

    /// The ranges of an own type and of any other type in a record.
    fn own_type_fits(&self, of: u16) -> bool {
        types::own_type_fits(of)
    }

    fn type_fits(&self, of: u16) -> bool {
        types::type_fits(of)
    }

    // The check of a typed sheet's nodes.
    fn check_types(&self, sheet: &Sheet) -> Result<(), Refusal> {
        typing::check_types(self, sheet)
    }

    fn type_of(&self, typing: &Typing, node: usize) -> u16 {
        typing::type_of(typing, node)
    }

    fn rules(&self, typing: &Typing, node: usize) -> Vec<Rule> {
        typing::rules(typing, node)
    }

    fn holds(&self, typing: &Typing, rule: Rule) -> bool {
        typing::holds(typing, rule)
    }

    fn ill_typed_node(&self, typing: &Typing) -> Option<usize> {
        typing::ill_typed_node(self, typing)
    }

    fn ill_typed_place(&self, typing: &Typing, node: usize) -> u32 {
        typing.sheet.record_of(node)
    }
}
