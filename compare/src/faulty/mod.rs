//! The model with a deliberate fault. The self-test takes one fault at a time
//! and demands that the comparison finds it. All faults stand here, beside
//! the model: a step of the model is exchanged, or what it gives is changed.

mod batch;
mod canonical;
mod canonical_nodes;
mod driver_view;
pub mod fault;
mod giving;
mod hirer;
pub mod listed;
pub mod listed_canonical;
pub mod listed_giving;
pub mod listed_hirer;
pub mod listed_remembering;
pub mod listed_search;
pub mod listed_typing;
pub mod listed_view;
mod reading;
mod remembering;
mod running;
mod search;
mod search_range;
mod sharing;
mod translating;
mod typed_reading;
mod typing;

use crate::interface::Allowances;
use crate::model::answer::Answer;
use crate::model::cells::Value;
use crate::model::records::{Record, Records};
use crate::model::run::{self, Run};
use crate::model::sheet::{self, Sheet};
use crate::model::translate::Labelling;
use crate::model::translation::{self, Translation};
use crate::model::trees::Tree;
use crate::model::{joined, listing, operator, rules, translate};
use crate::model::{Behaviour, Refusal, TypeBehaviour};
use fault::Fault;
use zifnora::sizes::CELL_BYTES;

/// The model with one fault.
pub struct Faulty(pub Fault);

// Each method is the model's own step but for the faults that it names.
impl Behaviour for Faulty {
    fn read_sheet(&self, file: &[u8]) -> Result<Sheet, Refusal> {
        match self.0 {
            Fault::SizeLimit => reading::below_size(file).and_then(|()| sheet::read(self, file)),
            _ => typed_reading::read(self, file),
        }
    }

    fn next_record<'a>(
        &self,
        records: &mut Records<'a>,
        due: &[u16],
    ) -> Result<Record<'a>, Refusal> {
        match self.0 {
            Fault::TruncatedBeforeKind => reading::whole(records).and_then(|()| records.next(due)),
            _ => records.next(due),
        }
    }

    fn finish(&self, records: &Records) -> Result<(), Refusal> {
        let result = records.finish();
        match self.0 {
            Fault::LeftOverPlace => reading::previous_place(result),
            _ => result,
        }
    }

    fn check_sum(&self, counts: &[u16], nodes_due: u16, place: u32) -> Result<(), Refusal> {
        let place = match self.0 {
            Fault::SumPlace => 0,
            _ => place,
        };
        sheet::check_sum(counts, nodes_due, place)
    }

    fn parameters_fit(&self, count: u16) -> bool {
        self.0 == Fault::ParametersUnchecked || translation::parameters_fit(count)
    }

    fn formals_fit(&self, sum: u64, due: u16) -> bool {
        self.0 == Fault::FormalsUnchecked || sum == due as u64
    }

    fn check_references(&self, sheet: &Sheet) -> Result<(), Refusal> {
        let result = rules::check_references(sheet);
        match self.0 {
            Fault::ArgumentsFirst => reading::arguments_first(sheet, result),
            Fault::TypedResultParameters => reading::typed_result_parameters(sheet, result),
            Fault::PlaceOffByOne => reading::next_place(sheet, result),
            _ => result,
        }
    }

    fn check_tree(&self, sheet: &Sheet) -> Result<(), Refusal> {
        let result = rules::check_tree(self, sheet);
        match self.0 {
            Fault::ClauseOrderLate => result.and_then(|()| reading::clause_order(sheet)),
            Fault::PlaceOffByOne => reading::next_place(sheet, result),
            Fault::TypesBeforeTree => reading::types_before_tree(self, sheet, result),
            _ => result,
        }
    }

    fn count_uses(&self, sheet: &Sheet) -> Vec<u32> {
        match self.0 {
            Fault::OwnFunctionCount => reading::count_own_uses(sheet),
            _ => rules::count_uses(sheet),
        }
    }

    fn clauses_rise(&self, clauses: &[(u16, u16)]) -> bool {
        match self.0 {
            Fault::ClauseOrderLoose => clauses.is_sorted_by_key(|clause| clause.0),
            Fault::ClauseOrderLate => true,
            _ => rules::clauses_rise(clauses),
        }
    }

    fn check_patterns(&self, sheet: &Sheet) -> Result<(), Refusal> {
        let result = rules::check_patterns(self, sheet);
        match self.0 {
            Fault::PlaceOffByOne => reading::next_place(sheet, result),
            Fault::TypesBeforePatterns => self.check_types(sheet).and(result),
            _ => result,
        }
    }

    fn clause_around(&self, sheet: &Sheet, parents: &[Option<usize>], node: usize) -> Option<u16> {
        match self.0 {
            Fault::PatternInScrutinee => reading::any_clause_around(sheet, parents, node),
            _ => rules::clause_around(sheet, parents, node),
        }
    }

    fn position_fits(&self, position: u16, arity: u16) -> bool {
        match self.0 {
            Fault::PatternArityLoose => position <= arity,
            _ => rules::position_fits(position, arity),
        }
    }

    fn translate(&self, sheet: &Sheet) -> Translation {
        let labelling = match self.0 {
            Fault::LabelForEachCall => Labelling::EachCall,
            Fault::TypedCallsApart if sheet.types.is_some() => Labelling::EachCall,
            _ => Labelling::EqualCalls,
        };
        let translation = translate::translate(self, sheet, labelling);
        match self.0 {
            Fault::LabelsRestart => sharing::restart_labels(translation),
            Fault::LabelSkipped => sharing::skip_labels(translation),
            Fault::LastCallListed => sharing::list_last_calls(sheet, translation),
            Fault::IndexNotRaised => translating::lower_indices(translation),
            Fault::ParametersNotWritten => remembering::without_parameters(translation),
            Fault::ResultTypeAsParameters => {
                translating::result_types_as_parameters(sheet, translation)
            }
            _ => translation,
        }
    }

    fn tree(&self, sheet: &Sheet, node: usize, tree: Tree) -> Tree {
        sharing::wrong_tree(self.0, sheet, node, tree)
    }

    fn translate_into(&self, file: &[u8], out: &mut [u8]) -> Result<usize, Refusal> {
        let result = joined::translate_into(self, file, out);
        match self.0 {
            Fault::PastLength => translating::clear_past(result, out),
            Fault::RefusedStillWrites => translating::write_what_fits(self, file, result, out),
            Fault::TypesAfterRoom => {
                translating::types_after_room(self, file, out.len() as u64, result)
            }
            _ => result,
        }
    }

    fn translated_length(&self, file: &[u8], room: u64) -> Result<usize, Refusal> {
        let room = translating::stated(self.0, room);
        let result = joined::translated_length(self, file, room);
        match self.0 {
            Fault::LengthPlaceLost => translating::at_zero(result),
            Fault::LengthShortFirst => translating::short_first(result, room),
            Fault::TypesAfterRoom => translating::types_after_room(self, file, room, result),
            Fault::TypedLengthLonger => translating::counting_types(file, result),
            _ => result,
        }
    }

    fn translate_and_run(
        &self,
        file: &[u8],
        out: &mut [u8],
        readings: &[i32],
        allowances: Allowances,
        cells: &mut [u8],
    ) -> Answer {
        if self.0 == Fault::JoinedReadingsFirst {
            if let Some(refusal) = translating::bad_readings(self, file, readings) {
                return Answer::refused(refusal);
            }
        }
        let answer = joined::translate_and_run(self, file, out, readings, allowances, cells);
        match self.0 {
            Fault::RefusedStillWrites => translating::write_if_refused(self, file, answer, out),
            _ => answer,
        }
    }

    fn accept(
        &self,
        file: &[u8],
        readings: &[i32],
        allowances: Allowances,
        lent: usize,
    ) -> Result<Translation, Refusal> {
        let result = run::accept(self, file, readings, allowances, lent);
        match self.0 {
            Fault::AllowanceFirst => running::allowance_first(result, allowances, lent),
            _ => result,
        }
    }

    fn bad_allowance(&self, allowances: Allowances, lent: usize) -> bool {
        running::wrong_allowance(self.0, allowances, lent)
    }

    fn run_accepted(
        &self,
        translation: &Translation,
        readings: &[i32],
        allowances: Allowances,
        lent: &mut [u8],
    ) -> Answer {
        let allowances = running::raised(self.0, allowances);
        let answer = run::run_accepted(self, translation, readings, allowances, lent);
        if self.0 == Fault::CellsCleared {
            lent[CELL_BYTES * answer.cells as usize..].fill(0);
        }
        match self.0 {
            Fault::StoppedCounted => running::count_stopped(answer),
            Fault::NoActualNoField => running::exchange_faults(answer),
            _ => answer,
        }
    }

    fn stop(&self, no_step: bool, too_deep: bool) -> u16 {
        match self.0 {
            Fault::NestingFirst => run::stop(!too_deep),
            _ => run::stop(no_step),
        }
    }

    fn actual_context(&self, whole: u16, tail: u16) -> u16 {
        match self.0 {
            Fault::WholeContext => whole,
            _ => tail,
        }
    }

    fn field_context(&self, selecting: u16, own: u16) -> u16 {
        match self.0 {
            Fault::SelectingContext => selecting,
            _ => own,
        }
    }

    fn visit_tuple(
        &self,
        run: &mut Run<Self>,
        node: u16,
        context: u16,
        open: u32,
    ) -> Result<Value, u16> {
        if self.0 == Fault::FieldsBuilt {
            running::visit_fields(run, node, context, open)?;
        }
        Ok(Value::Tuple { node, context })
    }

    fn operands(
        &self,
        run: &mut Run<Self>,
        nodes: (u16, u16),
        context: u16,
        open: u32,
    ) -> Result<(i32, i32), u16> {
        match self.0 {
            Fault::RightBeforeCheck => running::both_operands(run, nodes, context, open),
            _ => run.operands(nodes, context, open),
        }
    }

    fn operate(&self, code: u16, left: i32, right: i32) -> Result<i32, u16> {
        running::wrong_result(self.0, code, left, right)
            .unwrap_or_else(|| operator::apply(code, left, right))
    }

    fn chosen_clause(&self, clauses: &[(u16, u16)], tag: u16) -> Option<u16> {
        let with_tag = |clause: &&(u16, u16)| clause.0 == tag;
        match self.0 {
            Fault::FirstClause => clauses.first().map(|clause| clause.1),
            Fault::LastClause => clauses.iter().rfind(with_tag).map(|clause| clause.1),
            _ => run::chosen_clause(clauses, tag),
        }
    }

    fn list(&self, lent: &[u8], cell: u32, out: &mut [u8]) -> Result<u32, Refusal> {
        match self.0 {
            Fault::ListOldestFirst => translating::list_oldest_first(lent, cell, out),
            Fault::ListPlace => translating::list_other_place(lent, cell, out),
            Fault::ListPartCell => translating::list_part_cell(lent, cell, out),
            Fault::ListShortCells => translating::list_short_cells(lent, cell, out),
            _ => listing::list(lent, cell, out),
        }
    }
}
