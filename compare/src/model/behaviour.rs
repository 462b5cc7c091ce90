//! The steps of the model that can be exchanged. By default each is the
//! model's own; `crate::faulty` overrides them one at a time.

use super::answer::Answer;
use super::batch::{self, Rows};
use super::cell_behaviour::CellBehaviour;
use super::cells::Value;
use super::driver_view::{self, VIEW};
use super::hirer::{self, Hire};
use super::records::{Record, Records};
use super::run::Run;
use super::sheet::Sheet;
use super::translate::Labelling;
use super::translation::{self, Translation};
use super::trees::Tree;
use super::type_behaviour::TypeBehaviour;
use super::{joined, listing, operator, rules, run, sheet, translate, Refusal};
use crate::interface::Allowances;

pub trait Behaviour: CellBehaviour + TypeBehaviour {
    // Reading a file.
    fn read_sheet(&self, file: &[u8]) -> Result<Sheet, Refusal> {
        sheet::read(self, file)
    }

    fn next_record<'a>(
        &self,
        records: &mut Records<'a>,
        due: &[u16],
    ) -> Result<Record<'a>, Refusal> {
        records.next(due)
    }

    fn finish(&self, records: &Records) -> Result<(), Refusal> {
        records.finish()
    }

    fn check_sum(&self, counts: &[u16], nodes_due: u16, place: u32) -> Result<(), Refusal> {
        sheet::check_sum(counts, nodes_due, place)
    }

    // The parameter counts of a translation.
    fn parameters_fit(&self, count: u16) -> bool {
        translation::parameters_fit(count)
    }

    fn formals_fit(&self, sum: u64, due: u16) -> bool {
        sum == due as u64
    }

    // The checks of a sheet over several records.
    fn check_references(&self, sheet: &Sheet) -> Result<(), Refusal> {
        rules::check_references(sheet)
    }

    fn check_tree(&self, sheet: &Sheet) -> Result<(), Refusal> {
        rules::check_tree(self, sheet)
    }

    fn count_uses(&self, sheet: &Sheet) -> Vec<u32> {
        rules::count_uses(sheet)
    }

    fn clauses_rise(&self, clauses: &[(u16, u16)]) -> bool {
        rules::clauses_rise(clauses)
    }

    fn check_patterns(&self, sheet: &Sheet) -> Result<(), Refusal> {
        rules::check_patterns(self, sheet)
    }

    fn clause_around(&self, sheet: &Sheet, parents: &[Option<usize>], node: usize) -> Option<u16> {
        rules::clause_around(sheet, parents, node)
    }

    fn position_fits(&self, position: u16, arity: u16) -> bool {
        rules::position_fits(position, arity)
    }

    // Translating.
    fn translate(&self, sheet: &Sheet) -> Translation {
        translate::translate(self, sheet, Labelling::EqualCalls)
    }

    /// What a node counts as where trees are compared.
    fn tree(&self, _sheet: &Sheet, _node: usize, tree: Tree) -> Tree {
        tree
    }

    fn translate_into(&self, file: &[u8], out: &mut [u8]) -> Result<usize, Refusal> {
        joined::translate_into(self, file, out)
    }

    fn translated_length(&self, file: &[u8], room: u64) -> Result<usize, Refusal> {
        joined::translated_length(self, file, room)
    }

    fn translate_and_run(
        &self,
        file: &[u8],
        out: &mut [u8],
        readings: &[i32],
        allowances: Allowances,
        cells: &mut [u8],
    ) -> Answer {
        joined::translate_and_run(self, file, out, readings, allowances, cells)
    }

    // Running.
    fn accept(
        &self,
        file: &[u8],
        readings: &[i32],
        allowances: Allowances,
        lent: usize,
    ) -> Result<Translation, Refusal> {
        run::accept(self, file, readings, allowances, lent)
    }

    fn bad_allowance(&self, allowances: Allowances, lent: usize) -> bool {
        run::bad_allowance(allowances, lent)
    }

    fn run_accepted(
        &self,
        translation: &Translation,
        readings: &[i32],
        allowances: Allowances,
        lent: &mut [u8],
    ) -> Answer {
        run::run_accepted(self, translation, readings, allowances, lent)
    }

    fn stop(&self, no_step: bool, _too_deep: bool) -> u16 {
        run::stop(no_step)
    }

    /// An actual is visited under the tail.
    fn actual_context(&self, _whole: u16, tail: u16) -> u16 {
        tail
    }

    /// A field is visited under the tuple's own context.
    fn field_context(&self, _selecting: u16, own: u16) -> u16 {
        own
    }

    /// A tuple is itself with its context; no field is visited.
    fn visit_tuple(
        &self,
        _run: &mut Run<Self>,
        node: u16,
        context: u16,
        _open: u32,
    ) -> Result<Value, u16> {
        Ok(Value::Tuple { node, context })
    }

    fn operands(
        &self,
        run: &mut Run<Self>,
        nodes: (u16, u16),
        context: u16,
        open: u32,
    ) -> Result<(i32, i32), u16> {
        run.operands(nodes, context, open)
    }

    fn operate(&self, code: u16, left: i32, right: i32) -> Result<i32, u16> {
        operator::apply(code, left, right)
    }

    fn chosen_clause(&self, clauses: &[(u16, u16)], tag: u16) -> Option<u16> {
        run::chosen_clause(clauses, tag)
    }

    // Listing a context.
    fn list(&self, lent: &[u8], cell: u32, out: &mut [u8]) -> Result<u32, Refusal> {
        listing::list(lent, cell, out)
    }
}

/// The steps of a batch, beside those of its runs.
pub trait BatchBehaviour: Behaviour {
    fn run_rows(
        &self,
        file: &[u8],
        rows: Rows,
        lent: &mut [u8],
        records: &mut [u8],
    ) -> Result<usize, Refusal> {
        batch::run_rows(self, file, rows, lent, records)
    }

    fn readings_due(&self, rows: u32, each: u16) -> u64 {
        batch::readings_due(rows, each)
    }

    fn too_many(&self, rows: u32) -> bool {
        batch::too_many(rows)
    }

    fn first_refused(&self, numbers: [(u16, bool); 3]) -> Option<u16> {
        batch::first_refused(numbers)
    }

    /// The next row after those that answered so.
    fn run_row(
        &self,
        translation: &Translation,
        rows: Rows,
        before: &[Answer],
        lent: &mut [u8],
    ) -> Answer {
        batch::run_row(self, translation, rows, before.len(), lent)
    }

    fn write_records(&self, answers: &[Answer], records: &mut [u8]) {
        batch::write_records(answers, records)
    }
}

/// The steps of a run for a hirer, beside those of the owner's.
pub trait HirerBehaviour: Behaviour {
    fn run_for_hirer(&self, file: &[u8], hire: Hire, lent: &mut [u8]) -> Answer {
        hirer::run_for_hirer(self, file, hire, lent)
    }

    fn accept_for_hirer(
        &self,
        file: &[u8],
        hire: Hire,
        lent: usize,
    ) -> Result<Translation, Refusal> {
        hirer::accept(self, file, hire, lent)
    }

    fn closed_node(&self, translation: &Translation, set: u32) -> Option<usize> {
        hirer::closed_node(self, translation, set)
    }

    fn closed_place(&self, translation: &Translation, node: usize) -> u32 {
        translation.record_of(node)
    }

    fn reading_allowed(&self, set: u32, reading: u16) -> bool {
        hirer::reading_allowed(set, reading)
    }
}

/// The steps of the driver's view.
pub trait ViewBehaviour {
    fn driver_view(&self, record: &[u8], out: &mut [u8]) -> Result<usize, Refusal>
    where
        Self: Sized,
    {
        driver_view::driver_view(self, record, out)
    }

    fn viewed_answer(&self, record: &[u8]) -> Option<Answer> {
        driver_view::viewed_answer(record)
    }

    fn view_fits(&self, room: usize) -> bool {
        driver_view::view_fits(room)
    }

    fn view(&self, answer: &Answer) -> [u8; VIEW] {
        driver_view::view(answer)
    }

    fn write_view(&self, view: [u8; VIEW], out: &mut [u8]) {
        driver_view::write_view(view, out)
    }
}

/// The model as the papers have it.
pub struct Correct;

impl Behaviour for Correct {}

impl CellBehaviour for Correct {}

impl TypeBehaviour for Correct {}

impl BatchBehaviour for Correct {}

impl HirerBehaviour for Correct {}

impl ViewBehaviour for Correct {}
