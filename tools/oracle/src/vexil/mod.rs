//! The real `check`, compiled from the unchanged Vexil sources that build.sh
//! copies below target/, and what holds the model against it.

mod compile;

#[allow(warnings)]
#[rustfmt::skip]
#[path = "../../../../target/oracle/src/compat.rs"]
pub mod compat;
#[allow(warnings)]
#[rustfmt::skip]
#[path = "../../../../target/oracle/src/ir/mod.rs"]
pub mod ir;
#[allow(warnings)]
#[rustfmt::skip]
#[path = "../../../../target/oracle/src/ast/mod.rs"]
pub mod ast;
#[allow(warnings)]
#[rustfmt::skip]
#[path = "../../../../target/oracle/src/span.rs"]
pub mod span;
#[path = "../../../exporter/caller.rs"]
pub mod caller;
#[allow(warnings)]
#[path = "../../stand_ins/canonical.rs"]
pub mod canonical;
#[path = "../../../exporter/exporter.rs"]
pub mod exporter;

use crate::changes::Comparison;
use crate::schema::Schema;
pub use compile::compile;
use ir::CompiledSchema;

pub const CHECK_IS_RUN: bool = true;

/// Runs `check` and tells where the model differs: in the changes, counted with
/// repeats, in the result or in the bump. `restated` is what a detail of `check` stands
/// for in the model.
pub fn difference(
    old: &Schema,
    new: &Schema,
    restated: &dyn Fn(&str) -> String,
    model: &Comparison,
) -> Option<String> {
    let real = real_lines(&compile(old), &compile(new), restated);
    let model = model_lines(model);
    if real == model {
        return None;
    }
    let (real, model) = (real.join("\n"), model.join("\n"));
    Some(format!("check:\n{real}\nmodel:\n{model}"))
}

/// Whether `check` panics, as it does on an alias pair.
pub fn panics(old: &Schema, new: &Schema) -> bool {
    let (old, new) = (compile(old), compile(new));
    let hook = std::panic::take_hook();
    std::panic::set_hook(Box::new(|_| {}));
    let outcome = std::panic::catch_unwind(|| compat::check(&old, &new));
    std::panic::set_hook(hook);
    outcome.is_err()
}

/// A change in a line. The position in `ChangeKind` stands in it so that the
/// counts' order is held against the Rust as well.
macro_rules! line {
    ($change:expr, $bump:ident, $detail:expr) => {{
        let c = $change;
        let members = (&c.declaration, &c.field, $detail(&c.detail));
        format!("{} {:?} {:?} {members:?}", c.kind as usize, c.kind, c.$bump)
    }};
}

/// What `check` answers, in lines that can be compared.
pub fn real_answer(old: &CompiledSchema, new: &CompiledSchema) -> Vec<String> {
    real_lines(old, new, &str::to_string)
}

fn real_lines(
    old: &CompiledSchema,
    new: &CompiledSchema,
    restated: &dyn Fn(&str) -> String,
) -> Vec<String> {
    let report = compat::check(old, new);
    let changes = report.changes.iter();
    let changes = changes.map(|c| line!(c, classification, restated));
    let last = format!("{:?} {:?}", report.result, report.suggested_bump);
    sorted(changes.collect(), last)
}

fn model_lines(model: &Comparison) -> Vec<String> {
    let changes = model.changes.iter();
    let changes = changes.map(|c| line!(c, bump, str::to_string));
    let last = format!("{:?} {:?}", model.result, model.bump);
    sorted(changes.collect(), last)
}

/// The changes sorted, for `check` fixes no order, then result and bump.
fn sorted(mut lines: Vec<String>, last: String) -> Vec<String> {
    lines.sort();
    lines.push(last);
    lines
}
