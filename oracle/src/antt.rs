//! Values written as terms of antt, the language of the definitions, with the short names that `header` gives.

use crate::calls::{Call, Change, Lent, Outcome, Settings};
use crate::encode::NullStyle;

/// What a module of theorems opens with: the names it uses, and short forms of the records.
pub fn header() -> &'static str {
    "-- Made by oracle/definitions; not kept.
use Rattle.std.specs.Prelude.{◌≡◌, ℕ, Bool, true, false, List, [], ◌∷◌, ◌++◌, refl}
use Rattle.std.proofs.Math.Option.{Option, none, some}
use Rattle.definition.specs.Base.{Bytes}
use Rattle.definition.specs.Utf8.{well_formed}
use Rattle.definition.specs.Quote.{double_body, single_body, single_capable, single_quotable}
use Rattle.definition.specs.Fold.{fold, has_breakable}
use Rattle.definition.specs.Block.{use_literal_block, block_header, block_body}
use Rattle.definition.specs.Settings.{plain_settings}
use Rattle.definition.specs.Scalar.{quoted, quoted_folded, must_quote}
use Rattle.definition.specs.ReadBack.{read_double, read_single, read_literal}
use Rattle.definition.specs.Calls.{Lent, Outcome, outcome, emit_roundtrip, emit_roundtrip_with, emit_roundtrip_all_with, emit_roundtrip_dump, collect_changed_include_changes, call_local_modified}
use Rattle.definition.specs.Program.{program}
use Rattle.definition.specs.Opened.{opened}
use Rattle.definition.specs.declared.NullStyle.{NullStyle}
use Rattle.definition.specs.declared.NullStyle.TheVariants.{Null, Empty, Tilde}
use Rattle.definition.specs.declared.Settings.{Settings}
use Rattle.definition.specs.declared.Change.{Change}

abbrev set : NullStyle → Bool → Bool → ℕ → Bool → Bool → ℕ → Settings
set n q e i l o w = record { null_style = n; indent_sequences = q; explicit_end = e; indent = i; indentless = l; single_quotes = o; width = w }

abbrev ch : ℕ → ℕ → ℕ → Change
ch i s l = record { id = i; start = s; length = l }

abbrev lent : Bytes → Bytes → Bytes → List Change → Lent
lent d p o l = record { deck = d; pool = p; output = o; list = l }

abbrev came : ℕ → ℕ → ℕ → ℕ → Bool → List Change → Bytes → Outcome
came n p l c m cs o = record { number = n; place = p; length = l; count = c; modified = m; list = cs; output = o }

record Leaves : Type 0 where
  double : Bytes
  single : Bytes
  header : Bytes
  body : Bytes
  folded : Bytes
  capable : Bool
  quotable : Bool
  literal : Bool
  breakable : Bool
  quotedInFlow : Bool

abbrev leaves : Bytes → Bytes → Bytes → Bytes → Bytes → Bool → Bool → Bool → Bool → Bool → Leaves
leaves d s h b f c q l k m = record { double = d; single = s; header = h; body = b; folded = f; capable = c; quotable = q; literal = l; breakable = k; quotedInFlow = m }

-- of a text: a start column, an indent, a width
leavesOf : Bytes → ℕ → ℕ → ℕ → Leaves
leavesOf t c i w = leaves (double_body t) (single_body t) (block_header 124 t) (block_body i t) (fold (record { weight = λ b. 1; indent = i; width = w }) c t) (single_capable t) (single_quotable t false) (use_literal_block t) (has_breakable t) (must_quote plain_settings true false t 0)

"
}

pub fn bytes(bytes: &[u8]) -> String {
    list(bytes.iter().map(u8::to_string))
}

fn list(items: impl Iterator<Item = String>) -> String {
    let mut made = String::from("(");
    for item in items {
        made += &item;
        made += " ∷ ";
    }
    made + "[])"
}

fn changes(changes: &[Change]) -> String {
    list(
        changes
            .iter()
            .map(|change| format!("ch {} {} {}", change.id, change.start, change.length)),
    )
}

fn null_style(style: NullStyle) -> &'static str {
    match style {
        NullStyle::Null => "Null",
        NullStyle::Empty => "Empty",
        NullStyle::Tilde => "Tilde",
    }
}

pub fn settings(settings: &Settings) -> String {
    format!(
        "(set {} {} {} {} {} {} {})",
        null_style(settings.null_style),
        settings.indent_sequences,
        settings.explicit_end,
        settings.indent,
        settings.indentless,
        settings.single_quotes,
        settings.width
    )
}

pub fn call(call: &Call) -> String {
    match call {
        Call::EmitRoundtrip => "emit_roundtrip".to_owned(),
        Call::EmitRoundtripWith(style) => format!("(emit_roundtrip_with {})", null_style(*style)),
        Call::EmitRoundtripAllWith(style) => {
            format!("(emit_roundtrip_all_with {})", null_style(*style))
        }
        Call::EmitRoundtripDump(chosen) => format!("(emit_roundtrip_dump {})", settings(chosen)),
        Call::CollectChangedIncludeChanges => "collect_changed_include_changes".to_owned(),
        Call::LocalModified => "call_local_modified".to_owned(),
    }
}

/// A loan of which deck and pool are named.
pub fn lent(deck: &str, pool: &str, lent: &Lent) -> String {
    format!(
        "(lent {deck} {pool} {} {})",
        bytes(&lent.output),
        changes(&lent.list)
    )
}

pub fn outcome(outcome: &Outcome) -> String {
    format!(
        "(came {} {} {} {} {} {} {})",
        outcome.number,
        outcome.place,
        outcome.length,
        outcome.count,
        outcome.yes,
        changes(&outcome.list),
        bytes(&outcome.output)
    )
}
