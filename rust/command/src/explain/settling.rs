//! Refusals 20 and 21: what each actual of a call settles ?R to.

use super::Explanation;
use crate::engine::Refusal;
use crate::settling::Called;
use crate::source::Source;
use text::field::Field;
use text::{Notation, Sheet};

pub fn explain(source: &Source, refusal: Refusal) -> Option<Explanation> {
    let Refusal { number, place } = refusal;
    let sheet = Sheet::read(&source.sheet)?;
    let callers = 0..sheet.procedures.len();
    let call = { callers }.find_map(|caller| Called::at(&sheet, caller, place))?;
    let settling = call.settling(&sheet)?;
    let names = &source.names;
    let notation = Notation {
        sheet: &sheet,
        names,
    };
    let teller = call.teller(notation);
    let (formals, lines) = match number {
        20 => {
            let (formals, line) = teller.unsettled(&settling)?;
            (formals, vec![line])
        }
        _ => teller.short(&settling)?,
    };
    let actuals = formals.into_iter().map(Field::Actual);
    // The name of the procedure called where no actual is at fault.
    let parts: Vec<Field> = actuals.collect();
    let parts = if parts.is_empty() {
        vec![Field::K]
    } else {
        parts
    };
    Some(Explanation::new(parts, lines))
}
