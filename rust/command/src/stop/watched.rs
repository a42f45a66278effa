//! 18 and 19, which only the watched machine knows.

use super::cause::{Cause, Reason};
use super::movement::{Lessened, Movement};
use super::reads::{reads, Due, Read};
use crate::settling::{Called, Settling};
use reference::{Operation, Rights};
use text::field::Field;
use text::Type;

impl Cause<'_> {
    /// 18: a return, or a call that keeps a result, against the result.
    pub fn form(&self) -> Option<Reason> {
        let names = self.names();
        let own = names.procedure(self.place.procedure);
        let (part, line) = match (self.operation, self.procedure().result) {
            (Operation::Return { value: None }, Some(result)) => {
                let result = self.teller.notation().qualified(result);
                let line = format!("`{own}` gives {result}, and nothing is returned");
                (Field::Code, line)
            }
            (Operation::Return { value: Some(value) }, None) => {
                let line = format!(
                    "`{own}` gives nothing, and `{}` is returned",
                    self.name(value)
                );
                (Field::A, line)
            }
            (
                Operation::Call {
                    result, procedure, ..
                },
                _,
            ) => {
                let kept =
                    result.filter(|_| self.program.procedures[procedure].result.is_none())?;
                let (called, kept) = (names.procedure(procedure), self.name(kept));
                let line = format!("`{called}` gives nothing, and `{kept}` would keep a result");
                (Field::A, line)
            }
            _ => return None,
        };
        Some(Reason {
            parts: vec![part],
            lines: vec![line],
        })
    }

    /// 18: a variable that is read holds a value of another kind.
    pub fn wrong_kind_read(&self) -> Option<Reason> {
        let mut read = reads(self.operation).into_iter();
        let (read, carried) = read.find_map(|read| {
            let carried = self.carried(read.variable)?;
            (!self.is_due(read.due, &carried)).then_some((read, carried))
        })?;
        let Read {
            part,
            variable,
            due,
        } = read;
        let needs = match due {
            Due::Integer => String::from("integer"),
            Due::Array => String::from("tray[..]{..}"),
            Due::Owned => {
                let owner = self.names().declared(self.owner());
                format!("{owner}{{..}}, the type that the procedure is of")
            }
        };
        let found = self.teller.notation().said(&carried);
        let lines = vec![
            format!("needs {needs}"),
            format!("found {found}  ({})", self.held(variable)),
        ];
        let parts = vec![part];
        Some(Reason { parts, lines })
    }

    fn is_due(&self, due: Due, found: &Type) -> bool {
        match (due, found) {
            (Due::Integer, Type::Integer) | (Due::Array, Type::Tray { .. }) => true,
            (Due::Owned, Type::Declared { of, .. }) => self.procedure().owner == Some(*of),
            _ => false,
        }
    }

    /// What the call that is due settles, a caller's ?R read as its frame's
    /// set; None where the procedure called has no rights name.
    pub fn settling(&self) -> Option<(Called, Settling)> {
        let procedure = &self.sheet.procedures[self.place.procedure];
        let record = procedure.instructions[self.place.instruction].place;
        let call = Called::at(self.sheet, self.place.procedure, record)?;
        let settling = call.settling_as(self.sheet, &self.machine.reading(0))?;
        Some((call, settling))
    }

    /// 18: what check refuses with 20.
    pub fn unsettled(&self) -> Option<Reason> {
        let (call, settling) = self.settling()?;
        let notation = self.teller.notation();
        let (formals, line) = call.teller(notation).unsettled(&settling)?;
        let parts: Vec<Field> = formals.into_iter().map(Field::Actual).collect();
        let parts = if parts.is_empty() {
            vec![Field::K]
        } else {
            parts
        };
        let lines = vec![line];
        Some(Reason { parts, lines })
    }

    /// 19: what check refuses with 21.
    pub fn short(&self) -> Option<Reason> {
        let (call, settling) = self.settling()?;
        let notation = self.teller.notation();
        let (formals, lines) = call.teller(notation).short(&settling)?;
        let parts = formals.into_iter().map(Field::Actual).collect();
        Some(Reason { parts, lines })
    }

    /// 18: the variable of a new tray is not declared a tray.
    pub fn no_tray(&self) -> Option<Reason> {
        let Operation::NewArray { to, .. } = self.operation else {
            return None;
        };
        let declared = self.inner(to);
        if matches!(declared, Type::Tray { .. }) {
            return None;
        }
        let declared = self.teller.notation().said(&declared);
        Some(Reason {
            parts: vec![Field::A],
            lines: vec![
                format!("needs {declared}  ({})", self.name(to)),
                String::from("found a new tray"),
            ],
        })
    }

    /// 18: a value is bound to a declared type of another kind.
    pub fn wrong_kind_moved(&self) -> Option<Reason> {
        let bound = self.movements().into_iter().filter_map(with_carried);
        let differs =
            |(movement, carried): &(Movement, Type)| carried.unlike(&movement.to).is_some();
        let (movement, carried) = { bound }.find(differs)?;
        let mut lines = self.compared(["needs", "found"], &movement, &carried);
        let unlike = carried.unlike(&movement.to);
        // Other bases at the top are seen in the two lines.
        if let Some(unlike) = unlike.filter(|unlike| unlike.below > 0) {
            let notation = self.teller.notation();
            lines.push(notation.unlike(&unlike, &movement.destination));
        }
        let parts = movement.value.parts;
        Some(Reason { parts, lines })
    }

    /// 19: the tray or the record that is used does not carry the right.
    pub fn missing_right_used(&self) -> Option<Reason> {
        let (part, variable, right) = match self.operation {
            Operation::Fetch { array, .. } => (Field::B, array, Rights::FETCH),
            Operation::Store { array, .. } => (Field::A, array, Rights::STORE),
            Operation::Size { array, .. } => (Field::B, array, Rights::SIZE),
            Operation::GetSlot { record, .. } => (Field::B, record, Rights::OPEN),
            Operation::SetSlot { record, .. } => (Field::A, record, Rights::OPEN),
            _ => return None,
        };
        let carried = self.carried(variable)?;
        let rights = 1 << right;
        if carried.rights() & rights != 0 {
            return None;
        }
        let notation = self.teller.notation();
        let needed = notation.said(&carried.with(rights));
        let found = notation.said(&carried);
        let lines = vec![
            format!("needs   {needed}"),
            format!("carries {found}  ({})", self.held(variable)),
            self.lacks(rights, &carried),
        ];
        let parts = vec![part];
        Some(Reason { parts, lines })
    }

    /// 19: a value is bound to a declared type that has more rights.
    pub fn missing_right_moved(&self) -> Option<Reason> {
        let bound = self.movements().into_iter().filter_map(with_carried);
        let lacks = |(movement, carried): &(Movement, Type)| !carried.covers(&movement.to);
        let (movement, carried) = { bound }.find(lacks)?;
        let mut lines = self.compared(["needs  ", "carries"], &movement, &carried);
        lines.push(self.lacks(movement.to.rights(), &carried));
        lines.extend(self.taken_before(&movement, &carried));
        let parts = movement.value.parts;
        Some(Reason { parts, lines })
    }

    /// Of a value that is bound twice: that the first binding took away what the
    /// second asks, if it did.
    fn taken_before(&self, movement: &Movement, carried: &Type) -> Option<String> {
        let Lessened { taken, in_words } = movement.value.lessened.as_ref()?;
        let asked = taken & movement.to.rights() & !carried.rights();
        let asked_words = self.teller.notation().rights(carried, asked);
        let line = format!("{in_words}; {} asks {asked_words}", movement.destination);
        (asked != 0).then_some(line)
    }

    /// The declared type and what the value carries, one below the other.
    fn compared(&self, heads: [&str; 2], movement: &Movement, carried: &Type) -> Vec<String> {
        let notation = self.teller.notation();
        let (declared, found) = (notation.said(&movement.to), notation.said(carried));
        let width = declared.chars().count().max(found.chars().count());
        vec![
            format!(
                "{} {declared:<width$}  ({})",
                heads[0], movement.destination
            ),
            format!("{} {found:<width$}  ({})", heads[1], movement.value.source),
        ]
    }

    /// The rights needed that are not carried.
    fn lacks(&self, needed: u32, carried: &Type) -> String {
        let missing = needed & !carried.rights();
        let missing = self.teller.notation().rights(carried, missing);
        format!("lacks   {missing}")
    }

    fn carried(&self, variable: usize) -> Option<Type> {
        self.machine.variable(variable)?.carried
    }

    /// A variable and the object that it holds.
    fn held(&self, variable: usize) -> String {
        let name = self.name(variable);
        match self.machine.object(variable) {
            Some(number) => format!("{name}, object {number}"),
            None => name,
        }
    }
}

fn with_carried(movement: Movement) -> Option<(Movement, Type)> {
    let carried = movement.value.carried.clone()?;
    Some((movement, carried))
}
