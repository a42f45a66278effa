//! Refusals 6 to 9: what the rule that does not hold looked at, in the words
//! of the text. Which rule that is the second engine says; the types are the
//! text's own reading, with ?R read where it stands.

use super::Explanation;
use crate::engine::Refusal;
use crate::settling::{Called, Settling};
use crate::source::Source;
use reference::access::examine;
use reference::fault::{Detail, Due, End, Fault, Form, Holder};
use reference::{parse, Operation, Procedure, Program};
use text::field::Field;
use text::{down, Names, Notation, Reading, Sheet, Type, ONLY_A_NAME};

pub fn explain(source: &Source, refusal: Refusal) -> Option<Explanation> {
    let program = parse(&source.sheet).ok()?;
    let sheet = Sheet::read(&source.sheet)?;
    let fault = examine(&program).err()?;
    let Fault {
        refusal: found,
        detail,
    } = fault;
    if (found.reason as u64, found.place) != (refusal.number, refusal.place) {
        return None;
    }
    let names = &source.names;
    let notation = Notation {
        sheet: &sheet,
        names,
    };
    let teller = Teller {
        program: &program,
        sheet: &sheet,
        names,
        notation,
        place: found.place,
    };
    Some(teller.explanation(detail))
}

struct Teller<'a> {
    program: &'a Program,
    sheet: &'a Sheet,
    names: &'a Names,
    notation: Notation<'a>,
    /// The refused record.
    place: usize,
}

impl Teller<'_> {
    fn explanation(&self, detail: Detail) -> Explanation {
        match detail {
            Detail::Open { holder, qualified } => self.open(holder, qualified),
            Detail::Need { need, inner, owned } => self.need(need, inner, owned),
            Detail::Form(form) => self.form(form),
            Detail::Kind { variable, due } => self.kind(variable, due),
            Detail::Right { variable, right } => self.right(variable, right),
            other => self.moved(other),
        }
    }

    /// What is left is a movement, be it that of a new record into ?R;
    /// settling has numbers of its own.
    fn moved(&self, detail: Detail) -> Explanation {
        match detail {
            Detail::Movement { from, to } => self.movement(from.end, to.end),
            _ => self.new_record(),
        }
    }

    fn open(&self, holder: Holder, qualified: usize) -> Explanation {
        let (part, what) = match holder {
            Holder::Slot(slot) => (Field::Slot(slot), "a slot"),
            Holder::Element => (Field::Element, "an element"),
            Holder::Result => (Field::Result, "a result"),
            Holder::Need => (Field::Need, "what a formal needs"),
            Holder::Inner => (Field::Inner, "a variable outside the module of its type"),
        };
        let found = self.notation.qualified(qualified);
        let lines = vec![
            format!("has {found}"),
            format!("open may not stand in {what}: only inside, in a variable of a procedure that is of the same type"),
        ];
        Explanation::new(vec![part], lines)
    }

    fn need(&self, need: usize, inner: usize, owned: bool) -> Explanation {
        let unread = Reading::Name(None);
        let [need, inner] = [need, inner].map(|number| self.sheet.read_type(number, &unread));
        let is_name = |of: &Type| *of == Type::Name(None);
        let rule = match (is_name(&need) || is_name(&inner), owned) {
            (true, _) => "?R is never amplified: a formal that needs ?R or is ?R inside has it as both",
            (_, true) => "a formal that is of the procedure's own type inside needs that type",
            _ => "a formal may be more inside than it needs only if it is of the procedure's own type: the two must be equal",
        };
        let mut lines = vec![
            format!("needs  {}", self.notation.said(&need)),
            format!("inside {}", self.notation.said(&inner)),
            String::from(rule),
        ];
        lines.extend(self.differing_level(&need, &inner));
        Explanation::new(vec![Field::Need, Field::Inner], lines)
    }

    /// Where need and inner differ, if that is in their elements.
    fn differing_level(&self, need: &Type, inner: &Type) -> Option<String> {
        let (below, needs, inside) = need.innermost_difference(inner)?;
        let (needs, inside) = (self.notation.said(needs), self.notation.said(inside));
        let line = format!(
            "they differ {}: needs {needs}, inside {inside}",
            down(below)
        );
        (below > 0).then_some(line)
    }

    fn form(&self, form: Form) -> Explanation {
        let procedure = self.working().map(|(number, _)| number).unwrap_or(0);
        let (own, result) = (self.names.procedure(procedure), self.result(procedure));
        let (part, line) = match form {
            Form::NothingReturned => (
                Field::Code,
                format!("`{own}` gives {result}: needs a variable to return, has none"),
            ),
            Form::TooMuchReturned => (
                Field::A,
                format!("`{own}` gives nothing: needs a return without a variable, has one"),
            ),
            Form::NothingToKeep { procedure } => {
                let called = self.names.procedure(procedure);
                (
                    Field::A,
                    format!(
                        "`{called}` gives nothing: needs a call that keeps no result, keeps one"
                    ),
                )
            }
        };
        Explanation::new(vec![part], vec![line])
    }

    /// The result of a procedure in notation.
    fn result(&self, procedure: usize) -> String {
        let result = self.sheet.procedures[procedure].result;
        result.map_or_else(String::new, |result| self.notation.qualified(result))
    }

    fn kind(&self, variable: usize, due: Due) -> Explanation {
        let needs = match due {
            Due::Integer => String::from("integer"),
            Due::Array => String::from("tray[..]{..}"),
            Due::Owner => {
                let owner = self.working().and_then(|(_, procedure)| procedure.owner);
                let owner = owner.map_or_else(String::new, |owner| self.names.declared(owner));
                format!("{owner}{{..}}, the type that the procedure is of")
            }
        };
        let has = self.notation.said(&self.inner(variable));
        let lines = vec![
            format!("needs {needs}"),
            format!("has   {has}  ({})", self.variable(variable)),
        ];
        Explanation::new(self.operands(variable, due), lines)
    }

    fn right(&self, variable: usize, right: usize) -> Explanation {
        let inner = self.inner(variable);
        let name = self.notation.right(&inner, right);
        let has = self.notation.said(&inner);
        let (needs, due) = match &inner {
            Type::Tray { element, .. } => {
                let element = self.notation.said(element);
                (format!("tray[{element}]{{{name}}}"), Due::Array)
            }
            inner => {
                let of = self.names.declared(inner.declared().unwrap_or(0));
                (format!("{of}{{{name}}}"), Due::Owner)
            }
        };
        let lines = vec![
            format!("needs {needs}"),
            format!("has   {has}  ({})", self.variable(variable)),
            format!("needs {name}, {}", self.has_rights(&inner)),
        ];
        Explanation::new(self.operands(variable, due), lines)
    }

    /// A new record has all rights of its type, and is no ?R.
    fn new_record(&self) -> Explanation {
        let Some(Operation::NewRecord { to }) = self.operation() else {
            return Explanation::new(Vec::new(), Vec::new());
        };
        let (needs, to) = (self.notation.said(&self.inner(to)), self.variable(to));
        let owner = self.working().and_then(|(_, procedure)| procedure.owner);
        let made = self.names.declared(owner.unwrap_or(0));
        let lines = vec![
            format!("needs {needs}  ({to})"),
            format!("has   a new record of {made}"),
            String::from(ONLY_A_NAME),
        ];
        Explanation::new(vec![Field::A], lines)
    }

    fn movement(&self, from: End, to: End) -> Explanation {
        let (source, needed) = (self.declared(from), self.declared(to));
        let needs = self.notation.said(&needed);
        let has = self.notation.said(&source);
        let width = needs.len().max(has.len());
        let destination = self.end(to);
        let lines = vec![
            format!("needs {needs:<width$}  ({destination})"),
            format!("has   {has:<width$}  ({})", self.end(from)),
            self.difference(&source, &needed, &destination),
        ];
        Explanation::new(vec![self.source_part(to)], lines)
    }

    /// What is declared where a value comes from or goes, as it is read there.
    fn declared(&self, end: End) -> Type {
        let own = self
            .sheet
            .own_name(self.working().map_or(0, |(number, _)| number));
        let called = self.settling().map(|settling| settling.reading());
        let called = called.unwrap_or_else(|| own.clone());
        match end {
            End::Variable(variable) => self.inner(variable),
            End::Element { array } => match self.inner(array) {
                Type::Tray { element, .. } => *element,
                other => other,
            },
            End::Slot { slot, .. } => {
                let owner = self.working().and_then(|(_, procedure)| procedure.owner);
                let slots = &self.sheet.types[owner.unwrap_or(0)].slots;
                self.sheet.read_type(slots[slot], &own)
            }
            End::Need { procedure, formal } => {
                let need = self.sheet.procedures[procedure].variables[formal].need;
                self.sheet.read_type(need.unwrap_or(0), &called)
            }
            End::Result { procedure } => {
                let result = self.sheet.procedures[procedure].result;
                self.sheet.read_type(result.unwrap_or(0), &called)
            }
        }
    }

    /// What the refused call settles the name of the procedure called to.
    fn settling(&self) -> Option<Settling> {
        let (caller, _) = self.working()?;
        Called::at(self.sheet, caller, self.place)?.settling(self.sheet)
    }

    /// In what the source falls short of what the destination needs.
    fn difference(&self, from: &Type, to: &Type, destination: &str) -> String {
        if let Some(unlike) = from.unlike(to) {
            return self.notation.unlike(&unlike, destination);
        }
        if let Type::Name(_) = to {
            return String::from(ONLY_A_NAME);
        }
        let missing = to.rights() & !from.rights();
        let missing = self.notation.rights(to, missing);
        format!("needs {missing}, {}", self.has_rights(from))
    }

    /// For example `has read,amend`; of ?R only the least set is known.
    fn has_rights(&self, of: &Type) -> String {
        let all = self.notation.rights(of, of.rights());
        match (of, all.as_str()) {
            (Type::Name(_), "") => String::from("and of ?R no right is certain"),
            (Type::Name(_), all) => format!("and of ?R no more than {all} is certain"),
            (_, "") => String::from("has no right"),
            (_, all) => format!("has {all}"),
        }
    }

    /// Where a value comes from or goes, in words.
    fn end(&self, end: End) -> String {
        match end {
            End::Variable(variable) => self.variable(variable),
            End::Element { array } => format!("an element of {}", self.variable(array)),
            End::Slot { record, slot } => {
                let owner = self.working().and_then(|(_, procedure)| procedure.owner);
                let slot = self.names.slot(owner.unwrap_or(0), slot);
                format!("{}.{slot}", self.variable(record))
            }
            End::Need { procedure, formal } => {
                let called = self.names.procedure(procedure);
                let formal = self.names.variable(procedure, formal);
                format!("what {called} needs as {formal}")
            }
            End::Result { procedure } => {
                format!("the result of {}", self.names.procedure(procedure))
            }
        }
    }

    fn variable(&self, variable: usize) -> String {
        let procedure = self.working().map_or(0, |(number, _)| number);
        self.names.variable(procedure, variable)
    }

    /// What a variable is inside the procedure.
    fn inner(&self, variable: usize) -> Type {
        let number = self.working().map_or(0, |(number, _)| number);
        let variable = self.sheet.procedures[number].variables.get(variable);
        let inner = variable.map_or(0, |variable| variable.inner);
        self.sheet.read_type(inner, &self.sheet.own_name(number))
    }

    /// The procedure that the refused record belongs to.
    fn working(&self) -> Option<(usize, &Procedure)> {
        let procedures = self.program.procedures.iter().enumerate();
        procedures
            .take_while(|(_, procedure)| procedure.place <= self.place)
            .last()
    }

    fn operation(&self) -> Option<Operation> {
        let (_, procedure) = self.working()?;
        let mut instructions = procedure.instructions.iter();
        let refused = instructions.find(|instruction| instruction.place == self.place)?;
        Some(refused.operation)
    }

    /// The operands that name the variable and must be of this kind.
    fn operands(&self, variable: usize, due: Due) -> Vec<Field> {
        let operands = match self.operation() {
            Some(operation) => read_operands(operation),
            None => Vec::new(),
        };
        let named = operands.into_iter();
        let named = named.filter(|&(_, number, kind)| (number, kind) == (variable, due));
        named.map(|(field, _, _)| field).collect()
    }

    /// The part of the instruction that the moved value comes from.
    fn source_part(&self, to: End) -> Field {
        match (self.operation(), to) {
            (Some(Operation::Store { .. }), _) => Field::C,
            (Some(Operation::GetSlot { .. }), _) => Field::K,
            (Some(Operation::Call { .. }), End::Need { formal, .. }) => Field::Actual(formal),
            (Some(Operation::Call { .. }), _) => Field::K,
            (Some(Operation::Return { .. }), _) => Field::A,
            _ => Field::B,
        }
    }
}

/// The operands of an instruction whose kind is tested by itself.
fn read_operands(operation: Operation) -> Vec<(Field, usize, Due)> {
    use Due::{Array, Integer, Owner};
    use Field::{A, B, C};
    match operation {
        Operation::Set { to: a, .. }
        | Operation::Take { to: a }
        | Operation::Put { from: a }
        | Operation::JumpIfZero { test: a, .. } => vec![(A, a, Integer)],
        Operation::Add { to, left, right }
        | Operation::Subtract { to, left, right }
        | Operation::Less { to, left, right } => {
            vec![(A, to, Integer), (B, left, Integer), (C, right, Integer)]
        }
        Operation::NewArray { to, size } => vec![(A, to, Array), (B, size, Integer)],
        Operation::Fetch { array, index, .. } => vec![(B, array, Array), (C, index, Integer)],
        Operation::Store { array, index, .. } => vec![(A, array, Array), (B, index, Integer)],
        Operation::Size { to, array } => vec![(A, to, Integer), (B, array, Array)],
        Operation::GetSlot { record, .. } => vec![(B, record, Owner)],
        Operation::NewRecord { to: a } | Operation::SetSlot { record: a, .. } => {
            vec![(A, a, Owner)]
        }
        Operation::Bind { .. } | Operation::Call { .. } | Operation::Return { .. } => Vec::new(),
    }
}
