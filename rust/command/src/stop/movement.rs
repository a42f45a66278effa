//! The values that an instruction moves, each with the declared type that it
//! is bound to, in the order in which they are tested.

use super::cause::Cause;
use crate::trace::machine::{operation, Cell};
use reference::machine::watched::Value;
use reference::Operation;
use text::field::Field;
use text::{Kind, Reading, Type};

/// A value on its way.
pub struct Moved {
    /// The parts of the instruction that it comes from.
    pub parts: Vec<Field>,
    /// Where it comes from, in words.
    pub source: String,
    /// Where there is none: what is blank, in words.
    pub blank: Option<String>,
    /// None also on the plain machine, which does not keep it.
    pub carried: Option<Type>,
    pub lessened: Option<Lessened>,
}

/// What the binding just before this one did.
pub struct Lessened {
    /// The rights that it took away.
    pub taken: u32,
    pub in_words: String,
}

/// A value that is bound to a declared type.
pub struct Movement {
    pub value: Moved,
    pub to: Type,
    /// What is declared so, in words.
    pub destination: String,
}

impl Cause<'_> {
    pub fn movements(&self) -> Vec<Movement> {
        use Field::{A, B, C};
        match self.operation {
            Operation::Bind { to, from } => vec![self.assigned(self.variable(B, from), to)],
            Operation::Fetch { to, array, index } => self.fetched(array, index, to),
            Operation::GetSlot { to, record, slot } => {
                vec![self.assigned(self.slot(record, slot), to)]
            }
            Operation::Store { array, from, .. } => self.stored(array, self.variable(C, from)),
            Operation::SetSlot { record, slot, from } => {
                let owner = self.owner();
                let slot_name = self.names().slot(owner, slot);
                vec![Movement {
                    value: self.variable(B, from),
                    to: self.unnamed(self.program.types[owner].slots[slot]),
                    destination: format!("{}.{slot_name}", self.name(record)),
                }]
            }
            Operation::Call {
                procedure,
                first_actual: Some(first),
                ..
            } => self.actuals(procedure, first),
            Operation::Return { value: Some(value) } => self.returned(self.variable(A, value)),
            operation => self.made(operation),
        }
    }

    /// Numbers that are computed or taken, and new objects.
    fn made(&self, operation: Operation) -> Vec<Movement> {
        let (to, made) = match operation {
            Operation::Set { to, .. }
            | Operation::Add { to, .. }
            | Operation::Subtract { to, .. }
            | Operation::Less { to, .. }
            | Operation::Take { to }
            | Operation::Size { to, .. } => (to, Type::Integer),
            Operation::NewArray { to, .. } => (to, self.inner(to)),
            Operation::NewRecord { to } => {
                let (of, rights) = (self.owner(), 0);
                (to, Type::Declared { of, rights })
            }
            _ => return Vec::new(),
        };
        vec![self.assigned(self.new_value(&made), to)]
    }

    /// A value of the type that has all rights of it.
    fn new_value(&self, made: &Type) -> Moved {
        let (source, rights) = match made {
            Type::Tray { .. } => ("a new tray", 0b1110),
            Type::Declared { of, .. } => {
                let last = self.program.types[*of].named_rights;
                // Rights 0 to last.
                ("a new record", u32::MAX >> (31 - last))
            }
            Type::Integer | Type::Name(_) => ("a number", 0),
        };
        Moved {
            parts: vec![Field::A],
            source: String::from(source),
            blank: None,
            carried: Some(made.with(rights)),
            lessened: None,
        }
    }

    /// A type in which ?R does not stand.
    fn unnamed(&self, qualified: usize) -> Type {
        self.sheet.read_type(qualified, &Reading::Name(None))
    }

    fn assigned(&self, value: Moved, to: usize) -> Movement {
        Movement {
            value,
            to: self.inner(to),
            destination: self.name(to),
        }
    }

    /// A fetched value is bound to the element of the tray variable's declared
    /// type, then to the variable that it goes to.
    fn fetched(&self, array: usize, index: usize, to: usize) -> Vec<Movement> {
        let element = match self.inner(array) {
            Type::Tray { element, .. } => *element,
            other => other,
        };
        let first = Movement {
            value: self.cell(array, index),
            to: element,
            destination: format!("the element of {}", self.name(array)),
        };
        let then = self.onward(&first, self.inner(to), self.name(to));
        let then = then.map(|mut then| {
            then.value.lessened = self.lessened(&first);
            // It is still the value of the cell.
            then.value.source.clone_from(&first.value.source);
            then
        });
        [first].into_iter().chain(then).collect()
    }

    fn lessened(&self, first: &Movement) -> Option<Lessened> {
        let carried = first.value.carried.as_ref()?;
        let notation = self.teller.notation();
        let left = first.to.rights();
        let carries = match notation.rights(&first.to, left) {
            none if none.is_empty() => String::from("no right"),
            rights => rights,
        };
        let (bound_to, declared) = (&first.destination, notation.said(&first.to));
        Some(Lessened {
            taken: carried.rights() & !left,
            in_words: format!("bound to {bound_to}, {declared}, it carries {carries}"),
        })
    }

    fn stored(&self, array: usize, value: Moved) -> Vec<Movement> {
        let held = self.machine.variable(array);
        // What the plain machine stores is not bound: any type will do.
        let to = match held.and_then(|held| held.carried) {
            Some(Type::Tray { element, .. }) => *element,
            _ => self.inner(array),
        };
        let destination = format!("a cell of {}", self.name(array));
        vec![Movement {
            value,
            to,
            destination,
        }]
    }

    /// Each actual is bound to need; then it is amplified or bound to inner.
    fn actuals(&self, procedure: usize, first: usize) -> Vec<Movement> {
        let callee = &self.sheet.procedures[procedure];
        let called = self.names().procedure(procedure);
        let settling = self.settling();
        let reading = settling.map_or(Reading::Name(None), |(_, settling)| settling.reading());
        let owner = callee.owner;
        let of_owner = |value: &Type| value.declared().is_some() && value.declared() == owner;
        let mut movements = Vec::new();
        for formal in 0..callee.formals {
            let name = self.names().variable(procedure, formal);
            let variable = &callee.variables[formal];
            let needed = Movement {
                value: self.variable(Field::Actual(formal), first + formal),
                to: self
                    .sheet
                    .read_type(variable.need.unwrap_or(variable.inner), &reading),
                destination: format!("what {called} needs as {name}"),
            };
            // ?R is never amplified: inner is asked as it stands.
            let inner = self.sheet.qualified[variable.inner].kind;
            let inner = matches!(inner, Kind::Declared { of } if Some(of) == owner);
            let amplified = inner && needed.value.carried.as_ref().is_some_and(of_owner);
            let to = self.sheet.read_type(variable.inner, &reading);
            let inside = self.onward(&needed, to, format!("{name} in {called}"));
            movements.push(needed);
            movements.extend(inside.filter(|_| !amplified));
        }
        movements
    }

    /// A returned value is bound to the result, then to the variable of the
    /// caller that keeps it.
    fn returned(&self, value: Moved) -> Vec<Movement> {
        let Some(result) = self.procedure().result else {
            return Vec::new();
        };
        let to = self.sheet.read_type(result, &self.machine.reading(0));
        let own = self.names().procedure(self.place.procedure);
        let result = Movement {
            value,
            to,
            destination: format!("the result of {own}"),
        };
        let call = self.machine.opened_by();
        let kept = call.and_then(|call| match operation(self.program, call) {
            Operation::Call { result, .. } => Some((call.procedure, result?)),
            _ => None,
        });
        let kept = kept.and_then(|(caller, to)| {
            let inner = self.program.procedures[caller].variables[to].inner;
            let inner = self.sheet.read_type(inner, &self.machine.reading(1));
            let name = self.names().variable(caller, to);
            let caller = self.names().procedure(caller);
            self.onward(&result, inner, format!("{name} in {caller}"))
        });
        [result].into_iter().chain(kept).collect()
    }

    /// A value that is bound once more, now with the rights of its first
    /// binding.
    fn onward(&self, first: &Movement, to: Type, destination: String) -> Option<Movement> {
        let carried = first.value.carried.as_ref()?;
        let carried = carried.with(first.to.rights());
        let value = Moved {
            parts: first.value.parts.clone(),
            source: first.destination.clone(),
            blank: None,
            carried: Some(carried),
            lessened: None,
        };
        Some(Movement {
            value,
            to,
            destination,
        })
    }

    fn variable(&self, part: Field, variable: usize) -> Moved {
        let name = self.name(variable);
        let blank = format!("`{name}`");
        self.moved(vec![part], name, blank, self.machine.variable(variable))
    }

    /// The cell of a fetch.
    fn cell(&self, array: usize, index: usize) -> Moved {
        let index = self.machine.integer(index).unwrap_or(0) as usize;
        let name = self.name(array);
        let object = self.machine.object(array).unwrap_or(0);
        let size = self.machine.size(object);
        let blank = format!("cell {index} of `{name}` (object {object}, size {size})");
        let cell = self.machine.cell(array, index);
        let source = format!("{name}[{index}]");
        self.moved(vec![Field::B, Field::C], source, blank, cell)
    }

    /// The slot of a getslot.
    fn slot(&self, record: usize, slot: usize) -> Moved {
        let name = self.name(record);
        let slot_name = self.names().slot(self.owner(), slot);
        let object = self.machine.object(record).unwrap_or(0);
        let blank = format!("slot {slot_name} of `{name}` (object {object})");
        let cell = self.machine.cell(record, slot);
        let source = format!("{name}.{slot_name}");
        self.moved(vec![Field::B, Field::K], source, blank, cell)
    }

    fn moved(&self, parts: Vec<Field>, source: String, blank: String, cell: Cell) -> Moved {
        let source = match cell.as_ref().map(|held| held.value) {
            Some(Value::Object(number)) => format!("{source}, object {number}"),
            _ => source,
        };
        Moved {
            parts,
            source,
            blank: cell.is_none().then_some(blank),
            carried: cell.and_then(|held| held.carried),
            lessened: None,
        }
    }
}
