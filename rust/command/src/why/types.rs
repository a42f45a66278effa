//! Types of the second engine as those of a text.

use crate::trace::machine::bits;
use reference::generic::{Form, Read, Reading};
use reference::machine::watched::{Held, State, Value};
use text::{RightsName, Sheet, Type};

/// A qualified type as it is read.
pub fn read(sheet: &Sheet, read: Read) -> Type {
    sheet.read_type(read.qualified, &reading(read.reading))
}

fn reading(reading: Reading) -> text::Reading {
    match reading {
        Reading::Unread => text::Reading::Name(None),
        Reading::Own { of, least } => {
            let least = bits(&least);
            text::Reading::Name(Some(RightsName { of, least }))
        }
        Reading::Instance { of, rights } => {
            let rights = bits(&rights);
            text::Reading::As(Type::Declared { of, rights })
        }
    }
}

/// The type of what is held, with the rights that it carries.
pub fn carried(sheet: &Sheet, state: &State, held: Held) -> Type {
    let rights = bits(&held.rights);
    let object = match held.value {
        Value::Object(number) => state.objects[number].form(),
        Value::Integer(_) => Form::Integer,
    };
    match object {
        Form::Array { element } => Type::Tray {
            element: Box::new(read(sheet, element)),
            rights,
        },
        Form::Record { of } => Type::Declared { of, rights },
        Form::Integer | Form::Generic { .. } => Type::Integer,
    }
}
