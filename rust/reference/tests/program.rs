//! The program that a sheet is read into. A check alone would not see two
//! operations exchanged, but a machine would.

use reference::generic::{Form, Read};
use reference::{parse, Kind, Operation, Program, Rights};

/// Type 2 has two slots; QT 0 is an integer, QT 1 an array of it with all
/// rights, QT 2 a record with open and right 15. Procedure 1 has the owner 2,
/// two formals and two more variables.
fn program(instructions: &[[u8; 6]]) -> Program {
    let mut sheet = b"HD\x01\x01\x03\x02".to_vec();
    sheet.extend(b"TY\x0f\x02\x00\x01\xff\xff\xff\xff\xff\xff");
    sheet.extend(b"QT\x00\x00\x00\xffQT\x01\x0e\x00\x00QT\x02\x01\x80\xff");
    sheet.extend(b"PR\x00\x00\x00\xff\x01\x00IN\x11\xff\xff\xff\x00\x00");
    sheet.extend(b"PR\x02\x02\x04\x01");
    sheet.extend((instructions.len() as u16).to_le_bytes());
    sheet.extend(b"VR\x00\x00VR\x02\x00VR\x01\xffVR\x00\xff");
    for fields in instructions {
        sheet.extend(b"IN");
        sheet.extend(fields);
    }
    parse(&sheet).expect("the layout is right")
}

#[test]
fn records() {
    let program = program(&[[17, 3, 255, 255, 0, 0]]);
    assert_eq!(program.types[0].named_rights, 15);
    assert_eq!(program.types[0].slots, [0, 1]);
    let kinds: Vec<Kind> = program.qualified.iter().map(|q| q.kind).collect();
    let array = Kind::Array { element: 0 };
    assert_eq!(kinds, [Kind::Integer, array, Kind::Record { of: 0 }]);
    let rights: Vec<usize> = program.qualified[1].rights.members().collect();
    assert_eq!(rights, [Rights::FETCH, Rights::STORE, Rights::SIZE]);
    let rights: Vec<usize> = program.qualified[2].rights.members().collect();
    assert_eq!(rights, [Rights::OPEN, 15]);
    let [main, procedure] = &program.procedures[..] else {
        panic!("two procedures");
    };
    assert_eq!((main.owner, main.result, main.formals), (None, None, 0));
    let head = (procedure.owner, procedure.result, procedure.formals);
    assert_eq!(head, (Some(0), Some(1), 2));
    let variables = procedure.variables.iter();
    let variables: Vec<(usize, Option<usize>)> = variables.map(|v| (v.inner, v.need)).collect();
    assert_eq!(
        variables,
        [(0, Some(0)), (2, Some(0)), (1, None), (0, None)]
    );
    // HD 6, TY 12, QT 18, main 16 and the rest in their order.
    assert_eq!((main.place, procedure.place), (36, 52));
    let places = [
        procedure.variables[3].place,
        procedure.instructions[0].place,
    ];
    assert_eq!(places, [72, 76]);
}

/// Procedure 1 has a GN on type 2 with the least set {15}; QT 0 is ?R, QT 1
/// an array of it.
#[test]
fn rights_names() {
    let mut sheet = b"HD\x01\x01\x02\x02".to_vec();
    sheet.extend(b"TY\x0f\x00\xff\xff\xff\xff\xff\xff\xff\xff");
    sheet.extend(b"QT\xff\x00\x00\xffQT\x01\x0e\x00\x00");
    sheet.extend(b"PR\x00\x00\x00\xff\x01\x00IN\x11\xff\xff\xff\x00\x00");
    sheet.extend(b"PR\x00\x01\x01\xff\x01\x00GN\x02\x00\x80VR\x01\x01");
    sheet.extend(b"IN\x11\xff\xff\xff\x00\x00");
    let program = parse(&sheet).expect("the layout is right");
    let procedure = &program.procedures[1];
    let bound = procedure.bound.expect("there is a GN");
    assert_eq!((bound.place, bound.of), (54, 0));
    assert!(bound.least.members().eq([15]));
    assert_eq!(procedure.variables[0].place, 59);
    assert_eq!(program.qualified[0].kind, Kind::Generic);
    assert!(program.procedures[0].bound.is_none());
    let set = Rights::from_bits(6);
    let element = Read {
        qualified: 0,
        reading: procedure.instance(set),
    };
    let read = program.read(element);
    assert_eq!((read.form, read.rights), (Form::Record { of: 0 }, set));
    let read = program.read(Read {
        reading: procedure.own(),
        ..element
    });
    let own = Form::Generic { of: Some(0) };
    assert_eq!((read.form, read.rights), (own, bound.least));
}

/// The operation of the fields, followed by a return.
fn operation(fields: [u8; 6]) -> Operation {
    let program = program(&[fields, [17, 255, 255, 255, 0, 0]]);
    program.procedures[1].instructions[0].operation
}

#[test]
fn arithmetic_and_control() {
    let (to, left, right) = (3, 2, 1);
    assert_eq!(
        operation([1, 3, 255, 255, 0x34, 0x12]),
        Operation::Set { to, value: 0x1234 }
    );
    assert_eq!(
        operation([2, 3, 2, 1, 0, 0]),
        Operation::Add { to, left, right }
    );
    assert_eq!(
        operation([3, 3, 2, 1, 0, 0]),
        Operation::Subtract { to, left, right }
    );
    assert_eq!(
        operation([4, 3, 2, 1, 0, 0]),
        Operation::Less { to, left, right }
    );
    assert_eq!(
        operation([5, 3, 255, 255, 1, 0]),
        Operation::JumpIfZero { test: 3, target: 1 }
    );
    assert_eq!(
        operation([6, 3, 2, 255, 0, 0]),
        Operation::Bind { to, from: 2 }
    );
    assert_eq!(operation([7, 3, 255, 255, 0, 0]), Operation::Take { to });
    assert_eq!(
        operation([8, 3, 255, 255, 0, 0]),
        Operation::Put { from: 3 }
    );
}

#[test]
fn arrays_and_records() {
    let (to, array, index) = (3, 2, 1);
    assert_eq!(
        operation([9, 3, 2, 255, 0, 0]),
        Operation::NewArray { to, size: 2 }
    );
    assert_eq!(
        operation([10, 3, 2, 1, 0, 0]),
        Operation::Fetch { to, array, index }
    );
    assert_eq!(
        operation([11, 2, 1, 3, 0, 0]),
        Operation::Store {
            array,
            index,
            from: 3
        }
    );
    assert_eq!(
        operation([12, 3, 2, 255, 0, 0]),
        Operation::Size { to, array }
    );
    assert_eq!(
        operation([13, 3, 255, 255, 0, 0]),
        Operation::NewRecord { to }
    );
    let (record, slot) = (2, 1);
    assert_eq!(
        operation([14, 3, 2, 255, 1, 0]),
        Operation::GetSlot { to, record, slot }
    );
    assert_eq!(
        operation([15, 2, 3, 255, 1, 0]),
        Operation::SetSlot {
            record,
            slot,
            from: 3
        }
    );
}

#[test]
fn calls_and_returns() {
    let kept = Operation::Call {
        result: Some(3),
        procedure: 1,
        first_actual: Some(2),
    };
    assert_eq!(operation([16, 3, 2, 255, 1, 0]), kept);
    let dropped = Operation::Call {
        result: None,
        procedure: 0,
        first_actual: None,
    };
    assert_eq!(operation([16, 255, 255, 255, 0, 0]), dropped);
    assert_eq!(
        operation([17, 3, 255, 255, 0, 0]),
        Operation::Return { value: Some(3) }
    );
    assert_eq!(
        operation([17, 255, 255, 255, 0, 0]),
        Operation::Return { value: None }
    );
}
