//! Flaws of TY, QT, PR and VR records: 6 and 7.

use crate::breach::kit::Kit;
use crate::breach::{Breach, Difference, Owner};
use crate::operations::{give_back, leave};
use crate::random::Random;
use crate::records::{QualifiedRecord, ARRAY_ALL, NONE};
use crate::sheet::{At, Procedure};

/// The subject's or the stranger's type with open.
fn open_type(kit: &Kit, random: &mut Random) -> u8 {
    kit.pick(random, |kit, number| kit.typing.has_open(number))
}

/// The subject's type with open.
fn open_subject(kit: &Kit, random: &mut Random) -> u8 {
    kit.pick(random, |kit, number| {
        kit.typing.has_open(number) && kit.typing.get(number).base == kit.subject
    })
}

/// The subject's type without open.
fn closed_subject(kit: &Kit, random: &mut Random) -> u8 {
    kit.pick(random, |kit, number| {
        !kit.typing.has_open(number) && kit.typing.get(number).base == kit.subject
    })
}

pub fn open_slot(kit: Kit, random: &mut Random) -> Breach {
    let open = open_type(&kit, random);
    let subject = usize::from(kit.subject) - 2;
    // No instruction uses the kit's slots, so that nothing else depends on it.
    let slot = random.below(kit.slots().len());
    kit.breach(6, At::Type(subject), |sheet| {
        sheet.types[subject].slots[slot] = open;
    })
}

pub fn open_element(mut kit: Kit, random: &mut Random) -> Breach {
    let open = open_type(&kit, random);
    let closed = closed_subject(&kit, random);
    let array = QualifiedRecord::array(closed, ARRAY_ALL);
    let number = kit.sheet.qualified.len();
    kit.sheet.qualified.push(array);
    kit.sheet.seal();
    kit.breach(6, At::Qualified(number), |sheet| {
        sheet.qualified[number].element = open;
    })
}

pub fn open_result(mut kit: Kit, random: &mut Random, owner: Owner) -> Breach {
    let open = open_subject(&kit, random);
    let closed = closed_subject(&kit, random);
    // In the owner's procedures the value has open, so that its return fits
    // the open result; elsewhere no variable could have it.
    let value = match owner {
        Owner::Same => kit.own[5],
        _ => kit.own[3],
    };
    let procedure = Procedure::new(kit.owner(owner), closed)
        .variable(value)
        .body(&[give_back(0)]);
    let number = kit.insert(random, procedure);
    kit.breach(6, At::Procedure(number), |sheet| {
        sheet.procedures[number].head.result = open;
    })
}

/// A procedure with one formal among others that are sound.
fn with_formal(
    random: &mut Random,
    kit: &Kit,
    owner: u8,
    inner: u8,
    need: u8,
) -> (Procedure, usize) {
    let position = random.below(4);
    let mut procedure = Procedure::new(owner, NONE);
    for _ in 0..position {
        procedure = procedure.formal(kit.integer, kit.integer);
    }
    procedure = procedure.formal(inner, need);
    (procedure.body(&[leave()]), position)
}

pub fn open_need(mut kit: Kit, random: &mut Random, owner: Owner) -> Breach {
    let open = open_subject(&kit, random);
    let inner = closed_subject(&kit, random);
    let (procedure, position) = with_formal(random, &kit, kit.owner(owner), inner, inner);
    let number = kit.insert(random, procedure);
    kit.breach(6, At::Variable(number, position), |sheet| {
        let variable = &mut sheet.procedures[number].variables[position];
        variable.need = open;
        // Where the formal is not amplified, need and inner must stay equal.
        if owner != Owner::Same {
            variable.inner = open;
        }
    })
}

pub fn open_inner(mut kit: Kit, random: &mut Random, owner: Owner, formal: bool) -> Breach {
    let open = open_subject(&kit, random);
    let inner = closed_subject(&kit, random);
    let owner = kit.owner(owner);
    let (procedure, position) = if formal {
        with_formal(random, &kit, owner, inner, inner)
    } else {
        let plain = Procedure::new(owner, NONE).variables(&[kit.integer, inner]);
        (plain.body(&[leave()]), 1)
    };
    let number = kit.insert(random, procedure);
    kit.breach(6, At::Variable(number, position), |sheet| {
        sheet.procedures[number].variables[position].inner = open;
    })
}

pub fn amplified_need(mut kit: Kit, random: &mut Random) -> Breach {
    let subject = kit.subject;
    let inner = kit.pick(random, |kit, number| kit.typing.get(number).base == subject);
    let need = closed_subject(&kit, random);
    let other = kit.pick(random, |kit, number| {
        !kit.typing.has_open(number) && kit.typing.get(number).base != subject
    });
    let (procedure, position) = with_formal(random, &kit, subject, inner, need);
    let number = kit.insert(random, procedure);
    kit.breach(7, At::Variable(number, position), |sheet| {
        sheet.procedures[number].variables[position].need = other;
    })
}

pub fn plain_need(mut kit: Kit, random: &mut Random, difference: Difference) -> Breach {
    let owner = if random.one_in(2) { 0 } else { kit.stranger };
    let typing = kit.typing.clone();
    let differs = |left: u8, right: u8| {
        let (l, r) = (typing.get(left), typing.get(right));
        let arrays = l.base == 1 && r.base == 1;
        let same_element = !arrays || typing.equal(l.element, r.element);
        match difference {
            Difference::Rights => l.base == r.base && l.rights != r.rights && same_element,
            Difference::Base => l.base != r.base,
            Difference::Element => arrays && l.rights == r.rights && !same_element,
        }
    };
    // Not the owner's type, which would be amplified, and nothing open.
    let plain = |kit: &Kit, number: u8| {
        !kit.typing.has_open(number) && kit.typing.get(number).base != kit.stranger
    };
    let inner = kit.pick(random, |kit, number| {
        plain(kit, number) && kit.own.iter().any(|&n| plain(kit, n) && differs(number, n))
    });
    let need = kit.pick(random, |kit, n| plain(kit, n) && differs(inner, n));
    let (procedure, position) = with_formal(random, &kit, owner, inner, inner);
    let number = kit.insert(random, procedure);
    kit.breach(7, At::Variable(number, position), |sheet| {
        sheet.procedures[number].variables[position].need = need;
    })
}
