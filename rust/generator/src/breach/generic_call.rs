//! Flaws of calls of procedures with a rights name: what is not settled (20),
//! settled short (21) or settled by another actual (8), and what does not fit
//! once it is read with the settled set (8, 9).

use crate::breach::kit::Kit;
use crate::breach::Breach;
use crate::operations::{call, give_back, leave};
use crate::random::Random;
use crate::records::{InstructionRecord, NONE};
use crate::sheet::{At, Procedure, Sheet};

#[derive(Clone, Copy, Debug, PartialEq, Eq)]
pub enum CallFlaw {
    /// 20: no formal uses the name.
    Unused,
    /// 20: two actuals settle two sets.
    Differing,
    /// 20: a caller's ?R beside an equal set.
    OwnBesideSet,
    /// 21: the set lacks a least right.
    Short,
    /// 21: the caller's least set lacks one.
    OwnShort,
    /// 8: another shape or base settles nothing.
    Lost,
    /// 8: nor does a caller's ?R on another base.
    OwnLost,
    /// 9: the array lacks a right.
    ActualLacks,
    /// 9 and 8: the result, read with the settled set.
    KeptLacks,
    KeptOther,
    /// 9: the result, read as the caller's ?R.
    OwnKeptLacks,
}

impl CallFlaw {
    pub const ALL: [CallFlaw; 11] = [
        CallFlaw::Unused,
        CallFlaw::Differing,
        CallFlaw::OwnBesideSet,
        CallFlaw::Short,
        CallFlaw::OwnShort,
        CallFlaw::Lost,
        CallFlaw::OwnLost,
        CallFlaw::ActualLacks,
        CallFlaw::KeptLacks,
        CallFlaw::KeptOther,
        CallFlaw::OwnKeptLacks,
    ];

    fn number(self) -> u8 {
        match self {
            CallFlaw::Unused | CallFlaw::Differing | CallFlaw::OwnBesideSet => 20,
            CallFlaw::Short | CallFlaw::OwnShort => 21,
            CallFlaw::Lost | CallFlaw::OwnLost | CallFlaw::KeptOther => 8,
            CallFlaw::ActualLacks | CallFlaw::KeptLacks | CallFlaw::OwnKeptLacks => 9,
        }
    }

    pub(super) fn build(self, mut kit: Kit, random: &mut Random) -> Breach {
        let callee = self.callee(&kit, random);
        let callee = kit.insert(random, callee);
        let (caller, mut instruction) = self.caller(&kit, random);
        instruction.k = callee as u16;
        let (body, position) = kit.body_around(random, instruction, NONE);
        let caller = kit.insert(random, caller.body(&body));
        let callee = if caller <= callee { callee + 1 } else { callee };
        kit.sheet.procedures[caller].instructions[position].k = callee as u16;
        let edit = self.edit(&kit, random);
        let at = At::Instruction(caller, position);
        kit.breach(self.number(), at, |sheet| edit(sheet, caller, callee))
    }

    /// The procedure called; its first formal is an integer, like the first
    /// variable of the caller.
    fn callee(self, kit: &Kit, random: &mut Random) -> Procedure {
        let [generic, array, _] = kit.generic;
        let least = match self {
            CallFlaw::Short | CallFlaw::OwnShort => kit.low | kit.high,
            _ => kit.low,
        };
        let result = match self {
            CallFlaw::KeptLacks | CallFlaw::KeptOther | CallFlaw::OwnKeptLacks => generic,
            _ => NONE,
        };
        let callee = Procedure::new(kit.any_owner(random), result)
            .bound(kit.subject, least)
            .formal(kit.integer, kit.integer);
        let callee = match self {
            CallFlaw::Differing | CallFlaw::OwnBesideSet => {
                callee.formal(generic, generic).formal(array, array)
            }
            CallFlaw::Lost | CallFlaw::ActualLacks => callee.formal(array, array),
            _ => callee.formal(generic, generic),
        };
        callee.body(&[match result {
            NONE => leave(),
            _ => give_back(1),
        }])
    }

    /// The caller, with the actuals from variable 0 on, and its call.
    fn caller(self, kit: &Kit, random: &mut Random) -> (Procedure, InstructionRecord) {
        let own = &kit.own;
        let [generic, array, _] = kit.generic;
        let all = kit.low | kit.high;
        let caller = Procedure::new(kit.any_owner(random), NONE).formal(kit.integer, kit.integer);
        let bounded = |least| caller.clone().bound(kit.subject, least);
        let caller = match self {
            CallFlaw::Differing => caller.variables(&[own[3], own[9]]),
            CallFlaw::OwnBesideSet => bounded(all).variables(&[generic, array]),
            CallFlaw::OwnShort => bounded(all).variable(generic),
            CallFlaw::OwnLost => caller.bound(kit.stranger, kit.low).variable(own[3]),
            CallFlaw::Lost | CallFlaw::ActualLacks => caller.variable(own[8]),
            CallFlaw::KeptLacks | CallFlaw::KeptOther => caller.variables(&[own[2], own[2]]),
            CallFlaw::OwnKeptLacks => bounded(kit.low).variables(&[generic, generic]),
            CallFlaw::Unused | CallFlaw::Short => caller.variable(own[3]),
        };
        let keeps = matches!(self.number(), 8 | 9) && caller.variables.len() == 3;
        (caller, call(if keeps { 2 } else { NONE }, 0, 0))
    }

    /// The one record that is changed, of the caller or of the callee.
    fn edit(self, kit: &Kit, random: &mut Random) -> impl FnOnce(&mut Sheet, usize, usize) {
        let own = kit.own.clone();
        let lost = [own[2], own[14], own[10], own[11]];
        let lacking = own[18 + random.below(7)];
        let (low, generic) = (kit.low, kit.generic[0]);
        let (variable, bad) = match self {
            CallFlaw::Unused => (1, own[3]),
            CallFlaw::Differing if random.one_in(2) => (1, own[2]),
            CallFlaw::Differing => (2, own[8]),
            CallFlaw::OwnBesideSet => (2, own[9]),
            CallFlaw::Lost => (1, lost[random.below(4)]),
            CallFlaw::OwnLost => (1, generic),
            CallFlaw::ActualLacks => (1, lacking),
            CallFlaw::KeptLacks | CallFlaw::OwnKeptLacks => (2, own[3]),
            CallFlaw::KeptOther => (2, own[6]),
            CallFlaw::Short | CallFlaw::OwnShort => (1, own[2]),
        };
        move |sheet, caller, callee| match self {
            CallFlaw::Unused => {
                let formal = &mut sheet.procedures[callee].variables[variable];
                (formal.inner, formal.need) = (bad, bad);
            }
            CallFlaw::OwnShort => {
                if let Some(bound) = &mut sheet.procedures[caller].bound {
                    bound.least = low;
                }
            }
            _ => sheet.procedures[caller].variables[variable].inner = bad,
        }
    }
}
