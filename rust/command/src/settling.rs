//! What a call settles the rights name of the procedure called to, by the
//! declared types of its actuals.

use std::ops::Range;
use text::{Names, Notation, Reading, RightsName, Sheet, Type};

pub struct Settling {
    pub callee: usize,
    pub name: RightsName,
    /// Whether the need of some formal uses ?R.
    pub is_used: bool,
    /// What each actual settles ?R to, by its formal; none for one of another
    /// shape or base.
    pub found: Vec<(usize, Type)>,
}

/// A call, by the procedures, and the variables that are its actuals.
pub struct Called {
    pub caller: usize,
    pub callee: usize,
    pub actuals: Range<usize>,
}

impl Called {
    /// The call at a place of the caller; None where none is there.
    pub fn at(sheet: &Sheet, caller: usize, place: usize) -> Option<Self> {
        const CALL: u8 = 16;
        let mut instructions = sheet.procedures[caller].instructions.iter();
        let call = instructions.find(|instruction| instruction.place == place)?;
        let callee = Some(call.k).filter(|_| call.code == CALL)?;
        let first = call.b.unwrap_or(0);
        let actuals = first..first + sheet.procedures[callee].formals;
        Some(Called {
            caller,
            callee,
            actuals,
        })
    }

    /// What it settles as the rules read it: a caller's ?R is itself.
    pub fn settling(&self, sheet: &Sheet) -> Option<Settling> {
        self.settling_as(sheet, &sheet.own_name(self.caller))
    }

    /// What it settles with the caller's ?R read so.
    pub fn settling_as(&self, sheet: &Sheet, reading: &Reading) -> Option<Settling> {
        let variables = &sheet.procedures[self.caller].variables;
        let actuals = variables.get(self.actuals.clone())?.iter();
        let actuals = actuals.map(|actual| sheet.read_type(actual.inner, reading));
        Settling::of(sheet, self.callee, &actuals.collect::<Vec<_>>())
    }

    pub fn teller<'a>(&self, notation: Notation<'a>) -> Teller<'a> {
        Teller {
            notation,
            caller: self.caller,
            first: self.actuals.start,
        }
    }
}

impl Settling {
    /// The actuals as the caller, or its frame, reads them. None where the
    /// procedure called has no rights name.
    pub fn of(sheet: &Sheet, callee: usize, actuals: &[Type]) -> Option<Self> {
        let procedure = &sheet.procedures[callee];
        let name = procedure.name?;
        let own = sheet.own_name(callee);
        let formals = procedure.variables[..procedure.formals].iter();
        let needs = formals.map(|formal| sheet.read_type(formal.need.unwrap_or(0), &own));
        let needs: Vec<Type> = needs.collect();
        let pairs = needs.iter().zip(actuals).enumerate();
        let found =
            pairs.filter_map(|(formal, (need, actual))| Some((formal, actual.settles(need)?)));
        Some(Settling {
            callee,
            name,
            is_used: needs.iter().any(Type::uses_name),
            found: found.collect(),
        })
    }

    /// What ?R is settled to: the least set where nothing settles it.
    pub fn settled(&self) -> Type {
        let RightsName { of, least } = self.name;
        let least = Type::Declared { of, rights: least };
        self.found.first().map_or(least, |(_, found)| found.clone())
    }

    pub fn reading(&self) -> Reading {
        Reading::As(self.settled())
    }

    /// The first actual that settles ?R, and the first that does so
    /// differently.
    pub fn differing(&self) -> Option<[&(usize, Type); 2]> {
        let first = self.found.first()?;
        let other = self.found.iter().find(|(_, found)| *found != first.1)?;
        Some([first, other])
    }

    /// The rights of the least set that the settled one lacks.
    pub fn lacking(&self) -> u32 {
        self.name.least & !self.settled().rights()
    }
}

/// Tells of a settling in the words of a text.
#[derive(Clone, Copy)]
pub struct Teller<'a> {
    pub notation: Notation<'a>,
    /// The procedure that calls, and the first actual.
    caller: usize,
    first: usize,
}

impl Teller<'_> {
    fn names(&self) -> &Names {
        self.notation.names
    }

    /// 20: no formal uses ?R, or two actuals settle it differently; with the
    /// formals whose actuals these are.
    pub fn unsettled(&self, settling: &Settling) -> Option<(Vec<usize>, String)> {
        let called = self.names().procedure(settling.callee);
        if !settling.is_used {
            let line = format!("no formal of {called} uses ?R, so that no call can settle it");
            return Some((Vec::new(), line));
        }
        let [(one, to_one), (two, to_two)] = settling.differing()?;
        let line = format!(
            "{} settles ?R to {}, {} to {}",
            self.actual(*one),
            self.settled(to_one),
            self.actual(*two),
            self.settled(to_two)
        );
        Some((vec![*one, *two], line))
    }

    /// 21: the settled set lacks a least right; with the formals whose actuals
    /// settle it.
    pub fn short(&self, settling: &Settling) -> Option<(Vec<usize>, Vec<String>)> {
        let lacking = settling.lacking();
        if lacking == 0 {
            return None;
        }
        let settled = settling.settled();
        let RightsName { of, least } = settling.name;
        let least = self.notation.said(&Type::Declared { of, rights: least });
        let (called, said) = (
            self.names().procedure(settling.callee),
            self.settled(&settled),
        );
        let known = self.known(&settled);
        let lines = vec![
            format!("settled to {said}{known}, but {called} needs at least {least}"),
            format!("lacks {}", self.notation.rights(&settled, lacking)),
        ];
        let formals = settling.found.iter().map(|(formal, _)| *formal).collect();
        Some((formals, lines))
    }

    /// The actual for a formal.
    fn actual(&self, formal: usize) -> String {
        self.names().variable(self.caller, self.first + formal)
    }

    fn settled(&self, settled: &Type) -> String {
        match settled {
            Type::Name(_) => format!("the ?R of {}", self.names().procedure(self.caller)),
            settled => self.notation.said(settled),
        }
    }

    /// What is known of a caller's ?R.
    fn known(&self, settled: &Type) -> String {
        let Type::Name(Some(RightsName { of, least })) = *settled else {
            return String::new();
        };
        let least = self.notation.said(&Type::Declared { of, rights: least });
        format!(", of which {least} is all that is certain")
    }
}

#[cfg(test)]
mod tests {
    use super::Called;
    use text::{assemble, Assembled, Notation, Sheet};

    const TEXT: &str = "
type call{read,amend}
type horse{}
procedure main
    variable calls: tray[call{read}]{fetch}
    variable drafts: tray[call{read,amend}]{store}
    variable none: tray[call{}]{}
    variable deep: tray[tray[call{read}]{}]{}
    variable horses: tray[horse{}]{}
    return
procedure merge for ?R >= call{read}
    formal one, two: tray[?R]{}
    return
procedure pass for ?R >= call{read}
    formal own: tray[?R]{}
    variable other: tray[call{read}]{}
    return
procedure amend for ?R >= call{read,amend}
    formal all: tray[?R]{}
    return
procedure idle for ?R >= call{} gives ?R
    variable made: ?R
    return made
";

    fn sheet() -> (Assembled, Sheet) {
        let assembled = assemble(TEXT).unwrap_or_else(|errors| panic!("{}", errors[0]));
        let sheet = Sheet::read(&assembled.sheet).expect("a well-formed sheet");
        (assembled, sheet)
    }

    /// What 20 and 21 say of a call of a procedure by another.
    fn said(caller: usize, callee: usize, first: usize) -> [Option<String>; 2] {
        let (assembled, sheet) = sheet();
        let call = Called {
            caller,
            callee,
            actuals: first..first + sheet.procedures[callee].formals,
        };
        let settling = call.settling(&sheet).expect("a rights name");
        let teller = call.teller(Notation {
            sheet: &sheet,
            names: &assembled.names,
        });
        let unsettled = teller.unsettled(&settling).map(|(_, line)| line);
        let short = teller.short(&settling).map(|(_, lines)| lines.join("; "));
        [unsettled, short]
    }

    #[test]
    fn actuals_that_settle_differently_are_named() {
        let [unsettled, _] = said(0, 1, 0);
        let due = "calls settles ?R to call{read}, drafts to call{read,amend}";
        assert_eq!(unsettled.as_deref(), Some(due));
        let [unsettled, short] = said(2, 1, 0);
        let due = "own settles ?R to the ?R of pass, other to call{read}";
        assert_eq!((unsettled.as_deref(), short), (Some(due), None));
    }

    #[test]
    fn a_name_that_no_formal_uses_cannot_be_settled() {
        let [unsettled, _] = said(0, 4, 0);
        let due = "no formal of idle uses ?R, so that no call can settle it";
        assert_eq!(unsettled.as_deref(), Some(due));
    }

    #[test]
    fn both_sets_are_told_where_one_is_short() {
        let [unsettled, short] = said(0, 3, 0);
        let due = "settled to call{read}, but amend needs at least call{read,amend}; lacks amend";
        assert_eq!((unsettled, short.as_deref()), (None, Some(due)));
        let [unsettled, short] = said(2, 3, 0);
        let due = "settled to the ?R of pass, of which call{read} is all that is certain, but amend needs at least call{read,amend}; lacks amend";
        assert_eq!((unsettled, short.as_deref()), (None, Some(due)));
    }

    /// Another shape or base settles nothing: neither 20 nor 21.
    #[test]
    fn strangers_settle_nothing() {
        assert_eq!(said(0, 1, 3), [None, None]);
        assert_eq!(said(0, 3, 1), [None, None]);
        let [unsettled, short] = said(0, 1, 2);
        let due = "settled to call{}, but merge needs at least call{read}; lacks read";
        assert_eq!((unsettled, short.as_deref()), (None, Some(due)));
    }
}
