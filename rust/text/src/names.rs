//! The names that a text gives, for those who speak of its sheet.

/// By number, as in the sheet; type 2 is the first of the types.
#[derive(Clone, Debug, Default)]
pub struct Names {
    pub types: Vec<TypeNames>,
    pub procedures: Vec<ProcedureNames>,
}

#[derive(Clone, Debug, Default)]
pub struct TypeNames {
    pub name: String,
    /// Right 1 is the first.
    pub rights: Vec<String>,
    pub slots: Vec<String>,
}

#[derive(Clone, Debug, Default)]
pub struct ProcedureNames {
    pub name: String,
    pub variables: Vec<String>,
}

impl Names {
    pub fn variable(&self, procedure: usize, variable: usize) -> String {
        let named = self.procedures.get(procedure);
        let name = named.and_then(|names| names.variables.get(variable));
        name.map_or_else(|| format!("v{variable}"), String::clone)
    }

    pub fn procedure(&self, procedure: usize) -> String {
        let names = self.procedures.get(procedure);
        names.map_or_else(|| generated_procedure(procedure), |n| n.name.clone())
    }

    /// The name of a declared type, 0 being the first.
    pub fn declared(&self, number: usize) -> String {
        let names = self.types.get(number);
        names.map_or_else(|| format!("t{}", number + 2), |names| names.name.clone())
    }

    pub fn slot(&self, declared: usize, slot: usize) -> String {
        let names = self.types.get(declared);
        let name = names.and_then(|names| names.slots.get(slot));
        name.map_or_else(|| format!("s{slot}"), String::clone)
    }

    /// The name of a right of a declared type; right 0 is open.
    pub fn right(&self, declared: usize, right: usize) -> String {
        if right == 0 {
            return String::from("open");
        }
        let names = self.types.get(declared);
        let name = names.and_then(|names| names.rights.get(right - 1));
        name.map_or_else(|| format!("r{right}"), String::clone)
    }
}

/// Procedure 0 is main.
pub fn generated_procedure(number: usize) -> String {
    match number {
        0 => String::from("main"),
        number => format!("p{number}"),
    }
}

/// The rights of a tray, 1 being the first.
pub const TRAY_RIGHTS: [&str; 3] = ["fetch", "store", "size"];
