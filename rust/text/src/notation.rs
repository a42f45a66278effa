//! Qualified types printed as the papers write them.

use crate::lexer::RIGHTS_NAME;
use crate::names::{Names, TRAY_RIGHTS};
use crate::sheet::Sheet;
use crate::types::{Reading, Type, Unlike, Why};

/// Why nothing else moves into ?R.
pub const ONLY_A_NAME: &str = "only ?R goes into ?R";

/// Prints the qualified types of a sheet with the names of a text.
#[derive(Clone, Copy)]
pub struct Notation<'a> {
    pub sheet: &'a Sheet,
    pub names: &'a Names,
}

impl Notation<'_> {
    /// A qualified type by its number, ?R as it stands; for example
    /// `tray[call{read}]{fetch,store}`.
    pub fn qualified(&self, number: usize) -> String {
        let unread = Reading::Name(None);
        self.said(&self.sheet.read_type(number, &unread))
    }

    pub fn said(&self, said: &Type) -> String {
        match said {
            Type::Integer => String::from("integer"),
            Type::Declared { of, rights } => {
                format!("{}{}", self.names.declared(*of), self.braced(said, *rights))
            }
            Type::Tray { element, rights } => {
                let (element, rights) = (self.said(element), self.braced(said, *rights));
                format!("tray[{element}]{rights}")
            }
            Type::Name(_) => String::from(RIGHTS_NAME),
        }
    }

    /// Why a value is not of the kind that the destination needs, by the level
    /// that decides: how far down it is, but for the first level of elements.
    pub fn unlike(&self, unlike: &Unlike, destination: &str) -> String {
        let Unlike {
            why,
            below,
            has,
            needs,
        } = *unlike;
        let bases = format!("needs {}, has {}", self.base(needs), self.base(has));
        let types = format!("needs {}, has {}", self.said(needs), self.said(has));
        let (why, compared) = match why {
            Why::Base if below == 0 => return bases,
            Why::Base => (String::from("the elements have another base"), bases),
            Why::Rights => (self.lacking(has, needs), types + &self.certain(has)),
            Why::Store { level: 0 } => {
                let why = format!("{destination} has store, so the elements must be equal");
                (why, types)
            }
            Why::Store { level } => {
                let down = down(level);
                let why =
                    format!("{destination} has store {down}, so the elements below must be equal");
                (why, types)
            }
        };
        match below {
            1 => format!("{why}: {compared}"),
            _ => format!("{why}: {}, {compared}", down(below)),
        }
    }

    /// What elements lack to be at least those needed.
    fn lacking(&self, has: &Type, needs: &Type) -> String {
        if let Type::Name(_) = needs {
            return String::from(ONLY_A_NAME);
        }
        let missing = self.rights(needs, needs.rights() & !has.rights());
        format!("the elements lack {missing}")
    }

    /// What more is said of ?R: only its least set is known.
    fn certain(&self, of: &Type) -> String {
        let Type::Name(_) = of else {
            return String::new();
        };
        match self.rights(of, of.rights()).as_str() {
            "" => String::from(", of which no right is certain"),
            least => format!(", of which no more than {least} is certain"),
        }
    }

    /// The base of a type.
    pub fn base(&self, of: &Type) -> String {
        match of {
            Type::Integer => String::from("integer"),
            Type::Tray { .. } => String::from("tray"),
            Type::Declared { of, .. } => self.names.declared(*of),
            Type::Name(name) => {
                let of = name.map_or_else(String::new, |name| self.names.declared(name.of));
                format!("{RIGHTS_NAME} of {of}")
            }
        }
    }

    fn braced(&self, of: &Type, rights: u32) -> String {
        format!("{{{}}}", self.rights(of, rights))
    }

    /// Rights of a type with commas between.
    pub fn rights(&self, of: &Type, rights: u32) -> String {
        let rights = (0..u32::BITS as usize).filter(|&right| rights >> right & 1 == 1);
        let rights: Vec<String> = rights.map(|right| self.right(of, right)).collect();
        rights.join(",")
    }

    /// The name of a right of a type.
    pub fn right(&self, of: &Type, right: usize) -> String {
        match of.declared() {
            Some(of) => self.names.right(of, right),
            None => {
                let name = TRAY_RIGHTS.get(right.wrapping_sub(1));
                name.map_or_else(|| format!("r{right}"), |name| String::from(*name))
            }
        }
    }
}

/// So many levels of elements below a tray.
pub fn down(levels: usize) -> String {
    match levels {
        1 => String::from("1 level down"),
        _ => format!("{levels} levels down"),
    }
}
