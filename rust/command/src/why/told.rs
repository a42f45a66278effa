//! A chain in the words of a text.

use crate::located::Located;
use crate::trace::columns::Columns;
use reference::Place;

/// Where a right came from.
pub struct Told {
    /// So many steps are made.
    pub after: u64,
    /// The place as the question has it, where it leads through objects.
    pub way: Option<String>,
    pub location: String,
    /// What the location holds, and the type of that with the rights carried.
    pub object: usize,
    pub carries: String,
    pub right: String,
    /// The latest first.
    pub links: Vec<Link>,
    /// Those of the run's trace.
    pub columns: Columns,
}

/// A step in which a location got what it holds.
pub struct Link {
    pub step: u64,
    pub place: Place,
    /// The instruction in the text.
    pub at: Located,
    pub location: String,
    pub how: How,
}

pub enum How {
    /// From another location, bound to each of these declared types.
    Bound {
        from: String,
        through: Vec<Declared>,
    },
    /// It was made.
    Made,
    Amplified(Amplified),
}

/// A declared type, and what is declared so: of need, inner, result, element
/// and slot the one that it is, and in words.
pub struct Declared {
    pub is: String,
    pub role: &'static str,
    pub whose: String,
}

/// A formal that carries the rights of its inner type, whatever the actual
/// carried.
pub struct Amplified {
    pub procedure: String,
    pub formal: String,
    /// The type whose module the procedure is of.
    pub module: String,
    pub inner: String,
    pub need: String,
    pub actual: String,
    /// A right that the actual was asked for, if there is one: that of the
    /// question, or the first.
    pub asked: Option<String>,
}

impl Told {
    /// All lines.
    pub fn said(&self) -> String {
        let parts: Vec<[String; 2]> = self.links.iter().map(|link| self.parts(link)).collect();
        let widths = parts.iter().map(|[moved, _]| moved.chars().count());
        let width = widths.max().unwrap_or(0);
        let lines = self.links.iter().zip(&parts).map(|(link, [moved, how])| {
            let did = format!("{moved:<width$}  {how}");
            self.columns.line(link.step, link.place, &did) + "\n"
        });
        let lines: String = lines.collect();
        format!("{}\n{lines}{}", self.head(), self.hint())
    }

    fn head(&self) -> String {
        let Told {
            after,
            location,
            object,
            carries,
            right,
            ..
        } = self;
        let location = match &self.way {
            Some(way) => format!("{way}, which is {location},"),
            None => location.clone(),
        };
        let steps = if *after == 1 { "step" } else { "steps" };
        format!(
            "after {after} {steps} {location} holds object {object} {carries}; its {right}, from the latest step back:"
        )
    }

    /// What a step did to the location, and how.
    fn parts(&self, link: &Link) -> [String; 2] {
        let location = &link.location;
        match &link.how {
            How::Bound { from, through } => {
                let through = through.iter();
                let through: Vec<String> = through
                    .map(|Declared { is, whose, .. }| format!("{is} ({whose})"))
                    .collect();
                let through = format!("through {}", through.join(", "));
                [format!("{location} <- {from}"), through]
            }
            How::Made => [
                format!("{location} is new"),
                format!("object {} is made in this step", self.object),
            ],
            How::Amplified(Amplified {
                procedure,
                formal,
                module,
                inner,
                ..
            }) => [
                format!("{location} is amplified"),
                format!(
                    "{procedure}, of the module of {module}, has its formal {formal} as {inner}"
                ),
            ],
        }
    }

    /// What may be asked next, of an amplified formal.
    fn hint(&self) -> String {
        let Some(Link {
            step,
            how: How::Amplified(amplified),
            ..
        }) = self.links.last()
        else {
            return String::new();
        };
        let Amplified {
            procedure,
            need,
            actual,
            asked,
            ..
        } = amplified;
        let before = step - 1;
        let more = match asked {
            Some(right) => {
                format!("--after {before} --why {actual}.{right} asks where that came from")
            }
            None => String::from("no right"),
        };
        format!("  {procedure} needs {need} of {actual}: {more}\n")
    }
}
