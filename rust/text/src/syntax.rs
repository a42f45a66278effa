//! A text as its author wrote it, names unresolved.

use crate::mnemonic::Mnemonic;
use crate::span::{Error, Span};
use reference::Edition;

#[derive(Clone, Copy, Debug, PartialEq, Eq)]
pub struct Name<'a> {
    pub word: &'a str,
    pub span: Span,
}

/// A qualified type in notation: trays in one another around a base. They
/// are a list and no tree, since a text can nest them without limit.
pub struct Qualified<'a> {
    pub base: Base<'a>,
    /// The innermost first.
    pub trays: Vec<Tray<'a>>,
}

pub enum Base<'a> {
    /// A name that a `qual` line gives.
    Named(Name<'a>),
    Integer(Span),
    /// `?R`.
    RightsName(Span),
    Declared {
        of: Name<'a>,
        rights: Rights<'a>,
    },
}

pub struct Tray<'a> {
    /// From the word `tray` on.
    pub span: Span,
    pub rights: Rights<'a>,
}

impl Qualified<'_> {
    pub fn span(&self) -> Span {
        self.trays.last().map_or(self.base.span(), |tray| tray.span)
    }
}

impl Base<'_> {
    pub fn span(&self) -> Span {
        match self {
            Base::Named(name) => name.span,
            Base::Integer(span) | Base::RightsName(span) => *span,
            Base::Declared { of, rights } => of.span.to(rights.span),
        }
    }
}

/// Rights between braces.
pub struct Rights<'a> {
    pub names: Vec<Name<'a>>,
    pub span: Span,
}

/// A line, without its labels.
pub enum Statement<'a> {
    Edition(Edition),
    Type(TypeLine<'a>),
    Qual(QualLine<'a>),
    Procedure(ProcedureLine<'a>),
    Variables(VariableLine<'a>),
    Instruction(Instruction<'a>),
}

pub struct TypeLine<'a> {
    pub name: Name<'a>,
    pub rights: Vec<Name<'a>>,
    pub slots: Vec<(Name<'a>, Qualified<'a>)>,
}

pub struct QualLine<'a> {
    pub name: Name<'a>,
    pub qualified: Qualified<'a>,
}

pub struct ProcedureLine<'a> {
    pub name: Name<'a>,
    /// Boxed, as most lines have none.
    pub bound: Option<Box<Bound<'a>>>,
    pub owner: Option<Name<'a>>,
    pub result: Option<Qualified<'a>>,
}

/// `for ?R >= TYPE{..}`: a rights name, its base and its least set.
pub struct Bound<'a> {
    pub of: Name<'a>,
    pub least: Rights<'a>,
    /// From the word `for` on.
    pub span: Span,
}

/// A `formal` line, which has need, or a `variable` line.
pub struct VariableLine<'a> {
    pub names: Vec<Name<'a>>,
    pub need: Option<Qualified<'a>>,
    /// None where it is the same as need.
    pub inner: Option<Qualified<'a>>,
}

pub struct Instruction<'a> {
    pub mnemonic: &'static Mnemonic,
    pub a: Option<Name<'a>>,
    pub b: Option<Name<'a>>,
    pub c: Option<Name<'a>>,
    pub k: Constant<'a>,
    /// The actuals of a call.
    pub actuals: Vec<Name<'a>>,
}

/// What stands for the field k.
pub enum Constant<'a> {
    Unused,
    Number { value: u32, span: Span },
    Label(Name<'a>),
    Slot(Name<'a>),
    Procedure(Name<'a>),
}

/// A line with its labels.
pub struct Line<'a> {
    pub labels: Vec<Name<'a>>,
    pub body: Body<'a>,
}

/// What a line says after its labels.
pub enum Body<'a> {
    Empty,
    /// With its columns.
    Statement(Statement<'a>, Span),
    Wrong(Wrong<'a>),
}

/// A line that could not be read.
pub struct Wrong<'a> {
    pub error: Error,
    /// Its words: what it was to declare may be among those after the first.
    pub words: Vec<&'a str>,
}
