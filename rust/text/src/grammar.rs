//! A line's tokens made into a statement.

use crate::edition::EDITION;
use crate::lexer::{tokens, Token, RIGHTS_NAME};
use crate::mnemonic::{Mnemonic, Piece};
use crate::quote::quoted;
use crate::raw::{RAW, RAW_ELSEWHERE};
use crate::span::{Error, Span};
use crate::syntax::{
    Base, Body, Bound, Constant, Instruction, Line, Name, ProcedureLine, QualLine, Qualified,
    Rights, Statement, Tray, TypeLine, VariableLine, Wrong,
};
use reference::Edition;

/// The word before the rights name of a procedure.
const FOR: &str = "for";

/// Reads one line. One that is wrong has one error.
pub fn line(text: &str, number: usize) -> Line<'_> {
    let mut parser = Parser::new(text, number);
    let labels = parser.labels();
    let body = match parser.body() {
        Ok(None) => Body::Empty,
        Ok(Some((statement, span))) => Body::Statement(statement, span),
        Err(error) => Body::Wrong(Wrong {
            error,
            words: parser.words_after(2 * labels.len()),
        }),
    };
    Line { labels, body }
}

/// The tokens of a line, End being the last, and the next to be read.
pub struct Parser<'a> {
    tokens: Vec<(Token<'a>, Span)>,
    at: usize,
}

impl<'a> Parser<'a> {
    pub fn new(text: &'a str, number: usize) -> Self {
        let tokens = tokens(text, number);
        Parser { tokens, at: 0 }
    }

    /// Whether the line says nothing.
    pub fn is_empty(&self) -> bool {
        self.peek() == Token::End
    }

    /// The names at the beginning that a colon follows.
    fn labels(&mut self) -> Vec<Name<'a>> {
        let mut all = Vec::new();
        while let (Token::Word(word), Some((Token::Mark(":"), _))) =
            (self.peek(), self.tokens.get(self.at + 1))
        {
            if starts_with_digit(word) {
                break;
            }
            all.push(Name {
                word,
                span: self.span(),
            });
            self.at += 2;
        }
        all
    }

    /// The statement after the labels, with its columns.
    fn body(&mut self) -> Result<Option<(Statement<'a>, Span)>, Error> {
        if self.is_empty() {
            return Ok(None);
        }
        let start = self.span();
        let statement = self.statement()?;
        let span = start.to(self.last_span());
        self.end()?;
        Ok(Some((statement, span)))
    }

    /// The words of the line from a token on.
    fn words_after(&self, first: usize) -> Vec<&'a str> {
        let tokens = self.tokens[first..].iter();
        let words = tokens.filter_map(|(token, _)| match token {
            Token::Word(word) => Some(*word),
            _ => None,
        });
        words.collect()
    }

    pub fn peek(&self) -> Token<'a> {
        self.tokens[self.at].0
    }

    pub fn span(&self) -> Span {
        self.tokens[self.at].1
    }

    /// The columns of the token read last.
    pub fn last_span(&self) -> Span {
        self.tokens[self.at.saturating_sub(1)].1
    }

    /// Goes on to the next token; End is never passed.
    fn advance(&mut self) {
        self.at = (self.at + 1).min(self.tokens.len() - 1);
    }

    pub fn unexpected<T>(&self, expected: &str) -> Result<T, Error> {
        let found = match self.peek() {
            Token::Word(word) => format!("`{}`", quoted(word)),
            Token::Mark(mark) => format!("`{mark}`"),
            Token::Stray(character) => format!("`{}`", quoted(&character.to_string())),
            Token::End => String::from("the end of the line"),
        };
        let message = format!("expected {expected}, found {found}");
        Err(Error::new(self.span(), message))
    }

    pub fn end(&self) -> Result<(), Error> {
        match self.peek() {
            Token::End => Ok(()),
            _ => self.unexpected("the end of the line"),
        }
    }

    fn mark(&mut self, mark: &'static str) -> Result<Span, Error> {
        match self.passed(mark) {
            Some(span) => Ok(span),
            None => self.unexpected(&format!("`{mark}`")),
        }
    }

    /// Passes the mark if it is the next token.
    fn passed(&mut self, mark: &'static str) -> Option<Span> {
        let found = self.peek() == Token::Mark(mark);
        found.then(|| self.pass())
    }

    /// Passes the next token.
    pub fn pass(&mut self) -> Span {
        self.advance();
        self.last_span()
    }

    /// Passes the word if it is the next token.
    pub fn passed_word(&mut self, word: &str) -> bool {
        let found = matches!(self.peek(), Token::Word(next) if next == word);
        if found {
            self.advance();
        }
        found
    }

    fn word(&mut self, expected: &str) -> Result<Name<'a>, Error> {
        let Token::Word(word) = self.peek() else {
            return self.unexpected(expected);
        };
        let span = self.pass();
        Ok(Name { word, span })
    }

    fn name(&mut self, expected: &str) -> Result<Name<'a>, Error> {
        match self.peek() {
            Token::Word(word) if !starts_with_digit(word) => self.word(expected),
            _ => self.unexpected(expected),
        }
    }

    /// A number up to the greatest, decimal or after 0x hexadecimal.
    pub fn number(&mut self, greatest: u32) -> Result<(u32, Span), Error> {
        let expected = format!("a number from 0 to {greatest}");
        let value = match self.peek() {
            Token::Word(word) => value(word).filter(|&value| value <= greatest),
            _ => None,
        };
        match value {
            Some(value) => Ok((value, self.pass())),
            None => self.unexpected(&expected),
        }
    }

    /// One or more items between commas.
    fn list<T>(
        &mut self,
        mut item: impl FnMut(&mut Self) -> Result<T, Error>,
    ) -> Result<Vec<T>, Error> {
        let mut all = vec![item(self)?];
        while self.passed(",").is_some() {
            all.push(item(self)?);
        }
        Ok(all)
    }

    fn statement(&mut self) -> Result<Statement<'a>, Error> {
        let expected = "type, qual, procedure, formal, variable, an instruction or a label";
        let Token::Word(word) = self.peek() else {
            return self.unexpected(expected);
        };
        match word {
            "type" => self.type_line().map(Statement::Type),
            "qual" => self.qual_line().map(Statement::Qual),
            "procedure" => self.procedure_line().map(Statement::Procedure),
            "formal" => self.formal_line().map(Statement::Variables),
            "variable" => self.variable_line().map(Statement::Variables),
            EDITION => self.edition_line().map(Statement::Edition),
            RAW => Err(Error::new(self.span(), RAW_ELSEWHERE)),
            word => match Mnemonic::by_word(word) {
                Some(mnemonic) => self.instruction(mnemonic).map(Statement::Instruction),
                None => self.unexpected(expected),
            },
        }
    }

    fn edition_line(&mut self) -> Result<Edition, Error> {
        self.advance();
        let number = match self.peek() {
            Token::Word(word) => value(word).and_then(|number| u8::try_from(number).ok()),
            _ => None,
        };
        match number.and_then(Edition::numbered) {
            Some(edition) => {
                self.advance();
                Ok(edition)
            }
            None => self.unexpected("the edition, 1 or 2"),
        }
    }

    fn type_line(&mut self) -> Result<TypeLine<'a>, Error> {
        self.advance();
        let name = self.name("the name of a type")?;
        let mut rights = Vec::new();
        if self.peek() == Token::Mark("{") {
            rights = self.rights()?.names;
        }
        let mut slots = Vec::new();
        if self.passed("(").is_some() {
            slots = self.list(|parser| {
                let name = parser.name("the name of a slot")?;
                parser.mark(":")?;
                Ok((name, parser.qualified()?))
            })?;
            self.mark(")")?;
        }
        Ok(TypeLine {
            name,
            rights,
            slots,
        })
    }

    fn qual_line(&mut self) -> Result<QualLine<'a>, Error> {
        self.advance();
        let name = self.name("the name of a qualified type")?;
        self.mark("=")?;
        let qualified = self.qualified()?;
        Ok(QualLine { name, qualified })
    }

    fn procedure_line(&mut self) -> Result<ProcedureLine<'a>, Error> {
        self.advance();
        let name = self.name("the name of a procedure")?;
        let bound = match self.passed_word(FOR) {
            true => Some(Box::new(self.bound()?)),
            false => None,
        };
        let owner = match self.passed_word("of") {
            true => Some(self.name("the name of a type")?),
            false => None,
        };
        let result = match self.passed_word("gives") {
            true => Some(self.qualified()?),
            false => None,
        };
        self.no_bound(bound.is_some())?;
        Ok(ProcedureLine {
            name,
            bound,
            owner,
            result,
        })
    }

    /// `?R >= TYPE{..}`, after `for`.
    fn bound(&mut self) -> Result<Bound<'a>, Error> {
        let start = self.last_span();
        self.mark(RIGHTS_NAME)?;
        self.mark(">=")?;
        let of = self.name("the name of a type")?;
        let least = self.rights()?;
        let span = start.to(least.span);
        Ok(Bound { of, least, span })
    }

    /// A `for` after all that a procedure's line has.
    fn no_bound(&self, is_bound: bool) -> Result<(), Error> {
        let message = match (self.peek(), is_bound) {
            (Token::Word(FOR), true) => {
                "expected one rights name for a procedure, found a second `for`"
            }
            (Token::Word(FOR), false) => {
                "expected `for` right after the name of the procedure, found it elsewhere"
            }
            _ => return Ok(()),
        };
        Err(Error::new(self.span(), message))
    }

    fn formal_line(&mut self) -> Result<VariableLine<'a>, Error> {
        self.advance();
        let names = self.list(|parser| parser.name("the name of a formal"))?;
        self.mark(":")?;
        let need = Some(self.qualified()?);
        let inner = match self.passed_word("as") {
            true => Some(self.qualified()?),
            false => None,
        };
        Ok(VariableLine { names, need, inner })
    }

    fn variable_line(&mut self) -> Result<VariableLine<'a>, Error> {
        self.advance();
        let names = self.list(|parser| parser.name("the name of a variable"))?;
        self.mark(":")?;
        let inner = Some(self.qualified()?);
        let need = None;
        Ok(VariableLine { names, need, inner })
    }

    /// A base, or a base within trays.
    fn qualified(&mut self) -> Result<Qualified<'a>, Error> {
        let mut starts = Vec::new();
        while self.passed_word("tray") {
            starts.push(self.last_span());
            self.mark("[")?;
        }
        let base = self.base()?;
        // The tray that begins last ends first.
        let ends = starts.into_iter().rev().map(|start| self.tray_end(start));
        let trays = ends.collect::<Result<_, _>>()?;
        Ok(Qualified { base, trays })
    }

    /// `?R`, `integer`, `TYPE{..}` or the name of a qual.
    fn base(&mut self) -> Result<Base<'a>, Error> {
        if let Some(span) = self.passed(RIGHTS_NAME) {
            return Ok(Base::RightsName(span));
        }
        let name = self.name("a qualified type")?;
        if name.word == "integer" {
            return Ok(Base::Integer(name.span));
        }
        if self.peek() != Token::Mark("{") {
            return Ok(Base::Named(name));
        }
        let rights = self.rights()?;
        Ok(Base::Declared { of: name, rights })
    }

    /// `]{..}`, which ends a tray.
    fn tray_end(&mut self, start: Span) -> Result<Tray<'a>, Error> {
        self.mark("]")?;
        let rights = self.rights()?;
        let span = start.to(rights.span);
        Ok(Tray { span, rights })
    }

    fn rights(&mut self) -> Result<Rights<'a>, Error> {
        let start = self.mark("{")?;
        let mut names = Vec::new();
        if self.peek() != Token::Mark("}") {
            names = self.list(|parser| parser.name("a right"))?;
        }
        let span = start.to(self.mark("}")?);
        Ok(Rights { names, span })
    }

    fn instruction(&mut self, mnemonic: &'static Mnemonic) -> Result<Instruction<'a>, Error> {
        self.advance();
        let mut instruction = Instruction {
            mnemonic,
            a: None,
            b: None,
            c: None,
            k: Constant::Unused,
            actuals: Vec::new(),
        };
        for &piece in mnemonic.pieces {
            self.piece(piece, &mut instruction)?;
        }
        Ok(instruction)
    }

    fn piece(&mut self, piece: Piece, instruction: &mut Instruction<'a>) -> Result<(), Error> {
        const VARIABLE: &str = "a variable";
        match piece {
            Piece::A => instruction.a = Some(self.name(VARIABLE)?),
            Piece::B => instruction.b = Some(self.name(VARIABLE)?),
            Piece::C => instruction.c = Some(self.name(VARIABLE)?),
            Piece::Number => {
                let (value, span) = self.number(u32::from(u16::MAX))?;
                instruction.k = Constant::Number { value, span };
            }
            Piece::Label => instruction.k = Constant::Label(self.name("a label")?),
            Piece::Slot => instruction.k = Constant::Slot(self.name("a slot")?),
            Piece::Mark(mark) => {
                self.mark(mark)?;
            }
            Piece::Call => self.call(instruction)?,
            Piece::MaybeA => {
                if self.peek() != Token::End {
                    instruction.a = Some(self.name("a variable or the end of the line")?);
                }
            }
        }
        Ok(())
    }

    /// `[a <-] procedure(actuals)`.
    fn call(&mut self, instruction: &mut Instruction<'a>) -> Result<(), Error> {
        let mut name = self.name("a procedure, or a variable and `<-`")?;
        if self.passed("<-").is_some() {
            instruction.a = Some(name);
            name = self.name("a procedure")?;
        }
        instruction.k = Constant::Procedure(name);
        self.mark("(")?;
        if self.peek() != Token::Mark(")") {
            instruction.actuals = self.list(|parser| parser.name("a variable"))?;
        }
        self.mark(")")?;
        Ok(())
    }
}

fn starts_with_digit(word: &str) -> bool {
    word.starts_with(|first: char| first.is_ascii_digit())
}

fn value(word: &str) -> Option<u32> {
    match word.strip_prefix("0x") {
        Some(digits) => u32::from_str_radix(digits, 16).ok(),
        None => word.parse().ok(),
    }
}
