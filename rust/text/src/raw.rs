//! Raw text: records by their marks with their fields as numbers, and bytes.
//! Nothing is counted or resolved, so that it can say any bytes.

use crate::assemble::{Assembled, Writer};
use crate::edition;
use crate::errors::Errors;
use crate::grammar::Parser;
use crate::lexer::Token;
use crate::listing::{At, Entry};
use crate::names::Names;
use crate::record::{Record, RecordKind};
use crate::span::Error;

/// The word that the first line of a raw text has.
pub const RAW: &str = "raw";
pub const BYTES: &str = "bytes";

pub const RAW_ELSEWHERE: &str =
    "expected `raw` alone in its line and before all others, found it elsewhere";

/// Whether the first line that says something begins with `raw`, and not as
/// a label.
pub fn is_raw(text: &str) -> bool {
    let first = parsers(text).find(|parser| !parser.is_empty());
    first.is_some_and(|mut first| first.passed_word(RAW) && first.peek() != Token::Mark(":"))
}

/// The lines of a text, none of them read.
fn parsers(text: &str) -> impl Iterator<Item = Parser<'_>> {
    let lines = text.lines().enumerate();
    lines.map(|(number, line)| Parser::new(line, number + 1))
}

/// A line that is wrong is one error, and the others are read.
pub fn assemble(text: &str) -> Result<Assembled, Vec<Error>> {
    let mut writer = Writer::default();
    let mut errors = Errors::default();
    let mut lines = parsers(text).skip_while(Parser::is_empty);
    let first = lines.next().map_or(Ok(()), first_line);
    first.unwrap_or_else(|error| errors.add(error));
    for mut parser in lines {
        if let Err(error) = statement(&mut parser, &mut writer) {
            errors.add(error);
            writer.suppose_header();
        }
        if errors.is_full() {
            break;
        }
    }
    if !errors.is_empty() {
        return Err(errors.sorted());
    }
    Ok(Assembled {
        sheet: writer.sheet,
        listing: writer.listing,
        names: Names::default(),
    })
}

/// The line that begins with `raw`.
fn first_line(mut parser: Parser) -> Result<(), Error> {
    parser.pass();
    match parser.is_empty() {
        true => Ok(()),
        false => parser.unexpected("the end of the line after `raw`, which stands alone"),
    }
}

fn statement(parser: &mut Parser, writer: &mut Writer) -> Result<(), Error> {
    if parser.is_empty() {
        return Ok(());
    }
    let expected = "HD, TY, QT, PR, GN, VR, IN or `bytes`";
    match parser.peek() {
        Token::Word(BYTES) => bytes(parser, writer)?,
        Token::Word(RAW) => return Err(Error::new(parser.span(), RAW_ELSEWHERE)),
        Token::Word(word) => match RecordKind::by_mark(word.as_bytes()) {
            Some(kind) => record(kind, parser, writer)?,
            None => return parser.unexpected(expected),
        },
        _ => return parser.unexpected(expected),
    }
    parser.end()
}

fn record(kind: RecordKind, parser: &mut Parser, writer: &mut Writer) -> Result<(), Error> {
    let start = parser.pass();
    let mut values = Vec::new();
    let mut parts = Vec::new();
    let edition = edition::of_sheet(&writer.sheet);
    for field in kind.fields() {
        let (value, span) = parser.number(field.greatest(edition))?;
        values.push(value);
        parts.push((field, span));
    }
    let span = start.to(parser.last_span());
    let record = Record::new(kind, &values);
    writer.add(At::Raw(kind), &record, Some(span), parts);
    Ok(())
}

fn bytes(parser: &mut Parser, writer: &mut Writer) -> Result<(), Error> {
    let start = parser.pass();
    let place = writer.sheet.len();
    while parser.peek() != Token::End {
        let digits = match parser.peek() {
            Token::Word(word) if word.len() == 2 => u8::from_str_radix(word, 16).ok(),
            _ => None,
        };
        let Some(byte) = digits else {
            return parser.unexpected("a byte as two hexadecimal digits");
        };
        parser.pass();
        writer.sheet.push(byte);
    }
    writer.listing.entries.push(Entry {
        at: At::Bytes,
        place,
        size: writer.sheet.len() - place,
        span: Some(start.to(parser.last_span())),
        parts: Vec::new(),
    });
    Ok(())
}
