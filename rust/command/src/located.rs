//! Where a record stands in the text of its sheet.

use crate::options::Form;
use crate::paint::Paint;
use crate::show;
use crate::source::Source;
use text::field::Field;
use text::{At, Span};

pub struct Located {
    /// The byte at which it starts.
    pub place: usize,
    /// The line, and what is marked in it, if the record has a line.
    pub line: Option<(usize, Vec<Span>)>,
    /// The procedure that it is of, and which of its instructions it is.
    pub procedure: Option<String>,
    pub instruction: Option<usize>,
}

impl Located {
    /// The record at the place, with the parts marked, or all of it.
    pub fn new(source: &Source, place: usize, parts: &[Field]) -> Located {
        let mut located = Located {
            place,
            line: None,
            procedure: None,
            instruction: None,
        };
        let entry = source.listing.at_byte(place);
        let Some((entry, span)) = entry.and_then(|entry| Some((entry, entry.span?))) else {
            return located;
        };
        let spans: Vec<_> = parts.iter().filter_map(|&part| entry.part(part)).collect();
        let spans = if spans.is_empty() { vec![span] } else { spans };
        located.line = Some((span.line, spans));
        if let At::Procedure(procedure)
        | At::Name(procedure)
        | At::Variable(procedure, _)
        | At::Instruction(procedure, _) = entry.at
        {
            located.procedure = Some(source.names.procedure(procedure));
        }
        if let At::Instruction(_, number) = entry.at {
            located.instruction = Some(number);
        }
        located
    }

    /// The line and the first column marked.
    pub fn line_and_column(&self) -> Option<(usize, usize)> {
        let (line, spans) = self.line.as_ref()?;
        Some((*line, spans[0].start))
    }

    /// The place in words, and the line with its marks.
    pub fn said(&self, source: &Source, paint: Paint) -> String {
        let Source { name, text, .. } = source;
        let place = self.place;
        let Some((line, spans)) = &self.line else {
            return format!("{} byte {place}\n", paint.place(&format!("{name}:")));
        };
        let procedure = self.procedure.as_ref();
        let procedure = procedure.map_or_else(String::new, |name| format!(", in {name}"));
        let instruction = self.instruction;
        let instruction =
            instruction.map_or_else(String::new, |number| format!(", instruction {number}"));
        let record = format!("byte {place}{procedure}{instruction}");
        let place = match source.form {
            Form::Text => {
                let place = paint.place(&format!("{name}:{line}:{}:", spans[0].start));
                format!("{place} {record}")
            }
            Form::Bytes => {
                let place = paint.place(&format!("{name}:"));
                format!("{place} {record}; line {line} of its disassembly")
            }
        };
        let content = text.lines().nth(line - 1).unwrap_or_default();
        format!("{place}\n{}\n", show::line(content, *line, spans, paint))
    }
}
