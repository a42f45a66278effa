//! A line of a text with some of its columns marked.

use crate::paint::Paint;
use crate::quote::is_hidden;
use text::Span;

/// The most characters of a line that are shown, and how many of them stand
/// before what is marked where the beginning is cut off.
const WINDOW: usize = 160;
const BEFORE: usize = 40;
/// Stands where a line is cut.
const CUT: &str = "..";

/// The line with that number, indented, and below it a caret for every column
/// marked.
pub fn line(line: &str, number: usize, spans: &[Span], paint: Paint) -> String {
    let line = line.trim_end();
    let end = line.chars().count();
    // What is blank on the left is left out, unless it is marked.
    let blank = line.chars().take_while(|c| c.is_whitespace()).count();
    let first = spans.iter().map(|span| span.start - 1).min();
    let blank = blank.min(first.unwrap_or(blank));
    let last = spans.iter().map(|span| last_column(*span)).max();
    let last = last.unwrap_or(0);
    let from = match last <= blank + WINDOW {
        true => blank,
        false => first.unwrap_or(0).saturating_sub(BEFORE).max(blank),
    };
    let to = from + WINDOW;
    let shown: String = line.chars().take(to).skip(from).map(shown).collect();
    let marked = |column: usize| {
        let here = |span: &Span| span.line == number && within(*span, column);
        spans.iter().any(here)
    };
    let carets = (from + 1..=last.min(to)).map(|column| if marked(column) { '^' } else { ' ' });
    let carets: String = carets.collect();
    let (before, below) = if from > blank { (CUT, "  ") } else { ("", "") };
    let after = if to < end { CUT } else { "" };
    let unmarked = carets.len() - carets.trim_start().len();
    let (left, carets) = carets.split_at(unmarked);
    let carets = paint.carets(carets.trim_end());
    format!("    {before}{shown}{after}\n    {below}{left}{carets}")
}

/// A span of no columns, as at the end of a line, marks the one at its start.
fn within(span: Span, column: usize) -> bool {
    (span.start..=last_column(span)).contains(&column)
}

fn last_column(span: Span) -> usize {
    span.start.max(span.end - 1)
}

/// Columns are characters: one must not take more or less room than its caret.
fn shown(character: char) -> char {
    match character {
        blank if blank.is_ascii_whitespace() => ' ',
        hidden if is_hidden(hidden) => char::REPLACEMENT_CHARACTER,
        shown => shown,
    }
}

#[cfg(test)]
mod tests {
    use super::Span;
    use crate::paint::When;

    fn span(start: usize, end: usize) -> Span {
        let line = 2;
        Span { line, start, end }
    }

    fn line(text: &str, number: usize, spans: &[Span]) -> String {
        let line = text.lines().nth(number - 1).unwrap_or_default();
        super::line(line, number, spans, When::Never.output())
    }

    #[test]
    fn carets_stand_under_their_columns() {
        let text = "first\n\tadd a := é + c  \r\n";
        let both = line(text, 2, &[span(6, 7), span(11, 12)]);
        assert_eq!(both, "    add a := é + c\n        ^    ^");
        let end = line(text, 2, &[span(18, 18)]);
        assert_eq!(end, "    add a := é + c\n                    ^");
        // A blank that is itself marked is shown.
        let blank = line("\n \u{a0} x", 2, &[span(2, 3)]);
        assert_eq!(blank, "    \u{a0} x\n    ^");
        assert_eq!(line("", 7, &[]), "    \n    ");
    }

    #[test]
    fn a_long_line_is_cut_around_what_is_marked() {
        let text = format!("\n{}here{}", "a".repeat(1_000), "b".repeat(1_000));
        let (a, b, blank) = ("a".repeat(40), "b".repeat(116), " ".repeat(42));
        let expected = format!("    ..{a}here{b}..\n    {blank}^^^^");
        assert_eq!(line(&text, 2, &[span(1_001, 1_005)]), expected);
        let start = line(&text, 2, &[span(2, 3)]);
        let expected = format!("    {}..\n     ^", "a".repeat(160));
        assert_eq!(start, expected);
        // All of it is marked.
        let whole = line(&text, 2, &[span(1, 2_005)]);
        let expected = format!("    {}..\n    {}", "a".repeat(160), "^".repeat(160));
        assert_eq!(whole, expected);
    }

    #[test]
    fn what_a_terminal_obeys_takes_one_column() {
        let text = "\n\x1b[31m\u{202e}x";
        let shown = line(text, 2, &[span(7, 8)]);
        assert_eq!(shown, "    \u{fffd}[31m\u{fffd}x\n          ^");
    }
}
