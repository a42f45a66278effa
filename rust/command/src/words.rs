//! The numbers of documents 01 and 02 with their words and meanings.

/// The word and the meaning of each number, 1 being the first.
const WORDS: [(&str, &str); 21] = [
    ("overlong", "more than 32,768 bytes"),
    ("torn", "a record is cut short, or bytes are left over"),
    ("stray mark", "not the mark that is due"),
    ("edition", "neither 1 nor 2"),
    ("off scale", "a field is outside the layout"),
    ("loose key", "the right open stands where it may not"),
    ("false raise", "need and inner of a formal disagree"),
    ("wrong kind", "base, element or form of return"),
    ("no licence", "a right is lacking"),
    ("big bench", "more than 65,536 words of memory are lent"),
    ("done", "the first frame, main's, returned"),
    ("fuel spent", "as many steps as fuel"),
    ("blank", "an empty variable, cell or slot is used"),
    ("past the tray", "the index is not below the size"),
    ("reads ended", "none is left to take"),
    ("report full", "no word is free"),
    ("bench full", "the units exceed the words of memory lent"),
    ("mixed sample", "a value of the wrong kind"),
    ("unlicensed", "a value does not carry the right needed"),
    ("unsettled", "no formal uses ?R, or two actuals differ"),
    ("short", "the settled set lacks a least right"),
];

/// The word and the meaning of a number, if it has them.
pub fn of(number: u64) -> Option<(&'static str, &'static str)> {
    let index = usize::try_from(number).ok()?.checked_sub(1)?;
    WORDS.get(index).copied()
}

/// For example `wrong kind: base, element or form of return`.
pub fn words(number: u64) -> String {
    match of(number) {
        Some((word, meaning)) => format!("{word}: {meaning}"),
        None => format!("the number {number}, which means nothing"),
    }
}
