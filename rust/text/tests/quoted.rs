//! What messages show of a text.

use generator::Random;
use text::{assemble, quoted};

#[test]
fn what_is_not_printed_is_escaped() {
    for (found, said) in [
        ("plain_1", "plain_1"),
        ("größe", "größe"),
        ("a'b\"c`", "a'b\"c`"),
        ("a\\b", r"a\\b"),
        ("\u{0}\u{1b}[31m", r"\0\u{1b}[31m"),
        ("\n\r\t", r"\n\r\t"),
        ("\u{7f}\u{9b}", r"\u{7f}\u{9b}"),
        (
            "\u{202e}\u{2066}\u{200b}\u{feff}",
            r"\u{202e}\u{2066}\u{200b}\u{feff}",
        ),
        ("\u{a0}\u{2028}\u{e000}", r"\u{a0}\u{2028}\u{e000}"),
    ] {
        assert_eq!(quoted(found), said);
    }
}

/// All characters that turn the direction of others, and some that take no
/// room.
#[test]
fn what_changes_the_text_beside_it_is_escaped() {
    let turns = ['\u{61c}', '\u{200e}', '\u{200f}'].into_iter();
    let turns = turns.chain('\u{202a}'..='\u{202e}');
    let turns = turns.chain('\u{2066}'..='\u{2069}');
    let small = ['\u{ad}', '\u{180e}', '\u{2060}', '\u{301}', '\u{e0001}'];
    for character in turns.chain(small) {
        let escaped = format!("\\u{{{:x}}}", u32::from(character));
        assert_eq!(quoted(&format!("a{character}b")), format!("a{escaped}b"));
    }
}

#[test]
fn a_long_word_is_cut() {
    let word = |length: usize| "a".repeat(length);
    assert_eq!(quoted(&word(40)), word(40));
    assert_eq!(quoted(&word(41)), word(40) + "..");
    assert_eq!(quoted(&word(5_000_000)), word(40) + "..");
    // No escape is cut in two.
    assert_eq!(quoted(&"\u{202e}".repeat(50)), r"\u{202e}".repeat(5) + "..");
    let message = |text: &str| {
        let errors = assemble(text).err().unwrap_or_default();
        errors
            .into_iter()
            .map(|error| error.message)
            .collect::<String>()
    };
    let long = word(50);
    let cut = quoted(&long);
    assert_eq!(
        message(&format!("procedure {long}\n put {long}")),
        format!("expected a variable of `{cut}`, found `{cut}`")
    );
    assert_eq!(
        message(&format!("procedure {long}\nprocedure {long}")),
        format!("expected a new name, found `{cut}`, which is declared in line 1")
    );
    let rights: Vec<String> = (0..15).map(|number| format!("{long}{number}")).collect();
    let text = format!(
        "type {long}{{{}}}\nqual q = {long}{{{long}}}",
        rights.join(",")
    );
    assert_eq!(
        message(&text),
        format!("expected a right of `{cut}` (open, {cut}, {cut}, ..), found `{cut}`")
    );
}

/// Texts of long and strange words in all places.
#[test]
fn every_message_is_short_and_printed() {
    let long = "w".repeat(1_000);
    let pieces = [
        "type ",
        "qual ",
        "procedure ",
        "formal ",
        "variable ",
        "call ",
        "put ",
        "getslot ",
        "set ",
        "integer",
        "tray[",
        "]",
        "{",
        "}",
        "(",
        ")",
        ",",
        ":",
        "=",
        ":=",
        "<-",
        ".",
        "raw",
        "bytes ",
        "HD ",
        "\n",
        "\n",
        "\n",
        "a",
        "b",
        "1",
        "99999",
        &long,
        " ",
        "\u{202e}",
        "\u{1b}",
        "\u{feff}",
        "é",
        "\u{0}",
        "`",
    ];
    for seed in 0..20_000 {
        let mut random = Random::new(seed);
        let count = random.below(40);
        let picked = (0..count).filter_map(|_| random.pick(&pieces));
        let text: String = picked.collect();
        for error in assemble(&text).err().unwrap_or_default() {
            let message = &error.message;
            assert!(message.len() <= 300, "{text:?}: {message}");
            assert!(!message.contains(['\u{202e}', '\u{feff}']), "{message:?}");
            assert!(!message.chars().any(char::is_control), "{message:?}");
            assert!(message.starts_with("expected "), "{message}");
            assert!(message.contains(", found "), "{message}");
        }
    }
}
