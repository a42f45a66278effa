//! The exhibits for the prover are short, and show what they are chosen for.
//! Those are of edition 1; short sheets of edition 2 have chains too.

use comparison::exhibits::{all, antt, Exhibit};
use comparison::{agreed, agreed_watch};
use generator::runs::short::short_in_second_edition;
use generator::Random;
use reference::machine::accepted;
use reference::provenance::audit::Recorded;
use reference::provenance::{Link, Location, Origin};
use reference::Verdict;
use std::fs;

/// The chains of an exhibit that end somewhere.
fn chains(exhibit: &Exhibit) -> Vec<Vec<Link>> {
    let Exhibit {
        program,
        run,
        after,
        locations,
        ..
    } = exhibit;
    let recorded = Recorded::new(program, run.resources()).expect("main fits");
    assert!(recorded.history.steps() <= 18, "{}", exhibit.shows);
    assert_eq!(recorded.audit(*after), Ok(()), "{}", exhibit.shows);
    let all = locations.iter();
    all.filter_map(|&location| recorded.history.chain(*after, location))
        .collect()
}

#[test]
fn exhibits_are_short_and_show_enough() {
    let exhibits = all();
    assert_eq!(exhibits.len(), 12);
    let (mut linked, mut amplified, mut nowhere) = (0, 0, 0);
    for exhibit in &exhibits {
        assert!(exhibit.run.sheet.len() <= 260, "{}", exhibit.shows);
        assert!(exhibit.locations.len() <= 6, "{}", exhibit.shows);
        let chains = chains(exhibit);
        let ends = chains.iter().filter_map(|chain| chain.last());
        let mut ends = ends.map(|link| &link.origin);
        linked += usize::from(chains.iter().any(|chain| chain.len() >= 2));
        amplified += usize::from(ends.any(|end| matches!(end, Origin::Amplified { .. })));
        nowhere += exhibit.locations.len() - chains.len();
    }
    println!("{linked} linked, {amplified} amplified, {nowhere} nowhere");
    assert!(linked >= 6 && amplified >= 3 && nowhere >= 6);
}

/// They are the same every time, in lines that can be read.
#[test]
fn exhibits_are_written_alike() {
    let texts = [all(), all()].map(|exhibits| [antt::specs(&exhibits), antt::proofs(&exhibits)]);
    assert_eq!(texts[0], texts[1]);
    for line in texts[0].iter().flat_map(|text| text.lines()) {
        assert!(line.chars().count() <= 160, "{line}");
    }
}

/// The prover computes the chains that this engine reads.
#[test]
fn exhibits_are_those_proved() {
    let exhibits = all();
    let written = [
        ("specs", antt::specs(&exhibits)),
        ("proofs", antt::proofs(&exhibits)),
    ];
    for (part, text) in written {
        let path = format!("../../crates/cases/{part}/GeneratedChains.antt");
        let proved = fs::read_to_string(&path).expect(&path);
        assert!(
            proved == text,
            "{path} is not what `exhibits {part}` writes"
        );
    }
}

/// How many chains of a run, after each of its steps, end somewhere and are of
/// a record with a right above 15.
fn chains_of_high_rights(run: &Recorded) -> usize {
    let mut count = 0;
    for after in 0..=run.history.steps() {
        assert_eq!(run.audit(after), Ok(()));
        let state = run.state(after);
        let high = Location::all(state).into_iter().filter(|location| {
            let held = location.content(state);
            held.is_some_and(|held| held.rights.members().any(|right| right > 15))
        });
        let chains = high.filter_map(|location| run.history.chain(after, location));
        count += chains.count();
    }
    count
}

#[test]
fn short_sheets_of_edition_2_have_chains() {
    let mut chains = 0;
    for seed in 0..200 {
        let run = short_in_second_edition(&mut Random::new(seed));
        assert_eq!(agreed(&run.sheet), Ok(Verdict::Accepted));
        agreed_watch(&run).unwrap_or_else(|fault| panic!("{fault}"));
        let program = accepted(&run.sheet, run.memory_words).expect("it is accepted");
        let recorded = Recorded::new(&program, run.resources()).expect("main fits");
        chains += chains_of_high_rights(&recorded);
    }
    println!("{chains} chains");
    assert!(chains >= 1_000, "{chains}");
}
