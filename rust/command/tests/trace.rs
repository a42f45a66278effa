//! What the trace tells of each step, and the reasons of the stops.

mod common;

use common::{status, stdout, wennathig};
use generator::runs::families::{Family, ANY_ACCEPTED, MISDECLARED, RUNNABLE, TRIALS};
use generator::runs::Run;
use reference::machine::watched::{examine, Phase};
use reference::machine::Ended;
use reference::{parse, Outcome, Stop};
use std::fs;
use std::path::PathBuf;

/// A text that makes every instruction, and its listings.
const ALL: &str = include_str!("trace/all.ws");
const PLAIN: &str = include_str!("trace/plain.txt");
const WATCHED: &str = include_str!("trace/watched.txt");

const STOPS: &str = include_str!("trace/stops.txt");

fn written(name: &str, bytes: &[u8]) -> String {
    let path = PathBuf::from(env!("CARGO_TARGET_TMPDIR")).join(name);
    fs::write(&path, bytes).expect("a file for the test");
    path.to_str().expect("a plain path").to_owned()
}

/// The lines of the trace in what the command prints.
fn listing(printed: &str) -> Vec<&str> {
    let lines = printed.lines();
    lines.filter(|line| line.starts_with("step ")).collect()
}

#[test]
fn every_instruction_tells_what_it_did() {
    let sheet = written("all.ws", ALL.as_bytes());
    for (options, expected) in [
        (&["--trace"][..], PLAIN),
        (&["--trace", "--watch"], WATCHED),
    ] {
        let call = [&["run", &sheet, "--reads", "-"], options].concat();
        let output = wennathig(&call, b"3\n8\n");
        assert_eq!(status(&output), 0);
        let printed = stdout(&output);
        let (steps, stop) = printed
            .split_once("4294967293\nstopped 11")
            .expect("the end");
        assert_eq!(steps, expected);
        assert!(stop.ends_with("    return\n    ^^^^^^\n"), "{stop}");
    }
}

/// Where the parts of a line start or, if they are aligned to the right, end.
fn columns(line: &str) -> [usize; 5] {
    let line: Vec<char> = line.chars().collect();
    let skip = |from: usize, test: fn(char) -> bool| {
        let rest = line[from..].iter();
        from + rest.take_while(|&&c| test(c)).count()
    };
    let digits = |from: usize| skip(skip(from, |c| c == ' '), |c| c.is_ascii_digit());
    // A part ends before two blanks.
    let part_after = |from: usize| {
        let pairs = line[from..].windows(2);
        let end = pairs.take_while(|pair| pair != &[' ', ' ']).count();
        skip(from + end, |c| c == ' ')
    };
    let step = digits(4);
    let number = digits(step + "  line".len());
    let place = number + 2;
    let text = part_after(place);
    [step, number, place, text, part_after(text)]
}

#[track_caller]
fn assert_aligned(printed: &str, steps: usize) {
    let lines = listing(printed);
    assert_eq!(lines.len(), steps, "{printed}");
    let first = columns(lines[0]);
    for line in lines {
        assert_eq!(columns(line), first, "{printed}");
        assert!(line.trim_end() == line, "{line}");
    }
}

#[test]
fn columns_stay_through_a_listing() {
    let sorter = format!("{}/../../samples/sorter.ws", env!("CARGO_MANIFEST_DIR"));
    for options in [&["--trace"][..], &["--trace", "--watch"]] {
        let call = [&["run", &sorter, "--reads", "-"], options].concat();
        let printed = stdout(&wennathig(&call, b"3\n14\n9\n22\n"));
        assert_aligned(&printed, 151);
        // The disassembled sheet has other names.
        let sheet = wennathig(&["asm", &sorter, "-o", "-"], &[]).stdout;
        let sheet = written("sorter.sheet", &sheet);
        let call = [&["run", &sheet, "--reads", "-"], options].concat();
        let printed = stdout(&wennathig(&call, b"3\n14\n9\n22\n"));
        assert_aligned(&printed, 151);
    }
}

#[test]
fn long_names_are_cut_and_raw_texts_have_numbers() {
    let long = "a".repeat(60);
    let text = format!(
        "procedure main\nvariable n: integer\nset   n\t:= 0\ncall n <- {long}()\nreturn\n\
         procedure {long} gives integer\nvariable {long}: integer\nset {long} := 7\nreturn {long}"
    );
    let printed = stdout(&wennathig(
        &["run", "-", "--text", "--trace"],
        text.as_bytes(),
    ));
    assert_aligned(&printed, 5);
    let lines = listing(&printed);
    assert!(lines[0].contains("  set n := 0  "), "{printed}");
    let cut = format!("  call n <- {}..  opens {long}", "a".repeat(32));
    assert!(lines[1].ends_with(&cut), "{printed}");
    let cut = format!(
        "  {}.. 0  set {}..  {long} = 7",
        "a".repeat(22),
        "a".repeat(38)
    );
    assert!(lines[2].ends_with(&cut), "{printed}");

    let raw = "raw\nHD 1 0 1 1\nQT 0 0 255\nPR 0 0 1 255 3\nVR 0 255\n\
               IN 1 0 255 255 0\nIN 5 0 255 255 2\nIN 17 255 255 255 0\n";
    let printed = stdout(&wennathig(
        &["run", "-", "--text", "--trace"],
        raw.as_bytes(),
    ));
    assert_aligned(&printed, 3);
    let jump = listing(&printed)[1];
    assert!(
        jump.ends_with("v0 is 0: goes to instruction 2"),
        "{printed}"
    );
}

/// A run of stops.txt.
struct Case<'a> {
    number: &'a str,
    options: Vec<&'a str>,
    reads: String,
    text: &'a str,
    below: &'a str,
}

fn stop_cases() -> Vec<Case<'static>> {
    let cases = STOPS.split("\n== ").skip(1);
    cases
        .map(|case| {
            let (head, rest) = case.split_once('\n').expect("a head");
            let (text, below) = rest.split_once("--\n").expect("what is due");
            let mut words = head.split(' ');
            let number = words.next().expect("a number");
            let mut options: Vec<&str> = words.collect();
            let mut reads = String::new();
            if let Some(at) = options.iter().position(|&word| word == "--reads") {
                reads = options[at + 1].replace(',', "\n");
                options[at + 1] = "-";
            }
            Case {
                number,
                options,
                reads,
                text,
                below: below.trim_end(),
            }
        })
        .collect()
}

#[test]
fn stops_mark_what_is_at_fault_and_tell_why() {
    let mut numbers = Vec::new();
    for Case {
        number,
        options,
        reads,
        text,
        below,
    } in stop_cases()
    {
        let sheet = written("stop.ws", text.as_bytes());
        let call = [&["run", sheet.as_str()], options.as_slice()].concat();
        let output = wennathig(&call, reads.as_bytes());
        let printed = stdout(&output);
        assert_eq!(status(&output), 0, "{text}{printed}");
        let (_, stop) = printed.split_once("stopped ").expect("a stop");
        assert!(stop.starts_with(number), "{text}{printed}");
        let found: Vec<&str> = stop.lines().skip(3).collect();
        assert_eq!(found.join("\n"), below, "{text}");
        numbers.push(number.to_owned());
    }
    numbers.dedup();
    assert_eq!(numbers.join(" "), "12 13 14 15 16 17 18 19");
}

/// What the command prints for a generated run.
fn printed(run: &Run, options: &[&str], name: &str) -> String {
    let sheet = written(name, &run.sheet);
    let reads: Vec<String> = run.input.iter().map(u32::to_string).collect();
    let [fuel, memory, report] = [
        run.fuel.to_string(),
        run.memory_words.to_string(),
        run.output.len().to_string(),
    ];
    let mut call = vec!["run", "--bytes", &sheet, "--reads", "-", "--fuel", &fuel];
    call.extend(["--memory", &memory, "--report", &report]);
    call.extend(options);
    let output = wennathig(&call, reads.join("\n").as_bytes());
    let printed = stdout(&output);
    assert_eq!(status(&output), 0, "{output:?}");
    printed
}

/// The runs of a seed, each with its end.
fn ends(family: &Family, seed: u64) -> Vec<(Run, Ended)> {
    let program = parse(&family.sheet(seed).encode()).expect("the layout is right");
    let end = |run: &Run| examine(&program, run.resources());
    let runs = family.runs(seed, |first| end(first).need);
    let ended = runs.into_iter().map(|run| {
        let ended = end(&run);
        (run, ended)
    });
    ended.collect()
}

/// The reason is that of the first test that fails.
fn assert_reason(ended: &Ended, printed: &str) {
    let reason: Vec<&str> = printed
        .lines()
        .filter(|line| line.starts_with("  ") && !line.starts_with("   "))
        .collect();
    let Outcome::Stopped { stop, .. } = ended.outcome else {
        panic!("refused: {printed}");
    };
    let holds = match (stop, ended.failures.first().map(|first| first.phase)) {
        (Stop::Done, _) => reason.is_empty(),
        (Stop::WrongKind, Some(Phase::Form)) => reason[0].contains(" gives "),
        (Stop::WrongKind, Some(Phase::Kind)) => {
            !reason[0].ends_with(')') || reason[1] == "  found a new tray"
        }
        (Stop::WrongKind, _) => reason[0].ends_with(')') && reason[1].ends_with(')'),
        (Stop::MissingRight, Some(Phase::Right)) => {
            !reason[0].ends_with(')') && reason[2].starts_with("  lacks   ")
        }
        (Stop::MissingRight, _) => reason[0].ends_with(')') && reason[2].starts_with("  lacks   "),
        _ => reason.len() == 1,
    };
    assert!(holds, "{:?}: {printed}", ended.failures);
}

#[test]
fn generated_stops_have_the_reason_of_the_test_that_fails() {
    let mut seen = [false; 20];
    for (family, seeds) in [(TRIALS, 170), (MISDECLARED, 20)] {
        for (run, ended) in (0..seeds).flat_map(|seed| ends(&family, seed)) {
            assert_reason(&ended, &printed(&run, &["--watch"], "trial"));
            seen[ended.outcome.number() as usize] = true;
        }
    }
    assert_eq!(seen[11..], [true; 9]);
}

#[test]
fn generated_sheets_that_are_accepted_stop_for_the_same_reason_on_both_machines() {
    for (family, seeds) in [(RUNNABLE, 20), (ANY_ACCEPTED, 10)] {
        for (run, ended) in (0..seeds).flat_map(|seed| ends(&family, seed)) {
            let plain = printed(&run, &[], "accepted");
            assert_eq!(plain, printed(&run, &["--watch"], "accepted"));
            assert_reason(&ended, &plain);
        }
    }
}

#[test]
fn generated_traces_have_their_columns() {
    for (family, seeds) in [(RUNNABLE, 20), (TRIALS, 34), (MISDECLARED, 10)] {
        for seed in 0..seeds {
            let (run, ended) = ends(&family, seed).remove(0);
            let printed = printed(&run, &["--trace", "--watch"], "traced");
            if ended.need.steps > 0 {
                assert_aligned(&printed, ended.need.steps as usize);
            }
        }
    }
}

#[test]
fn a_reason_is_left_out_where_it_would_take_too_long() {
    let text = "procedure main
        variable count, one, zero, most, test, empty: integer
        set zero := 0
        set one := 1
        set count := 0
        take most
    again:
        add count := count + one
        less test := count < most
        jumpzero test, end
        jumpzero zero, again
    end:
        put empty
        return";
    let sheet = written("long.ws", text.as_bytes());
    let stop = |rounds: &str| {
        let call = ["run", &sheet, "--fuel", "60000000", "--reads", "-"];
        stdout(&wennathig(&call, rounds.as_bytes()))
    };
    assert!(stop("12499999").ends_with("        ^^^^^\n  `empty` has no value yet\n"));
    let left_out = "    ^^^^^^^^^\n  why is not told: the second engine would take too long \
                    to make so many steps again\n";
    assert!(stop("12500000").ends_with(left_out));
}

/// Two trays, of which the second is made in a frame with a rights name, and
/// what is done with them.
fn with_names(lines: &str) -> String {
    format!(
        "type call{{read,amend}} (length: integer)
procedure main
    variable n: integer
    variable calls: tray[call{{read}}]{{fetch,store,size}}
    variable drafts: tray[call{{read,amend}}]{{fetch,store,size}}
    variable call: call{{read}}
    variable draft: call{{read,amend}}
    set n := 1
    newtray calls[n]
{lines}
    return
procedure new_like for ?R >= call{{read}} gives tray[?R]{{fetch,store,size}}
    formal like: tray[?R]{{fetch}}
    variable made: tray[?R]{{fetch,store,size}}
    variable n: integer
    set n := 2
    newtray made[n]
    call both(like, made)
    return made
procedure both for ?R >= call{{}}
    formal one, two: tray[?R]{{fetch}}
    return
procedure amend for ?R >= call{{read,amend}}
    formal all: tray[?R]{{fetch}}
    return
procedure new_call of call gives call{{read,amend}}
    variable made: call{{open,read,amend}}
    newrecord made
    return made
"
    )
}

/// What a watched run prints after its head, all lines in one.
fn watched(lines: &str, options: &[&str]) -> String {
    let text = with_names(lines);
    let output = wennathig(&[&["watch", "-"], options].concat(), text.as_bytes());
    assert_eq!(status(&output), 0, "{output:?}");
    stdout(&output)
}

#[test]
fn a_frame_tells_what_its_rights_name_is_settled_to() {
    let said = watched("    call calls <- new_like(calls)", &["--trace"]);
    let tray = "object 0 tray[call{read}]{fetch} (was tray[call{read}]{fetch,store,size})";
    for due in [
        &format!("  opens new_like for ?R = call{{read}}: like = {tray}\n"),
        "  made = object 1 tray[call{read}]{fetch,store,size}, new tray of 2\n",
        "  opens both for ?R = call{read}: one = object 0 tray[call{read}]{fetch}, two = object 1 tray[call{read}]{fetch} (was",
        "  back in main: calls = object 1 tray[call{read}]{fetch,store,size}\n",
        "\nstopped 11 done",
    ] {
        assert!(said.contains(due), "{due}\n{said}");
    }
}

/// A tray that is read under less than it was made under: its element stays
/// the object's, and what is fetched has the rights of the variable's element.
#[test]
fn a_tray_to_read_has_the_element_of_its_object_and_gives_less() {
    let readers = format!("{}/../../samples/readers.ws", env!("CARGO_MANIFEST_DIR"));
    let call = ["watch", &readers, "--trace", "--reads", "-"];
    let said = stdout(&wennathig(&call, b"14 9 22\n"));
    for due in [
        "  opens show: results = object 0 tray[call{read,amend}]{fetch,size} (was tray[call{read,amend}]{fetch,store,size})\n",
        "  item = object 2 call{read} (was call{read,amend})\n",
        "\nstopped 11 done",
    ] {
        assert!(said.contains(due), "{due}\n{said}");
    }
}

#[test]
fn a_call_that_settles_wrongly_tells_what() {
    for (lines, stop, due) in [
        (
            "    call both(calls, drafts)",
            18,
            "  calls settles ?R to call{read}, drafts to call{read,amend}\n",
        ),
        (
            "    call amend(calls)",
            19,
            "  settled to call{read}, but amend needs at least call{read,amend}\n  lacks amend\n",
        ),
        // What was made under ?R keeps its set: a draft loses amend on its way in.
        (
            "    call calls <- new_like(calls)\n    bind drafts <- calls",
            18,
            "  drafts has store, so the elements must be equal: needs call{read,amend}, has call{read}\n",
        ),
        (
            "    call calls <- new_like(calls)\n    set n := 0\n    call draft <- new_call()\n    store calls[n] <- draft\n    fetch draft <- calls[n]",
            19,
            "  needs   call{read,amend}  (draft)\n  carries call{read}        (calls[0], object 2)\n  lacks   amend\n",
        ),
    ] {
        let said = watched(lines, &[]);
        let stopped = format!("stopped {stop} ");
        assert!(said.contains(&stopped) && said.ends_with(due), "{due}\n{said}");
    }
}
