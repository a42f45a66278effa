//! Rights after the fifteenth, as the command tells them: refused, run, watched,
//! traced and asked for.

mod common;

use common::{status, stdout, wennathig};

/// A type of 31 rights, and a call under these; what stands in main is open.
fn text(main: &str) -> String {
    let rights: Vec<String> = (1..=31).map(|right| format!("r{right}")).collect();
    let rights = rights.join(",");
    format!(
        "edition 2
type call{{{rights}}} (length: integer)
qual whole = call{{{rights}}}
procedure main
    variable n: integer
    variable call: whole
    variable some: call{{r1,r16,r31}}
    variable others: call{{r15,r30}}
    variable calls: tray[call{{r16,r31}}]{{fetch,store}}
    call call <- new_call()
{main}
    return
procedure new_call of call gives whole
    variable made: call{{open,{rights}}}
    newrecord made
    return made
procedure last of call
    formal item: call{{r31}} as call{{open}}
    return
procedure least for ?R >= call{{r16,r31}}
    formal item: ?R
    return
"
    )
}

fn said(task: &[&str], main: &str) -> String {
    let call = [task, &["--text", "-"]].concat();
    stdout(&wennathig(&call, text(main).as_bytes()))
}

/// What is said of the part that is wrong.
fn reason(task: &[&str], main: &str) -> Vec<String> {
    let said = said(task, main);
    let lines = said.lines().filter(|line| line.starts_with("  "));
    let lines = lines.filter(|line| !line.starts_with("    "));
    lines.map(|line| String::from(line.trim())).collect()
}

#[test]
fn rights_that_are_lacking_are_named() {
    assert_eq!(
        reason(&["check"], "    bind some <- others"),
        [
            "needs call{r1,r16,r31}  (some)",
            "has   call{r15,r30}     (others)",
            "needs r1,r16,r31, has r15,r30"
        ]
    );
    let due = [
        "settled to call{r15,r30}, but least needs at least call{r16,r31}",
        "lacks r16,r31",
    ];
    assert_eq!(reason(&["check"], "    call least(others)"), due);
    let main = "    bind others <- call\n    call last(others)";
    assert_eq!(
        reason(&["watch"], main),
        [
            "needs   call{r31}      (what last needs as item)",
            "carries call{r15,r30}  (others, object 0)",
            "lacks   r31"
        ]
    );
    let main = "    bind others <- call\n    call least(others)";
    assert!(said(&["watch"], main).starts_with("stopped 19 unlicensed"));
}

/// Stored, fetched and moved with fewer rights.
const MOVES: &str = "    set n := 1
    newtray calls[n]
    set n := 0
    bind some <- call
    store calls[n] <- some
    fetch others <- calls[n]";

#[test]
fn rights_that_are_carried_are_traced() {
    let main = MOVES.replace("    fetch others <- calls[n]", "    call last(some)");
    assert!(said(&["watch"], &main).starts_with("stopped 11 done"));
    let trace = said(&["watch", "--trace"], &main);
    for due in ["object 0 call{r1,r16,r31}", "object 1 tray[call{r16,r31}]"] {
        assert!(trace.contains(due), "{due}: {trace}");
    }
    let made = "made = object 0 call{open,r1,r2,";
    assert!(trace.contains(made), "{trace}");
}

#[test]
fn where_a_right_came_from_is_told_of_the_last() {
    let main = MOVES.replace("    fetch others <- calls[n]", "");
    for right in ["r16", "r31"] {
        let question = format!("calls[0].{right}");
        let told = said(&["watch", "--why", &question], &main);
        let chain: Vec<&str> = told
            .lines()
            .filter(|line| line.starts_with("step "))
            .collect();
        assert_eq!(chain.len(), 4, "{told}");
    }
    let call = ["watch", "--text", "-", "--why", "calls[0].r1"];
    let output = wennathig(&call, text(&main).as_bytes());
    assert_eq!(status(&output), 2, "{output:?}");
    let told = said(&["watch", "--json", "--why", "some.r31"], &main);
    let due = r#""carries":"call{r1,r16,r31}","right":"r31","#;
    assert!(told.contains(due), "{told}");
}

#[test]
fn a_fetched_value_lacks_what_its_tray_does_not_declare() {
    let due = [
        "needs call{r15,r30}  (others)",
        "has   call{r16,r31}  (an element of calls)",
        "needs r15,r30, has r16,r31",
    ];
    assert_eq!(reason(&["check"], MOVES), due);
    assert!(said(&["check", "--json"], MOVES).contains(due[2]));
}

/// The names are those of the text or, of bytes, of their disassembly.
#[test]
fn bytes_are_told_by_their_numbers() {
    let output = wennathig(
        &["asm", "-", "-o", "-"],
        text("    bind some <- others").as_bytes(),
    );
    assert_eq!(status(&output), 0);
    let told = stdout(&wennathig(&["check", "--bytes", "-"], &output.stdout));
    assert!(told.contains("needs t2{r1,r16,r31}  (v2)\n"), "{told}");
    let text = stdout(&wennathig(&["dis", "-"], &output.stdout));
    assert!(text.starts_with("edition 2\ntype t2{r1,r2,"), "{text}");
    let again = wennathig(&["asm", "-", "-o", "-"], text.as_bytes());
    assert_eq!(again.stdout, output.stdout);
}
