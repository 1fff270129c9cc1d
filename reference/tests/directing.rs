//! The vectors of directories: each case has the fault that it was made for, and a faulty directory is 15 in every line.

use reference::directing::{directing, input, output};
use reference::directory::fault;
use reference::vectors::vectors;

/// Lines of one case, and how many of them have a number.
const LINES: usize = 18;
const ANSWERS: usize = 15;

#[test]
fn faults_are_those_due() {
    for (place, case) in directing().iter().enumerate() {
        assert_eq!(fault(&case.dir), case.due, "case {place}");
    }
}

#[test]
fn a_fault_is_ahead_of_all() {
    let cases = directing();
    let text = output(&cases);
    let lines: Vec<&str> = text.lines().collect();
    assert_eq!(lines.len(), LINES * cases.len());
    for (case, lines) in cases.iter().zip(lines.chunks(LINES)) {
        let refused = |place: usize| format!(" refused 15 at {place}");
        let told = |line: &&&str| case.due.is_some_and(|place| line.contains(&refused(place)));
        let any = lines
            .iter()
            .filter(|line| line.contains(" refused 15 "))
            .count();
        let due = if case.due.is_some() { ANSWERS } else { 0 };
        assert_eq!((lines.iter().filter(told).count(), any), (due, due));
        if case.due.is_some() {
            assert!(lines.contains(&"items"), "no item is handed out");
            assert!(lines.contains(&"audit refused 15 at 0 0 0 0") || case.due != Some(0));
        }
    }
}

/// The other refusals that a directory decides are met too.
#[test]
fn other_answers_are_met() {
    let text = output(&directing());
    for line in [
        "check done",
        "check refused 2 at 0",
        "owed 0 none",
        "owed 1 none",
        "owed 1 refused 3 at -",
        "next refused 3 at - 1",
        "list refused 3 at - 77777 77777 77777",
        "open refused 10 at -",
        "open done 18446744073709551615 0 0",
        "restore done 9223372036854775808 1 0",
        "cell value 42 4",
        "cell refused 3 at -",
        "cell refused 10 at -",
        "audit done 7 4 1",
        "audit done 18446744073709551615 4 1",
    ] {
        assert!(text.lines().any(|found| found == line), "{line}");
    }
}

#[test]
fn the_tool_makes_them() {
    let cases = directing();
    let made = vectors("test_directories").expect("its vectors");
    assert_eq!(made.cases, cases.len());
    assert_eq!(made.input, input(&cases));
    assert_eq!(made.output, output(&cases));
}
