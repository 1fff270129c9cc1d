//! The stored sample logs of `playlog` are those that the bin `samples` makes, and say what they are named for.

use std::collections::BTreeSet;
use std::fs;
use std::path::PathBuf;

use reference::examples::all;

fn stored() -> PathBuf {
    PathBuf::from(env!("CARGO_MANIFEST_DIR")).join("../examples/logs")
}

#[test]
fn stored_files_are_as_made() {
    let mut names = BTreeSet::new();
    for example in all() {
        let log = format!("{}.log", example.name);
        let expected = format!("{}.expected", example.name);
        assert_eq!(fs::read(stored().join(&log)).unwrap(), example.log, "{log}");
        assert_eq!(
            fs::read_to_string(stored().join(&expected)).unwrap(),
            example.expected(),
            "{expected}"
        );
        names.extend([log, expected]);
    }
    for file in fs::read_dir(stored()).unwrap() {
        let name = file.unwrap().file_name().into_string().unwrap();
        assert!(names.contains(&name), "{name} is not made");
    }
}

#[test]
fn first_lines_are_those_of_the_names() {
    for example in all() {
        let said = example.expected();
        let first = said.lines().next().unwrap();
        let due = match example.name {
            "refused-1-half-a-slot" | "refused-1-too-long" => "refused 1 at -",
            "refused-2-at-0" => "refused 2 at 0",
            "refused-2-at-3" | "refused-2-names-itself" => "refused 2 at 3",
            "refused-11-delivery" => "refused 11 at 7",
            "refused-11-decision" => "refused 11 at 6",
            "refused-11-checkpoint" => "refused 11 at 5",
            "refused-11-cell-left-out" => "refused 11 at 1",
            // 227 entries of 12 new cells are 2,724; the next 12 are more than 2,730 hold.
            "refused-13" => "refused 13 at 227",
            "refused-13-before-11" => "refused 13 at 229",
            _ => "offset number outcome",
        };
        assert_eq!(first, due, "{}", example.name);
    }
}

#[test]
fn bench_is_printed_as_document_01_has_it() {
    let examples = all();
    let said = |name: &str| {
        let found = examples.iter().find(|example| example.name == name);
        found.unwrap().expected()
    };
    assert_eq!(
        said("bench"),
        "offset number outcome\n3 9 commit\n4 10 abort\nobject key value version\n2 7 42 4\n"
    );
    assert_eq!(
        said("bench-stale-read"),
        "offset number outcome\n3 9 abort\n4 10 commit\nobject key value version\n2 7 40 5\n"
    );
    assert_eq!(
        said("delivery"),
        "offset number outcome\n1 9 commit\n3 10 commit\nobject key value version\n4 2 1 4\n5 1 6 2\n"
    );
    let outcomes = |text: &str| {
        let lines = text
            .lines()
            .skip(1)
            .take_while(|line| !line.starts_with('o'));
        let words = lines.map(|line| line.rsplit_once(' ').map_or("", |(_, outcome)| outcome));
        words.map(|outcome| &outcome[..1]).collect::<String>()
    };
    assert_eq!(outcomes(&said("deliveries")), "accacaaacc");
    assert_eq!(said("table-full").lines().count(), 2 + 2_730);
    assert_eq!(
        said("empty"),
        "offset number outcome\nobject key value version\n"
    );
}
