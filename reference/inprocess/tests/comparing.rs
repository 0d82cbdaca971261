//! The comparison itself: what it finds, and what it lets pass.

use std::process::{Command, Output};

use copy_compare::{Plant, PLANTS};

fn compare(arguments: &[&str]) -> Output {
    Command::new(env!("CARGO_BIN_EXE_compare_copies"))
        .args(arguments)
        .output()
        .expect("the program runs")
}

/// The status and the last line of a run.
fn verdict(arguments: &[&str]) -> (Option<i32>, String) {
    let output = compare(arguments);
    let text = String::from_utf8(output.stdout).expect("plain text");
    let last = text.lines().last().unwrap_or_default().to_owned();
    (output.status.code(), last)
}

#[test]
fn the_planner_agrees_with_the_rust() {
    let found = verdict(&["--copies", "100000", "--no-sets", "--threads", "2"]);
    assert_eq!(
        found,
        (Some(0), "100000 copies compared, 0 differences".into())
    );
}

/// As many random copies as have a place for a fault, some dozens of times.
fn copies_for(plant: &Plant) -> &'static str {
    match plant.name {
        // Few copies end so far from a texture that must be copied whole.
        "cut_part" => "100000",
        _ => "10000",
    }
}

/// Every fault is found, in whichever way the answer was asked for.
#[test]
fn planted_faults_are_found() {
    for plant in PLANTS {
        let copies = copies_for(&plant);
        for at in ["1", "2", "3", "61", "62", "63"] {
            let found = verdict(&[
                "--copies",
                copies,
                "--threads",
                "1",
                "--no-sets",
                "--plant",
                plant.name,
                "--plant-at",
                at,
            ]);
            let expected = format!("{copies} copies compared, 1 differences");
            assert_eq!(found, (Some(1), expected), "{} at {at}", plant.name);
        }
    }
}

/// A write from memory has one range; between textures no bytes are counted, and
/// between buffers there is no texture to leave.
const WITHOUT_PLACE: [(&str, &str); 4] = [
    ("5", "range_order"),
    ("4", "cut_bytes"),
    ("1", "cut_end"),
    ("1", "cut_part"),
];

/// The same of copies of each kind by itself.
#[test]
fn planted_faults_are_found_in_every_kind() {
    for kind in ["1", "2", "3", "4", "5"] {
        for plant in PLANTS {
            let (status, last) = verdict(&[
                "--kind",
                kind,
                "--copies",
                copies_for(&plant),
                "--threads",
                "1",
                "--no-sets",
                "--plant",
                plant.name,
                "--plant-at",
                "9",
            ]);
            let has_place = !WITHOUT_PLACE.contains(&(kind, plant.name));
            let (expected, differences) = if has_place { (1, 1) } else { (2, 0) };
            let end = format!(" copies compared, {differences} differences");
            assert_eq!(status, Some(expected), "{} of kind {kind}", plant.name);
            assert!(last.ends_with(&end), "{last}");
        }
    }
}

/// The numbers of a row of the table, or of a remark.
fn row(text: &str, name: &str) -> Vec<u64> {
    let mut lines = text.lines().filter_map(|line| line.strip_prefix(name));
    let line = lines.next().expect("the row is printed");
    let words = line.split([' ', ',']);
    words.filter_map(|word| word.parse().ok()).collect()
}

/// Writes from memory alone: the Rust's two answers are told apart, and of other
/// kinds nothing is asked for.
#[test]
fn writes_from_memory_are_asked_in_two_ways() {
    let output = compare(&["--kind", "5", "--copies", "200000", "--no-sets"]);
    assert_eq!(output.status.code(), Some(0));
    let text = String::from_utf8(output.stdout).expect("plain text");
    let copies = row(&text, "copies  ");
    let remark = "writes from memory by the Rust's rules and by Queue::write_texture:";
    let [compared, left_out] = row(&text, remark)[..] else {
        panic!("two numbers are told");
    };
    let records = row(&text, "  refused 2  ");
    let asked = compared + left_out + records.last().expect("a count of each kind");
    assert_eq!(copies, [0, 0, 0, 0, asked]);
    assert_eq!(row(&text, "disagreed"), [0; 5]);
    assert!(left_out > 0 && left_out < compared / 10, "{left_out}");
    assert!(text.contains("every refusal that a kind can give was reached"));
}

/// A difference is shown with its copy, its records and both answers.
#[test]
fn differences_are_shown() {
    let output = compare(&[
        "--copies",
        "1000",
        "--no-sets",
        "--plant",
        "region_number",
        "--threads",
        "1",
    ]);
    let text = String::from_utf8(output.stdout).expect("plain text");
    let shown = text.split("difference 1: random, seed 0, sheet ").nth(1);
    let shown = shown.expect("the difference is shown");
    let parts: Vec<&str> = ["\nsheet\n1\n", "\nRust\nok ", "\nplanner\nok "]
        .iter()
        .map(|head| shown.split(head).nth(1).expect("each part is shown"))
        .collect();
    assert_ne!(parts[1], parts[2]);
}

/// A fault that finds no place is no proof that it would be found.
#[test]
fn faults_without_a_place_are_told() {
    let (status, _) = verdict(&[
        "--copies",
        "1",
        "--no-sets",
        "--plant",
        "end",
        "--plant-at",
        "9",
    ]);
    assert_eq!(status, Some(2));
}

#[test]
fn odd_options_are_told() {
    for arguments in [
        &["--plant", "nothing"][..],
        &["--copies"],
        &["--kind", "0"],
        &["--kind", "6"],
        &["--speed"],
    ] {
        assert_eq!(compare(arguments).status.code(), Some(2), "{arguments:?}");
    }
}
