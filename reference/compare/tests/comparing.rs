//! The comparison itself: what it finds, and what it lets pass.

use std::fs;
use std::path::{Path, PathBuf};
use std::process::{Command, Output};
use std::time::{Duration, Instant};

use copy_sheet::sheet_text;
use sheet_compare::{bench_points, reference_listing, Comparer, Limits, Planner, Plant, SETS};
use sheet_generator::random_sheet;

/// A planner that answers as the Rust does: it is the Rust.
const REFERENCE: &str = env!("CARGO_BIN_EXE_reference_planner");

const NO_LIMITS: Limits = Limits {
    differences: u64::MAX,
    end: None,
};

/// A folder of a test's own, empty.
fn folder(name: &str) -> PathBuf {
    let folder = Path::new(env!("CARGO_TARGET_TMPDIR")).join(name);
    let _ = fs::remove_dir_all(&folder);
    fs::create_dir_all(&folder).expect("the folder can be made");
    folder
}

/// A planner written in sh. Another program writes it: a file that this one has
/// open while it starts a third could not be run.
fn script(folder: &Path, body: &str) -> PathBuf {
    let path = folder.join("planner");
    let status = Command::new("sh")
        .args([
            "-c",
            "printf '%s\\n' '#!/bin/sh' \"$1\" >\"$0\" && chmod +x \"$0\"",
        ])
        .arg(&path)
        .arg(body)
        .status();
    assert!(status.expect("sh runs").success());
    path
}

fn compare(arguments: &[&str], folder: &Path) -> Output {
    Command::new(env!("CARGO_BIN_EXE_compare_sheets"))
        .args(arguments)
        .arg("--out")
        .arg(folder)
        .output()
        .expect("the program runs")
}

/// Compares a sheet whose copies are accepted; what is said of it.
fn trouble_of(planner: &Path, limit: Duration) -> Option<String> {
    let planner = Planner::new(planner, limit);
    let answer = planner.answer(&bench_points()[0], 1_000);
    answer.expect("the planner starts").trouble
}

#[test]
fn the_rust_agrees_with_itself() {
    let folder = folder("agrees");
    let output = compare(
        &["random", "--planner", REFERENCE, "--sheets", "50"],
        &folder,
    );
    let text = String::from_utf8(output.stdout).expect("plain text");
    assert!(output.status.success(), "{text}");
    assert!(text.contains("50 sheets, 12800 copies, differences 0"));
}

/// Every fault is found, wherever it is planted, and its sheet is saved.
#[test]
fn planted_faults_are_found() {
    for (name, _) in Plant::ALL {
        let folder = folder(&format!("plant-{name}"));
        // Of spoilt sheets few are run, and few answers have such an end.
        let mode = match name {
            "cut_bytes" | "cut_end" => "random",
            _ => "malformed",
        };
        for at in ["1", "3"] {
            let arguments = [
                mode,
                "--planner",
                REFERENCE,
                "--sheets",
                "120",
                "--copies",
                "20",
                "--plant",
                name,
                "--plant-at",
                at,
            ];
            let output = compare(&arguments, &folder);
            let text = String::from_utf8(output.stdout).expect("plain text");
            assert_eq!(output.status.code(), Some(1), "{name} at {at}: {text}");
            assert!(text.contains("120 sheets"), "{name} at {at}: {text}");
            assert!(text.contains("differences 1, in"), "{name} at {at}: {text}");
            assert!(folder.join("1.sheet").exists(), "{name} at {at}");
        }
    }
}

/// A planner's answer to a sheet of one copy: all but `copy 0 refused`.
type Numbers = [u64; 6];

/// An 8 of each kind that has it, with more bytes than 32 bits count.
const BYTES_PAST_32_BITS: [(&str, Numbers); 4] = [
    ("1 0 0 1 0 4294967300", [8, 1, 0, 0, 4_294_967_300, 4_096]),
    (
        "2 0 0 4294967040 4294967295 0 0 0 0 0 0 1 258 2",
        [8, 1, 0, 0, 18_446_744_073_709_486_081, 4_096],
    ),
    (
        "3 0 0 256 16777217 0 0 0 0 0 0 1 1 2",
        [8, 2, 0, 0, 4_294_967_553, 4_096],
    ),
    (
        "5 4096 1 4294967295 1 0 0 0 0 0 0 1 1 2",
        [8, 1, 0, 1, 4_294_967_296, 4_096],
    ),
];

/// A 9 or 10 of each kind that has them, with an end past 32 bits.
const ENDS_PAST_32_BITS: [(&str, Numbers); 5] = [
    (
        "2 0 0 - - 0 0 4294967295 0 0 0 1 1 1",
        [9, 2, 1, 4_294_967_295, 4_294_967_296, 1],
    ),
    (
        "3 0 0 - - 0 0 0 4294967295 0 0 1 2 1",
        [9, 1, 2, 4_294_967_295, 4_294_967_297, 259],
    ),
    (
        "5 4096 0 - - 0 0 0 0 4294967295 0 1 1 4294967295",
        [9, 2, 3, 4_294_967_295, 8_589_934_590, 2],
    ),
    (
        "4 1 0 4294967295 0 0 0 1 0 0 0 0 0 1 259 1",
        [10, 1, 1, 4_294_967_295, 4_294_967_296, 1],
    ),
    (
        "4 1 0 0 0 0 0 1 0 0 4294967295 0 0 1 259 1",
        [10, 2, 2, 4_294_967_295, 4_294_967_554, 259],
    ),
];

/// Ends below 2^32, of each refusal that has one.
const SHORT_ENDS: [(&str, Numbers); 5] = [
    ("1 0 0 1 0 4100", [8, 1, 0, 0, 4_100, 4_096]),
    ("2 0 0 - - 0 0 2 0 0 0 1 1 1", [9, 2, 1, 2, 3, 1]),
    ("4 1 0 0 1 0 0 1 0 0 0 0 0 1 259 1", [10, 1, 2, 1, 260, 259]),
    ("4 0 0 0 0 1 0 0 0 0 0 1 0 1 1 1", [11, 0, 0, 1, 1, 1]),
    ("4 0 0 0 0 0 0 1 0 0 0 0 0 1 259 1", [36, 0, 0, 1, 4, 0]),
];

/// How many differences are found where a planner's answer has this end.
fn differences_with_end(folder: &Path, copy: &str, numbers: Numbers, end: u64) -> u64 {
    let [number, side, dimension, start, _, limit] = numbers;
    let line = format!("copy 0 refused {number} {side} {dimension} {start} {end} {limit}");
    let planner = script(folder, &format!("echo {line}"));
    let planner = Planner::new(&planner, Planner::LIMIT);
    let mut comparer = Comparer::new(planner, NO_LIMITS, folder.into());
    let textures = ["0 2 1 259 2 1 1 3", "0 2 1 259 1 1 4 3"];
    let sheet = sheet_compare::sheet_lines("1 1", &textures, &["4096 12"; 2], &[copy]);
    comparer.compare(&sheet).expect("the planner starts");
    comparer.differences()
}

/// The end itself is no difference, and its remainder by 2^32 is one.
fn hold_to_whole_ends(folder: &Path, copies: &[(&str, Numbers)]) {
    for (copy, numbers) in copies {
        let end = numbers[4];
        let found = |end| differences_with_end(folder, copy, *numbers, end);
        assert_eq!(found(end), 0, "{copy}");
        assert_eq!(found(end % (1 << 32)), 1, "{copy}");
    }
}

#[test]
fn a_planner_that_takes_the_remainder_in_8_is_caught() {
    hold_to_whole_ends(&folder("remainder-in-8"), &BYTES_PAST_32_BITS);
}

/// The Rust does wrap these.
#[test]
fn a_planner_that_wraps_the_end_of_9_or_10_is_caught() {
    hold_to_whole_ends(&folder("wrapped-ends"), &ENDS_PAST_32_BITS);
}

/// The remainder of these by 2^32 is right.
#[test]
fn ends_too_large_by_2_to_the_32_are_caught() {
    let folder = folder("ends-too-large");
    for (copy, numbers) in SHORT_ENDS {
        let found = |end| differences_with_end(&folder, copy, numbers, end);
        assert_eq!(found(numbers[4]), 0, "{copy}");
        assert_eq!(found(numbers[4] + (1 << 32)), 1, "{copy}");
    }
}

/// A fault that finds no place is no proof that it would be found.
#[test]
fn faults_without_a_place_are_told() {
    let folder = folder("no-place");
    let arguments = [
        "random",
        "--planner",
        REFERENCE,
        "--sheets",
        "2",
        "--plant",
        "ill",
    ];
    assert_eq!(compare(&arguments, &folder).status.code(), Some(2));
}

#[test]
fn crashes_hangs_and_words_are_told() {
    let folder = folder("troubles");
    let limit = Duration::from_millis(300);
    for (body, expected) in [
        (format!("exec {REFERENCE}"), None),
        (format!("{REFERENCE}; exit 3"), Some("exit status: 3")),
        ("kill -SEGV $$".into(), Some("signal: 11")),
        ("exec sleep 60".into(), Some("more than 300ms")),
        (
            format!("{REFERENCE}; exec >&- 2>&-; exec sleep 60"),
            Some("more than 300ms"),
        ),
        (
            format!("{REFERENCE}; echo alas >&2"),
            Some("standard error: alas"),
        ),
    ] {
        let trouble = trouble_of(&script(&folder, &body), limit);
        match expected {
            None => assert_eq!(trouble, None, "{body}"),
            Some(words) => assert!(trouble.is_some_and(|text| text.contains(words)), "{body}"),
        }
    }
}

/// Sheets not read and listings without end do not hold up the comparison.
#[test]
fn nothing_is_waited_for() {
    let folder = folder("waits");
    let begin = Instant::now();
    let sheet = vec![b'\n'; 1_000_000];
    for body in ["exec echo sheet 0", "exec yes", "exec yes >&2"] {
        let planner = Planner::new(&script(&folder, body), Planner::LIMIT);
        let answer = planner.answer(&sheet, 10_000).expect("the planner starts");
        assert!(answer.listing.len() <= 10_000);
    }
    assert!(begin.elapsed() < Planner::LIMIT);
}

/// Long sheets with long listings go both ways at once.
#[test]
fn long_listings_are_read() {
    let planner = Planner::new(Path::new(REFERENCE), Planner::LIMIT);
    let copies = ["2 0 0 256 8 0 0 0 0 0 0 8 8 256"; 256];
    let textures = ["15 2 8 8 256 1 1 3"];
    let sheet = sheet_compare::sheet_lines("1 1", &textures, &["268435456 12"], &copies);
    let expected = reference_listing(&sheet);
    assert!(expected.len() > 1_000_000);
    let answer = planner.answer(&sheet, expected.len() + 1);
    assert_eq!(answer.expect("the planner starts").listing, expected);
}

#[test]
fn limits_leave_sheets_out_and_say_so() {
    let folder = folder("limits");
    let planner = script(&folder, "echo sheet 1");
    let limits = Limits {
        differences: 3,
        end: None,
    };
    let planner = Planner::new(&planner, Planner::LIMIT);
    let mut comparer = Comparer::new(planner, limits, folder.clone());
    comparer.begin("a set");
    for number in 0..5 {
        let sheet = sheet_text(&random_sheet(1, number, 1));
        comparer.compare(&sheet).expect("the planner starts");
    }
    let total = comparer.total();
    assert_eq!((total.sheets, total.differences, total.left_out), (3, 3, 2));
}

/// The sets are as large as they are said to be; each has sheets that run.
#[test]
fn sets_are_what_they_say() {
    for set in SETS {
        let (mut sheets, mut well_formed) = (0, 0);
        (set.sheets)(&mut |sheet| {
            sheets += 1;
            well_formed += u64::from(copy_sheet::parse(sheet).is_ok());
            Ok(())
        })
        .expect("nothing fails");
        assert!(sheets > 0 && well_formed > 0, "{}", set.name);
        assert_eq!(set.is_large, sheets > 3_000, "{}: {sheets}", set.name);
    }
    let planner = Planner::new(Path::new(REFERENCE), Planner::LIMIT);
    let mut comparer = Comparer::new(planner, NO_LIMITS, folder("sets"));
    let points = &SETS[0];
    (points.sheets)(&mut |sheet| comparer.compare(sheet)).expect("the planner starts");
    assert_eq!(comparer.differences(), 0);
}
