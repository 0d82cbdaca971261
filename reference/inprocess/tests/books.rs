//! The comparison of books: what it finds, and what it lets pass.

use std::process::{Command, Output};

use copy_compare::BOOK_PLANTS;

fn compare(arguments: &[&str]) -> Output {
    Command::new(env!("CARGO_BIN_EXE_compare_books"))
        .args(arguments)
        .output()
        .expect("the program runs")
}

/// The status and the text of a run.
fn run(arguments: &[&str]) -> (Option<i32>, String) {
    let output = compare(arguments);
    let text = String::from_utf8(output.stdout).expect("plain text");
    (output.status.code(), text)
}

/// The number behind a name in what is printed.
fn count(text: &str, name: &str) -> u64 {
    let mut lines = text
        .lines()
        .filter_map(|line| line.trim().strip_prefix(name));
    let count = lines.next().expect("the count is printed").trim();
    count.parse().expect("a number")
}

#[test]
fn the_planner_keeps_books() {
    let (status, text) = run(&["--updates", "100000", "--threads", "2"]);
    assert_eq!(status, Some(0), "{text}");
    assert!(
        text.ends_with(" updates compared, 0 differences\n"),
        "{text}"
    );
    let parts = ["applied", "without a range", "refused 39", "refused 38"];
    let all: u64 = parts.iter().map(|part| count(&text, part)).sum();
    assert_eq!(count(&text, "updates"), all);
    for name in [
        "refused 2",
        "filled",
        "accepted copies",
        "their texture ranges",
    ] {
        assert!(count(&text, name) > 0, "{name}: {text}");
    }
}

/// The same, however many threads share the work.
#[test]
fn what_is_asked_depends_on_the_seed_alone() {
    let counts = |threads, seed| {
        let arguments = ["--updates", "5000", "--threads", threads, "--seed", seed];
        let (status, text) = run(&[&arguments[..], &["--only", "random"]].concat());
        assert_eq!(status, Some(0));
        ["updates", "applied", "places cleared"].map(|name| count(&text, name))
    };
    assert_eq!(counts("1", "7"), counts("3", "7"));
    assert_ne!(counts("2", "7"), counts("2", "8"));
}

/// Small books alone, every one of them.
#[test]
fn small_books_are_complete() {
    let (status, text) = run(&["--only", "small"]);
    assert_eq!(status, Some(0));
    let states: u64 = (0..=2u32)
        .flat_map(|levels| (0..=4).map(move |layers| 1u64 << (levels * layers)))
        .sum();
    // Levels, kinds, starts, ends, lengths.
    assert_eq!(count(&text, "updates"), states * 3 * 4 * 6 * 6 * 10);
    assert_eq!(count(&text, "books read"), states);
}

/// The parts that find a fault; the others may.
fn finders(plant: &str) -> &'static [&'static str] {
    match plant {
        // A small book is of no texture.
        "layers_of_depth" => &["random", "copies"],
        "ill_record_kept" => &["random", "copies"],
        // More levels or layers than there are marks for, and ends past 32 bits.
        "counts_cut" | "end_cut" => &["random"],
        // The slice of a copy has always room, its book is the texture's own, and its
        // range has a layer.
        "end_included"
        | "last_left_out"
        | "implicit_cleared"
        | "implicit_unmarked"
        | "39_of_last"
        | "written_behind"
        | "numbers_counted"
        | "layer_first"
        | "filled_by_first_level" => &["small", "random", "copies"],
        _ => &["small", "random"],
    }
}

#[test]
fn planted_faults_are_found() {
    for (plant, _) in BOOK_PLANTS {
        for part in finders(plant) {
            let arguments = ["--plant", plant, "--only", part, "--updates", "30000"];
            let (status, text) = run(&arguments);
            assert_eq!(status, Some(1), "{plant} by {part}: {text}");
            assert!(text.contains("difference 1: "), "{text}");
        }
    }
}

/// A difference is shown with what was asked and both answers.
#[test]
fn differences_are_shown() {
    let (_, text) = run(&[
        "--only",
        "small",
        "--plant",
        "numbers_counted",
        "--threads",
        "1",
    ]);
    let shown = text.split("difference 1: small, ").nth(1);
    let shown = shown.expect("the difference is shown");
    for head in ["\nasked\n", "\nexpected\n", "\nplanner\n"] {
        assert!(shown.contains(head), "{shown}");
    }
    assert!(!text.contains("difference 11:"), "{text}");
}

#[test]
fn odd_options_are_told() {
    for arguments in [
        &["--plant", "nothing"][..],
        &["--updates"],
        &["--updates", "many"],
        &["--only", "large"],
        &["--speed"],
        &["--only", "random", "--updates", "0"],
    ] {
        assert_eq!(compare(arguments).status.code(), Some(2), "{arguments:?}");
    }
}
