//! Writes a fixed list of sheets with the Rust's answers, ends of 9 and 10 made
//! whole.

use std::fs;
use std::io::{self, Write};
use std::path::{Path, PathBuf};
use std::process::ExitCode;

use copy_sheet::{silence_copy_panics, Refusal};
use sheet_compare::{replay_items, replay_text, Replay, REACHABLE};

const USAGE: &str = "\
usage: write_replay --out DIR

Writes DIR/0000.sheet, DIR/0000.listing and so on, and all of them as one file
DIR/replay.txt: for each sheet a line `sheet N M` with the bytes of the sheet and
of its listing, then the sheet, then the listing; at the end a line `end`.
";

fn main() -> ExitCode {
    let arguments: Vec<String> = std::env::args().skip(1).collect();
    let [option, folder] = arguments.as_slice() else {
        eprint!("{USAGE}");
        return ExitCode::FAILURE;
    };
    if option != "--out" {
        eprint!("{USAGE}");
        return ExitCode::FAILURE;
    }
    silence_copy_panics();
    let replay = replay_items();
    if let Err(error) = write(&replay, &PathBuf::from(folder)) {
        eprintln!("write_replay: {error}");
        return ExitCode::FAILURE;
    }
    let (text, is_complete) = coverage(&replay);
    // Whoever read it has seen enough of it.
    let _ = io::stdout().write_all(text.as_bytes());
    if is_complete {
        ExitCode::SUCCESS
    } else {
        ExitCode::FAILURE
    }
}

fn write(replay: &Replay, folder: &Path) -> io::Result<()> {
    fs::create_dir_all(folder)?;
    for (number, item) in replay.items.iter().enumerate() {
        fs::write(folder.join(format!("{number:04}.sheet")), &item.sheet)?;
        fs::write(folder.join(format!("{number:04}.listing")), &item.listing)?;
    }
    fs::write(folder.join("replay.txt"), replay_text(&replay.items))
}

/// The refusals found for each kind, and whether none is missing.
fn coverage(replay: &Replay) -> (String, bool) {
    let bytes = replay_text(&replay.items).len();
    let mut text = format!("{} sheets, {bytes} bytes\n", replay.items.len());
    let mut is_complete = true;
    for (kind, reachable) in REACHABLE {
        let (has, has_not): (Vec<usize>, Vec<usize>) =
            (1..=Refusal::LAST).partition(|number| replay.has(kind, *number));
        let (missing, unreachable): (Vec<usize>, Vec<usize>) = has_not
            .iter()
            .partition(|number| reachable.contains(number));
        text += &format!("{kind:?}\n  covered: {}\n", list(&has));
        text += &format!("  cannot be reached: {}\n", list(&unreachable));
        if !missing.is_empty() {
            text += &format!("  missing: {}\n", list(&missing));
            is_complete = false;
        }
    }
    (text, is_complete)
}

fn list(numbers: &[usize]) -> String {
    let words: Vec<String> = numbers.iter().map(usize::to_string).collect();
    words.join(" ")
}
