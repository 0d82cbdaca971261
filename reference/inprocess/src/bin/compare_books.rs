//! Compares the planner's books, linked into this program, with a model and with
//! the Rust's tracker of what is initialised.

use std::io::{self, Write};
use std::process::ExitCode;
use std::thread;
use std::time::Instant;

use copy_compare::{plant_from_name, BookComparer, BookTally, Functions, Reports};
use copy_compare::{BOOK_PLANTS, BOOK_UPDATES, PLANNER};
use copy_sheet::silence_copy_panics;
use sheet_generator::{random_sheet, Rng};

const USAGE: &str = "\
usage: compare_books [OPTION...]

Asks the planner for books of textures, applies ranges to them, and compares each
answer, every mark and every number of the slice with a model; and where a range is
applied to a book whose texture the Rust's own tracker follows, the places to be
cleared with what that tracker drains. The ranges are all those of small books in
every state, then random ones on books from creation and on books with stray counts and
marks, then those of random accepted copies.

  --updates N   how many random updates, in steps of 512 (1000000); with every 512
                come the ranges of 128 random copies
  --seed N      the seed of what is random (0)
  --threads N   how many threads (one for each core)
  --only PART   only one part: small, random or copies
  --plant NAME  a planner with a fault, to see it found

Ends early where 1000 answers differ. The status is 1 if one differs; 2 if nothing
could be compared.
";

/// Copies of a sheet.
const COPIES: usize = 128;

/// Keeps the random updates apart from their sheet.
const UPDATES_SEED: u64 = 0x626f_6f6b;

#[derive(Clone, Copy, Eq, PartialEq)]
enum Part {
    Small,
    Random,
    Copies,
}

const PARTS: [(&str, Part); 3] = [
    ("small", Part::Small),
    ("random", Part::Random),
    ("copies", Part::Copies),
];

struct Options {
    updates: u64,
    seed: u64,
    threads: u64,
    only: Option<Part>,
    functions: Functions,
}

impl Options {
    fn has(&self, part: Part) -> bool {
        self.only.is_none_or(|only| only == part)
    }
}

fn main() -> ExitCode {
    let options = match parse_options(std::env::args().skip(1)) {
        Ok(options) => options,
        Err(message) => {
            eprint!("compare_books: {message}\n\n{USAGE}\nFaults to plant:");
            for (name, _) in BOOK_PLANTS {
                eprint!(" {name}");
            }
            eprintln!();
            return ExitCode::from(2);
        }
    };
    silence_copy_panics();
    run(&options)
}

fn parse_options(mut arguments: impl Iterator<Item = String>) -> Result<Options, String> {
    let cores = thread::available_parallelism().map_or(1, |cores| cores.get() as u64);
    let mut options = Options {
        updates: 1_000_000,
        seed: 0,
        threads: cores,
        only: None,
        functions: PLANNER,
    };
    while let Some(argument) = arguments.next() {
        let mut value = || {
            arguments
                .next()
                .ok_or_else(|| format!("{argument} needs a value"))
        };
        match argument.as_str() {
            "--updates" => options.updates = number(&value()?)?,
            "--seed" => options.seed = number(&value()?)?,
            "--threads" => options.threads = number(&value()?)?.max(1),
            "--only" => options.only = Some(part(&value()?)?),
            "--plant" => options.functions = plant(&value()?)?,
            _ => return Err(format!("unknown option {argument}")),
        }
    }
    Ok(options)
}

fn number(text: &str) -> Result<u64, String> {
    text.parse().map_err(|_| format!("{text} is no number"))
}

fn part(text: &str) -> Result<Part, String> {
    let found = PARTS.into_iter().find(|(name, _)| *name == text);
    found.map_or_else(|| Err(format!("no part {text}")), |(_, part)| Ok(part))
}

fn plant(name: &str) -> Result<Functions, String> {
    plant_from_name(name).ok_or_else(|| format!("unknown fault {name}"))
}

fn run(options: &Options) -> ExitCode {
    let begin = Instant::now();
    let reports = Reports::default();
    let mut total = BookTally::default();
    thread::scope(|scope| {
        let start = |worker| {
            scope.spawn({
                let reports = &reports;
                move || work(options, worker, reports)
            })
        };
        let workers: Vec<_> = (0..options.threads).map(start).collect();
        for worker in workers {
            total.add(&worker.join().expect("no worker panics"));
        }
    });
    let (asked, seconds) = (total.records + total.updates, begin.elapsed().as_secs_f64());
    let text = format!(
        "{total}seed {}, {} threads, {seconds:.1} s\n{} updates compared, {} differences\n",
        options.seed, options.threads, total.updates, total.differences
    );
    // Whoever read it has seen enough of it.
    let _ = io::stdout().write_all(text.as_bytes());
    match (total.differences, asked) {
        (0, 0) => ExitCode::from(2),
        (0, _) => ExitCode::SUCCESS,
        _ => ExitCode::FAILURE,
    }
}

/// One worker's share: every so many-th small book, and every so many-th sheet.
fn work(options: &Options, worker: u64, reports: &Reports) -> BookTally {
    let mut comparer = BookComparer::new(options.functions, reports);
    if options.has(Part::Small) {
        comparer.compare_small(worker, options.threads);
    }
    let sheets = options.updates.div_ceil(BOOK_UPDATES as u64);
    for number in (worker..sheets).step_by(options.threads as usize) {
        if comparer.has_seen_enough() {
            break;
        }
        let sheet = random_sheet(options.seed, number, COPIES);
        let name = format_args!("random, seed {}, sheet {number}", options.seed);
        if options.has(Part::Random) {
            let rng = &mut Rng::for_sheet(options.seed ^ UPDATES_SEED, number);
            comparer.compare_sequences(&name, &sheet, rng);
        }
        if options.has(Part::Copies) {
            comparer.compare_copies(&name, &sheet);
        }
    }
    comparer.tally().clone()
}
