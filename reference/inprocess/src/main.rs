//! Compares the planner, linked into this program, with the Rust, copy by copy.

use std::io::{self, Write};
use std::process::ExitCode;
use std::thread;
use std::time::Instant;

use copy_compare::{Comparer, Plant, Reports, Tally, PLANTS, SMALL};
use copy_sheet::{parse, silence_copy_panics, CopyKind};
use sheet_compare::{Set, SETS};
use sheet_generator::random_sheet;

const USAGE: &str = "\
usage: compare_copies [OPTION...]

Runs copies through the Rust's functions and through the planner's, in one
process, and compares the answers: a refusal's six numbers, or the bytes
checked, the ranges, and the regions as they are asked for and as they are
written. The copies are those of complete small sets, then random ones.
A write from memory is asked of the Rust in two ways, which must agree. The ends
that the Rust wraps to 32 bits, those of refusals 9 and 10, must be whole.

  --copies N    how many random copies (1000000)
  --kind N      of all copies only those of this kind, 1 to 5
  --seed N      the seed of the random copies (0)
  --threads N   how many threads (one for each core)
  --no-sets     the random copies only
  --plant NAME  change one of the planner's answers, to see it found
  --plant-at N  the Nth answer that has a place for it (1)

The status is 1 if an answer differs or the Rust panics; 2 if nothing could be
compared.
";

/// Copies of a random sheet: new records come often, and making them costs little.
const SHEET_COPIES: u64 = 256;

struct Options {
    copies: u64,
    kind: Option<CopyKind>,
    seed: u64,
    threads: u64,
    sets: bool,
    plant: Option<Plant>,
    plant_at: u64,
}

fn main() -> ExitCode {
    let options = match parse_options(std::env::args().skip(1)) {
        Ok(options) => options,
        Err(message) => {
            eprint!("compare_copies: {message}\n\n{USAGE}\nFaults to plant:");
            for plant in PLANTS {
                eprint!(" {}", plant.name);
            }
            eprintln!();
            return ExitCode::from(2);
        }
    };
    silence_copy_panics();
    run(&options)
}

fn parse_options(mut arguments: impl Iterator<Item = String>) -> Result<Options, String> {
    let cores = thread::available_parallelism().map_or(1, |cores| cores.get() as u64);
    let mut options = Options {
        copies: 1_000_000,
        kind: None,
        seed: 0,
        threads: cores,
        sets: true,
        plant: None,
        plant_at: 1,
    };
    while let Some(argument) = arguments.next() {
        let mut value = || {
            arguments
                .next()
                .ok_or_else(|| format!("{argument} needs a value"))
        };
        match argument.as_str() {
            "--copies" => options.copies = number(&value()?)?,
            "--kind" => options.kind = Some(kind(&value()?)?),
            "--seed" => options.seed = number(&value()?)?,
            "--threads" => options.threads = number(&value()?)?.max(1),
            "--no-sets" => options.sets = false,
            "--plant" => options.plant = Some(plant(&value()?)?),
            "--plant-at" => options.plant_at = number(&value()?)?,
            _ => return Err(format!("unknown option {argument}")),
        }
    }
    Ok(options)
}

fn number(text: &str) -> Result<u64, String> {
    text.parse().map_err(|_| format!("{text} is no number"))
}

fn kind(text: &str) -> Result<CopyKind, String> {
    let place = number(text)?.checked_sub(1);
    let kind = place.and_then(|place| CopyKind::ALL.get(place as usize));
    kind.copied().ok_or_else(|| format!("no kind {text}"))
}

fn plant(name: &str) -> Result<Plant, String> {
    Plant::from_name(name).ok_or_else(|| format!("unknown fault {name}"))
}

fn run(options: &Options) -> ExitCode {
    let begin = Instant::now();
    let reports = Reports::default();
    let mut total = Tally::default();
    let mut misses_fault = false;
    thread::scope(|scope| {
        let start = |worker| {
            scope.spawn({
                let reports = &reports;
                move || work(options, worker, reports)
            })
        };
        let workers: Vec<_> = (0..options.threads).map(start).collect();
        for worker in workers {
            let (tally, waits_to_plant) = worker.join().expect("no worker panics");
            total.add(&tally);
            misses_fault |= waits_to_plant;
        }
    });
    let text = summary(options, &total, misses_fault, begin);
    // Whoever read it has seen enough of it.
    let _ = io::stdout().write_all(text.as_bytes());
    match (total.differences, total.total()) {
        _ if misses_fault => ExitCode::from(2),
        (0, 0) => ExitCode::from(2),
        (0, _) => ExitCode::SUCCESS,
        _ => ExitCode::FAILURE,
    }
}

fn summary(options: &Options, total: &Tally, misses_fault: bool, begin: Instant) -> String {
    let (copies, seconds) = (total.total(), begin.elapsed().as_secs_f64());
    let mut text = total.to_string();
    if misses_fault {
        text += "no answer had a place for the fault\n";
    }
    text += &format!(
        "seed {}, {} threads, {seconds:.1} s, {:.0} copies a second\n",
        options.seed,
        options.threads,
        copies as f64 / seconds
    );
    text + &format!(
        "{copies} copies compared, {} differences\n",
        total.differences
    )
}

/// One worker's share: every so many-th sheet. Also says whether a fault still
/// waits to be planted.
fn work(options: &Options, worker: u64, reports: &Reports) -> (Tally, bool) {
    let mut comparer = Comparer::new(reports);
    if let Some(plant) = options.plant.filter(|_| worker == 0) {
        comparer.plant(plant, options.plant_at);
    }
    if let Some(kind) = options.kind {
        comparer.compare_only(kind);
    }
    if options.sets {
        for set in SETS.iter().chain([&SMALL]) {
            let compared = compare_set(&mut comparer, set, options.threads, worker);
            compared.expect("comparing does no input or output");
        }
    }
    compare_random(&mut comparer, options, worker);
    (comparer.tally().clone(), comparer.waits_to_plant())
}

/// Compares the sheets of a set that are well formed.
fn compare_set(comparer: &mut Comparer, set: &Set, threads: u64, worker: u64) -> io::Result<()> {
    let mut number = 0;
    (set.sheets)(&mut |text| {
        if number % threads == worker {
            if let Ok(sheet) = parse(text) {
                comparer.compare_sheet(format_args!("set {}, sheet {number}", set.name), &sheet);
            }
        }
        number += 1;
        Ok(())
    })
}

fn compare_random(comparer: &mut Comparer, options: &Options, worker: u64) {
    let sheets = options.copies.div_ceil(SHEET_COPIES);
    for number in (worker..sheets).step_by(options.threads as usize) {
        let copies = SHEET_COPIES.min(options.copies - number * SHEET_COPIES);
        let sheet = random_sheet(options.seed, number, copies as usize);
        let name = format_args!("random, seed {}, sheet {number}", options.seed);
        comparer.compare_sheet(name, &sheet);
    }
}
