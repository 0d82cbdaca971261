//! Compares a planner program with the Rust, listing by listing.

use std::io::{self, Write};
use std::path::PathBuf;
use std::process::ExitCode;
use std::time::{Duration, Instant};

use copy_sheet::{sheet_text, silence_copy_panics, MAX_COPIES};
use sheet_compare::{Comparer, Limits, Planner, Plant, Set, SETS};
use sheet_generator::{malformed_text, random_sheet, Rng};

const USAGE: &str = "\
usage: compare_sheets MODE --planner PATH [OPTION...]

Runs sheets through the program at PATH and through the Rust, and compares the
listings byte by byte; the ends that the Rust wraps to 32 bits, those of refusals
9 and 10, must be whole. MODE is

  random     random sheets, well formed
  malformed  random sheets, spoilt
  complete   complete small sets of sheets
  all        complete, malformed, then random

  --seed N         the seed of the random sheets (0)
  --sheets N       how many sheets of random and malformed each (1000); in all
                   the malformed ones only
  --copies N       copies in each random sheet, at most 256 (256)
  --seconds N      random sheets until N seconds are over; in all 60
  --set NAME       this complete set only
  --thin N         every Nth sheet of the large complete sets only (1)
  --quick          as --thin 16 --sheets 1500 --seconds 20 --limit 110
  --limit N        leave out what is left after N seconds
  --differences N  leave out what is left after N differences (100)
  --out DIR        where sheets of differences are saved (differences)
  --plant KIND     change one of the planner's listings, to see it found: digit,
                   region, range, order, absent, refusal, refused, accepted,
                   cut_bytes, cut_end, ill, newline, extra, nothing
  --plant-at N     the Nth listing that has a place for it (1)

The status is 1 if a listing differs, or a planner ends with another status than 0, runs for more than 10
seconds or writes to standard error; 2 if nothing could be compared.
";

#[derive(Clone, Copy, Eq, PartialEq)]
enum Mode {
    Random,
    Malformed,
    Complete,
    All,
}

struct Options {
    mode: Mode,
    planner: PathBuf,
    seed: u64,
    sheets: u64,
    copies: usize,
    seconds: Option<u64>,
    set: Option<String>,
    thin: u64,
    limit: Option<u64>,
    differences: u64,
    out: PathBuf,
    plant: Option<Plant>,
    plant_at: u64,
}

fn main() -> ExitCode {
    let options = match parse_options(std::env::args().skip(1)) {
        Ok(options) => options,
        Err(message) => {
            eprint!("compare_sheets: {message}\n\n{USAGE}");
            return ExitCode::from(2);
        }
    };
    silence_copy_panics();
    match run(&options) {
        Ok(status) => status,
        Err(error) => {
            eprintln!("compare_sheets: {error}");
            ExitCode::from(2)
        }
    }
}

fn parse_options(mut arguments: impl Iterator<Item = String>) -> Result<Options, String> {
    let mut options = Options {
        mode: mode(&arguments.next().ok_or("a mode is needed")?)?,
        planner: PathBuf::new(),
        seed: 0,
        sheets: 1_000,
        copies: MAX_COPIES as usize,
        seconds: None,
        set: None,
        thin: 1,
        limit: None,
        differences: 100,
        out: "differences".into(),
        plant: None,
        plant_at: 1,
    };
    while let Some(argument) = arguments.next() {
        let mut value = || {
            arguments
                .next()
                .ok_or_else(|| format!("{argument} needs a value"))
        };
        match argument.as_str() {
            "--planner" => options.planner = value()?.into(),
            "--seed" => options.seed = number(&value()?)?,
            "--sheets" => options.sheets = number(&value()?)?,
            "--copies" => options.copies = number(&value()?)? as usize,
            "--seconds" => options.seconds = Some(number(&value()?)?),
            "--set" => options.set = Some(known_set(value()?)?),
            "--thin" => options.thin = number(&value()?)?.max(1),
            "--quick" => {
                options.thin = 16;
                options.sheets = 1_500;
                options.seconds = Some(20);
                options.limit = Some(110);
            }
            "--limit" => options.limit = Some(number(&value()?)?),
            "--differences" => options.differences = number(&value()?)?,
            "--out" => options.out = value()?.into(),
            "--plant" => options.plant = Some(plant(&value()?)?),
            "--plant-at" => options.plant_at = number(&value()?)?,
            _ => return Err(format!("unknown option {argument}")),
        }
    }
    if options.planner.as_os_str().is_empty() {
        return Err("--planner is needed".into());
    }
    if options.copies > MAX_COPIES as usize {
        return Err(format!("a sheet has at most {MAX_COPIES} copies"));
    }
    Ok(options)
}

fn mode(name: &str) -> Result<Mode, String> {
    match name {
        "random" => Ok(Mode::Random),
        "malformed" => Ok(Mode::Malformed),
        "complete" => Ok(Mode::Complete),
        "all" => Ok(Mode::All),
        _ => Err(format!("unknown mode {name}")),
    }
}

fn number(text: &str) -> Result<u64, String> {
    text.parse().map_err(|_| format!("{text} is no number"))
}

fn plant(name: &str) -> Result<Plant, String> {
    Plant::from_name(name).ok_or_else(|| format!("unknown fault {name}"))
}

fn known_set(name: String) -> Result<String, String> {
    let known = SETS.iter().any(|set| set.name == name);
    known
        .then_some(name.clone())
        .ok_or_else(|| format!("unknown set {name}"))
}

fn run(options: &Options) -> io::Result<ExitCode> {
    let begin = Instant::now();
    let limits = Limits {
        differences: options.differences,
        end: options
            .limit
            .map(|limit| begin + Duration::from_secs(limit)),
    };
    let planner = Planner::new(&options.planner, Planner::LIMIT);
    let mut comparer = Comparer::new(planner, limits, options.out.clone());
    if let Some(plant) = options.plant {
        comparer.plant(plant, options.plant_at);
    }
    if matches!(options.mode, Mode::Complete | Mode::All) {
        compare_complete(&mut comparer, options)?;
    }
    if matches!(options.mode, Mode::Malformed | Mode::All) {
        compare_malformed(&mut comparer, options)?;
    }
    if matches!(options.mode, Mode::Random | Mode::All) {
        compare_random(&mut comparer, options)?;
    }
    Ok(summary(&comparer, options, begin))
}

fn compare_complete(comparer: &mut Comparer, options: &Options) -> io::Result<()> {
    let is_asked_for = |set: &&Set| options.set.as_deref().is_none_or(|name| name == set.name);
    for set in SETS.iter().filter(is_asked_for) {
        let step = if set.is_large { options.thin } else { 1 };
        let thinned = if step > 1 {
            format!(" (every {step}th sheet)")
        } else {
            String::new()
        };
        comparer.begin(&format!("complete, {}: {}{thinned}", set.name, set.about));
        let mut number = 0;
        (set.sheets)(&mut |sheet| {
            number += 1;
            if (number - 1) % step == 0 {
                comparer.compare(sheet)
            } else {
                Ok(())
            }
        })?;
    }
    Ok(())
}

/// The same sheets as those of `generate_sheets --malformed`.
fn compare_malformed(comparer: &mut Comparer, options: &Options) -> io::Result<()> {
    comparer.begin(&format!("malformed, seed {}", options.seed));
    for number in 0..options.sheets {
        let text = sheet_text(&random_sheet(options.seed, number, options.copies));
        let rng = &mut Rng::for_sheet(!options.seed, number);
        comparer.compare(&malformed_text(rng, &text))?;
    }
    Ok(())
}

fn compare_random(comparer: &mut Comparer, options: &Options) -> io::Result<()> {
    let begin = Instant::now();
    comparer.begin(&format!("random, seed {}", options.seed));
    let seconds = match options.mode {
        Mode::All => Some(options.seconds.unwrap_or(60)),
        _ => options.seconds,
    };
    let is_done = |number: u64| match seconds {
        Some(seconds) => begin.elapsed() >= Duration::from_secs(seconds),
        None => number >= options.sheets,
    };
    let mut number = 0;
    while !is_done(number) && !comparer.is_over() {
        let sheet = random_sheet(options.seed, number, options.copies);
        comparer.compare(&sheet_text(&sheet))?;
        number += 1;
    }
    Ok(())
}

/// Prints what was counted; the status tells it to those who do not read.
fn summary(comparer: &Comparer, options: &Options, begin: Instant) -> ExitCode {
    let total = comparer.total();
    let misses_fault = options.plant.is_some() && comparer.waits_to_plant();
    let mut text = String::from(
        "columns: buffer to buffer, buffer to texture, texture to buffer, texture to texture, \
         memory to texture\n",
    );
    for (name, tally) in comparer.sets() {
        text += &format!("{name}\n  {tally}");
    }
    text += &format!("total\n  {total}");
    if total.left_out > 0 {
        text += &format!("{} sheets were left out\n", total.left_out);
    }
    if misses_fault {
        text += "no listing had a place for the fault\n";
    }
    text += &format!(
        "{} sheets, {} copies, differences {}, in {:.1} s\n",
        total.sheets,
        total.copies.iter().sum::<u64>(),
        total.differences,
        begin.elapsed().as_secs_f64()
    );
    // Whoever read it has seen enough of it.
    let _ = io::stdout().write_all(text.as_bytes());
    match (total.differences, total.sheets) {
        _ if misses_fault => ExitCode::from(2),
        (0, 0) => ExitCode::from(2),
        (0, _) => ExitCode::SUCCESS,
        _ => ExitCode::FAILURE,
    }
}
