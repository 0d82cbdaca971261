//! Writes random job sheets, or counts what the Rust says to them.

use std::fs;
use std::io::{self, BufWriter, ErrorKind, Write};
use std::path::PathBuf;
use std::process::ExitCode;

use copy_sheet::{sheet_text, silence_copy_panics, MAX_COPIES};
use sheet_generator::{malformed_text, random_sheet, Coverage, Rng};

const USAGE: &str = "\
usage: generate_sheets [--seed N] [--sheets N] [--copies N] [--malformed]
                       [--out DIR | --coverage]

Writes random sheets to DIR/00000000.sheet and so on, or to standard output,
each after a line `sheet K LENGTH` that gives its number and bytes.

  --seed N     the seed of the run (0)
  --sheets N   how many sheets (1)
  --copies N   copies in each sheet, at most 256 (64)
  --malformed  sheets spoilt by cuts, odd bytes, odd fields and odd lines
  --coverage   run the sheets through the Rust and print a table of outcomes
";

struct Options {
    seed: u64,
    sheets: u64,
    copies: usize,
    malformed: bool,
    coverage: bool,
    out: Option<PathBuf>,
}

fn main() -> ExitCode {
    let options = match parse_options(std::env::args().skip(1)) {
        Ok(options) => options,
        Err(message) => {
            eprint!("generate_sheets: {message}\n\n{USAGE}");
            return ExitCode::FAILURE;
        }
    };
    match run(&options) {
        Ok(()) => ExitCode::SUCCESS,
        Err(error) if error.kind() == ErrorKind::BrokenPipe => ExitCode::SUCCESS,
        Err(error) => {
            eprintln!("generate_sheets: {error}");
            ExitCode::FAILURE
        }
    }
}

fn parse_options(mut arguments: impl Iterator<Item = String>) -> Result<Options, String> {
    let mut options = Options {
        seed: 0,
        sheets: 1,
        copies: 64,
        malformed: false,
        coverage: false,
        out: None,
    };
    while let Some(argument) = arguments.next() {
        let mut value = || {
            arguments
                .next()
                .ok_or_else(|| format!("{argument} needs a value"))
        };
        match argument.as_str() {
            "--seed" => options.seed = number(&value()?)?,
            "--sheets" => options.sheets = number(&value()?)?,
            "--copies" => options.copies = number(&value()?)? as usize,
            "--malformed" => options.malformed = true,
            "--coverage" => options.coverage = true,
            "--out" => options.out = Some(value()?.into()),
            _ => return Err(format!("unknown option {argument}")),
        }
    }
    if options.copies > MAX_COPIES as usize {
        return Err(format!("a sheet has at most {MAX_COPIES} copies"));
    }
    if options.coverage && (options.malformed || options.out.is_some()) {
        return Err("--coverage goes with neither --malformed nor --out".into());
    }
    Ok(options)
}

fn number(text: &str) -> Result<u64, String> {
    text.parse().map_err(|_| format!("{text} is no number"))
}

fn run(options: &Options) -> io::Result<()> {
    if options.coverage {
        return print_coverage(options);
    }
    match &options.out {
        Some(folder) => {
            fs::create_dir_all(folder)?;
            for k in 0..options.sheets {
                fs::write(folder.join(format!("{k:08}.sheet")), text(options, k))?;
            }
            Ok(())
        }
        None => {
            let mut output = BufWriter::new(io::stdout().lock());
            for k in 0..options.sheets {
                let text = text(options, k);
                writeln!(output, "sheet {k} {}", text.len())?;
                output.write_all(&text)?;
            }
            output.flush()
        }
    }
}

fn text(options: &Options, k: u64) -> Vec<u8> {
    let text = sheet_text(&random_sheet(options.seed, k, options.copies));
    if options.malformed {
        malformed_text(&mut Rng::for_sheet(!options.seed, k), &text)
    } else {
        text
    }
}

fn print_coverage(options: &Options) -> io::Result<()> {
    silence_copy_panics();
    let mut coverage = Coverage::new();
    for k in 0..options.sheets {
        coverage.count_sheet(&random_sheet(options.seed, k, options.copies));
    }
    let mut output = io::stdout().lock();
    write!(output, "{coverage}")?;
    for trouble in &coverage.troubles {
        writeln!(output, "{trouble}")?;
    }
    Ok(())
}
