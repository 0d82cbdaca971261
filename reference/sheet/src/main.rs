//! Reads a job sheet on standard input and prints its listing, as the copy
//! functions of wgpu-core decide it; ends that they wrap to 32 bits are whole.

use std::io::{self, BufWriter, ErrorKind, Read, Write};
use std::process::ExitCode;

use copy_sheet::{silence_copy_panics, write_listing, MAX_SHEET_BYTES};

fn main() -> ExitCode {
    silence_copy_panics();
    match run() {
        Ok(()) => ExitCode::SUCCESS,
        // Whoever read the listing has seen enough of it.
        Err(error) if error.kind() == ErrorKind::BrokenPipe => ExitCode::SUCCESS,
        Err(error) => {
            // Nothing is left to be told of a closed standard error.
            let _ = writeln!(io::stderr(), "reference_sheet: {error}");
            ExitCode::FAILURE
        }
    }
}

fn run() -> io::Result<()> {
    let mut sheet = Vec::new();
    // One byte more than allowed tells a sheet that is too long.
    let most_bytes = MAX_SHEET_BYTES as u64 + 1;
    io::stdin().take(most_bytes).read_to_end(&mut sheet)?;
    let mut output = BufWriter::new(io::stdout().lock());
    write_listing(&sheet, &mut output)?;
    output.flush()
}
