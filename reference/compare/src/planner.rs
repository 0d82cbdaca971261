//! A planner program, started once for each sheet.

use std::io::{self, Read, Write};
use std::path::{Path, PathBuf};
use std::process::{Child, Command, ExitStatus, Stdio};
use std::sync::mpsc;
use std::thread;
use std::time::{Duration, Instant};

/// What is kept of a planner's standard error.
const KEPT_ERROR_BYTES: u64 = 1_000;

/// How often a program that has closed its output is asked whether it ended.
const ASKING: Duration = Duration::from_micros(50);

/// A program that reads a sheet on standard input and prints its listing.
#[derive(Clone, Debug)]
pub struct Planner {
    program: PathBuf,
    limit: Duration,
}

/// What a planner said to a sheet.
#[derive(Debug)]
pub struct Answer {
    pub listing: Vec<u8>,
    /// A crash, a hang, or words on standard error.
    pub trouble: Option<String>,
}

impl Planner {
    /// The longest that a planner may take for a sheet.
    pub const LIMIT: Duration = Duration::from_secs(10);

    pub fn new(program: &Path, limit: Duration) -> Self {
        Self {
            program: program.to_path_buf(),
            limit,
        }
    }

    /// Runs the program on a sheet. No more than `most_bytes` of its listing
    /// are read.
    pub fn answer(&self, sheet: &[u8], most_bytes: usize) -> io::Result<Answer> {
        let deadline = Instant::now() + self.limit;
        let mut child = Command::new(&self.program)
            .stdin(Stdio::piped())
            .stdout(Stdio::piped())
            .stderr(Stdio::piped())
            .spawn()
            .map_err(|error| self.not_started(&error))?;
        let mut input = child.stdin.take().expect("a pipe");
        let output = child.stdout.take().expect("a pipe");
        let errors = child.stderr.take().expect("a pipe");
        let (done, outputs_done) = mpsc::channel();
        thread::scope(|scope| {
            // A sheet that is too long need not be read to its end.
            scope.spawn(move || {
                let _ = input.write_all(sheet);
            });
            let errors = scope.spawn(move || read_some(errors, KEPT_ERROR_BYTES));
            let listing = scope.spawn(move || {
                let listing = read_some(output, most_bytes as u64);
                let _ = done.send(());
                listing
            });
            // Past the limit the program is ended, which ends the reading.
            let in_time = outputs_done.recv_timeout(self.limit).is_ok();
            let status = end_of(&mut child, if in_time { deadline } else { Instant::now() })?;
            let errors = errors.join().expect("reading does not panic")?;
            let listing = listing.join().expect("reading does not panic")?;
            Ok(Answer {
                listing,
                trouble: trouble(status, &errors, self.limit),
            })
        })
    }

    fn not_started(&self, error: &io::Error) -> io::Error {
        let program = self.program.display();
        io::Error::new(error.kind(), format!("{program} does not start: {error}"))
    }
}

fn read_some(source: impl Read, most_bytes: u64) -> io::Result<Vec<u8>> {
    let mut bytes = Vec::new();
    source.take(most_bytes).read_to_end(&mut bytes)?;
    Ok(bytes)
}

/// The status of a program that ends by itself before a deadline.
fn end_of(child: &mut Child, deadline: Instant) -> io::Result<Option<ExitStatus>> {
    loop {
        if let Some(status) = child.try_wait()? {
            return Ok(Some(status));
        }
        if Instant::now() >= deadline {
            child.kill()?;
            child.wait()?;
            return Ok(None);
        }
        thread::sleep(ASKING);
    }
}

fn trouble(status: Option<ExitStatus>, errors: &[u8], limit: Duration) -> Option<String> {
    let ending = match status {
        None => Some(format!("it ran for more than {limit:?}")),
        Some(status) if status.success() => None,
        Some(status) => Some(format!("it ended with {status}")),
    };
    let words = (!errors.is_empty()).then(|| {
        let text = String::from_utf8_lossy(errors);
        format!("it wrote to standard error: {}", text.trim_end())
    });
    match (ending, words) {
        (Some(ending), Some(words)) => Some(format!("{ending}; {words}")),
        (ending, words) => ending.or(words),
    }
}
