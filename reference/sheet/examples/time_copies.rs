//! Times one accepted copy of each kind: the Rust's function alone, and with
//! the bytes it was checked for. A write from memory is asked twice then.

use std::hint::black_box;
use std::time::Instant;

use copy_sheet::{parse, record_copy, run_copy, Copy, Objects, Recorder};

const CALLS: u32 = 5_000_000;

const SHEET: &[u8] = b"1
1 1
2
2 2 8 8 2 1 1 3
2 2 8 8 2 1 1 3
2
4096 12
4096 12
5
1 0 0 1 0 256
2 0 0 256 8 0 0 0 0 0 0 8 8 2
3 0 0 256 8 0 0 0 0 0 0 8 8 2
4 0 0 0 0 0 0 1 0 0 0 0 0 8 8 2
5 4096 0 256 8 0 0 0 0 0 0 8 8 2
";

fn main() {
    let sheet = parse(SHEET).expect("the sheet is well formed");
    let mut objects = Objects::new(&sheet);
    let mut recorder = Recorder::new();
    for copy in &sheet.copies {
        let alone = nanoseconds(copy, |copy| {
            record_copy(&mut recorder, &mut objects, copy).is_ok()
        });
        let with_bytes = nanoseconds(copy, |copy| run_copy(&mut recorder, &mut objects, copy));
        println!(
            "{:?}: {alone:.1} ns, with bytes checked {with_bytes:.1} ns",
            copy.kind()
        );
    }
}

fn nanoseconds<R>(copy: &Copy, mut call: impl FnMut(&Copy) -> R) -> f64 {
    let start = Instant::now();
    for _ in 0..CALLS {
        black_box(call(black_box(copy)));
    }
    start.elapsed().as_nanos() as f64 / f64::from(CALLS)
}
