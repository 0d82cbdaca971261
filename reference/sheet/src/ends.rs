//! Where a copy ends in a texture, which the Rust tells wrapped to 32 bits.
//!
//! The end of a 9 and of a 10 is the sum of two numbers of 32 bits. The Rust wraps it
//! and the planner does not. Both numbers are the copy's, so that the Rust's end is
//! held to the remainder of their sum, and the sum itself is expected of a planner.
//! No other refusal is touched: the end of an 8 is a count of bytes, that of an 11 a
//! z and that of a 36 a count of samples, and the Rust tells all of these whole.

use crate::{Copy, Extent, Outcome, Refusal, Side, TextureView};

const TEXTURE_OVERRUN: u32 = 9;
const PARTIAL_TRANSFER: u32 = 10;

const SOURCE: u32 = Side::Source as u32;
const DESTINATION: u32 = Side::Destination as u32;

/// The Rust's sums are remainders by this.
const WRAP: u64 = 1 << 32;

/// The outcome of a copy that the Rust refuses.
pub(crate) fn refused(refusal: Refusal, copy: &Copy) -> Outcome {
    match with_whole_end(refusal, copy) {
        Ok(refusal) => Outcome::Refused(refusal),
        Err(words) => Outcome::Disagreed(words),
    }
}

/// The refusal with its whole end, or how it parts from the copy.
fn with_whole_end(refusal: Refusal, copy: &Copy) -> Result<Refusal, String> {
    if !matches!(refusal.number, TEXTURE_OVERRUN | PARTIAL_TRANSFER) {
        return Ok(refusal);
    }
    let Some((start, size)) = run_of(&refusal, copy) else {
        return Err(format!("no such side or dimension: {refusal:?}"));
    };
    let end = start + size;
    if (refusal.start, refusal.end) != (start, end % WRAP) {
        return Err(format!("not {size} from {start} on: {refusal:?}"));
    }
    Ok(Refusal { end, ..refusal })
}

/// Start and size of a copy on the side and along the dimension that a refusal
/// names.
fn run_of(refusal: &Refusal, copy: &Copy) -> Option<(u64, u64)> {
    let (view, size) = texture_on(refusal.side, copy)?;
    let (start, size) = match refusal.dimension {
        1 => (view.x, size.width),
        2 => (view.y, size.height),
        3 => (view.z, size.depth),
        _ => return None,
    };
    Some((start.into(), size.into()))
}

/// A copy's texture on a side, and the copy's size.
fn texture_on(side: u32, copy: &Copy) -> Option<(&TextureView, &Extent)> {
    match (side, copy) {
        (
            SOURCE,
            Copy::TextureToBuffer { source, size, .. }
            | Copy::TextureToTexture { source, size, .. },
        ) => Some((source, size)),
        (
            DESTINATION,
            Copy::BufferToTexture {
                destination, size, ..
            }
            | Copy::TextureToTexture {
                destination, size, ..
            }
            | Copy::MemoryToTexture {
                destination, size, ..
            },
        ) => Some((destination, size)),
        _ => None,
    }
}

#[cfg(test)]
mod tests {
    use super::*;
    use crate::{parse, record_copy, run_copy, Objects, Recorder};

    /// The Rust's own refusal of a sheet's copy, and what becomes of it.
    fn answers(sheet: &str) -> (Refusal, Outcome) {
        let sheet = parse(sheet.as_bytes()).expect("a good sheet");
        let (mut recorder, mut objects) = (Recorder::new(), Objects::new(&sheet));
        let copy = &sheet.copies[0];
        let recorded = record_copy(&mut recorder, &mut objects, copy);
        let outcome = run_copy(&mut recorder, &mut objects, copy);
        (recorded.expect_err("the copy is refused"), outcome)
    }

    /// A sheet of two textures, a buffer and a copy.
    fn sheet(textures: [&str; 2], copy: &str) -> String {
        let [first, second] = textures;
        format!("1\n1 1\n2\n{first}\n{second}\n1\n4096 12\n1\n{copy}\n")
    }

    /// The copies with a texture by their lines, where a box has this origin and
    /// this size, and the box's side.
    fn copy_lines(origin: [u32; 3], size: &str) -> [(String, u32); 5] {
        let [x, y, z] = origin;
        let (moved, still) = (format!("0 0 {x} {y} {z} 0"), "1 0 0 0 0 0");
        [
            (format!("2 0 0 256 4 {moved} {size}"), DESTINATION),
            (format!("3 0 0 256 4 {moved} {size}"), SOURCE),
            (format!("4 {moved} {still} {size}"), SOURCE),
            (format!("4 {still} {moved} {size}"), DESTINATION),
            (format!("5 4096 0 4 4 {moved} {size}"), DESTINATION),
        ]
    }

    /// The Rust's ends are wrapped, and the outcomes' are not.
    #[test]
    fn wrapped_ends_are_made_whole() {
        for (texture, size, number, axes) in [
            ("0 3 4 4 4 1 1 3", "4 4 4", TEXTURE_OVERRUN, 0..3),
            ("16 2 4 4 4 1 1 3", "4 4 4", TEXTURE_OVERRUN, 2..3),
            ("16 2 4 4 4 1 1 3", "4 4 4", PARTIAL_TRANSFER, 0..2),
            ("0 2 4 4 1 1 4 3", "4 4 1", PARTIAL_TRANSFER, 0..2),
        ] {
            for (axis, start) in axes.flat_map(|axis| [(axis, u32::MAX - 3), (axis, u32::MAX)]) {
                let mut origin = [0; 3];
                origin[axis] = start;
                for (line, side) in copy_lines(origin, size) {
                    let whole = Refusal {
                        number,
                        side,
                        dimension: axis as u32 + 1,
                        start: start.into(),
                        end: u64::from(start) + 4,
                        limit: 4,
                    };
                    let (rust, outcome) = answers(&sheet([texture; 2], &line));
                    let end = whole.end - (1 << 32);
                    assert_eq!(rust, Refusal { end, ..whole }, "{line}");
                    assert_eq!(outcome, Outcome::Refused(whole), "{line}");
                }
            }
        }
    }

    /// A plane is asked about after the level, so that no end there is too large.
    #[test]
    fn ends_of_plane_splits() {
        let textures = ["21 2 8 8 1 1 1 3", "1 2 8 8 1 1 1 3"];
        for (line, numbers, rust_end) in [
            ("4 0 0 1 0 0 4 1 0 0 0 0 0 4 1 1", [9, 1, 1, 1, 5, 4], 5),
            ("4 0 0 0 3 0 4 1 0 0 0 0 0 1 2 1", [9, 1, 2, 3, 5, 4], 5),
            (
                "4 0 0 4294967295 0 0 4 1 0 0 0 0 0 4 1 1",
                [9, 1, 1, 4_294_967_295, 4_294_967_299, 8],
                3,
            ),
        ] {
            let (rust, outcome) = answers(&sheet(textures, line));
            assert_eq!(rust.end, rust_end, "{line}");
            let Outcome::Refused(refusal) = outcome else {
                panic!("{line}: {outcome:?}");
            };
            assert_eq!(refusal.numbers(), numbers, "{line}");
        }
    }

    /// The Rust's ends of these are whole, above 2^32 or not.
    #[test]
    fn other_ends_are_left_as_they_are() {
        let textures = ["0 2 1 259 2 1 1 3", "0 2 1 259 1 1 4 3"];
        for (line, number, end) in [
            (
                "2 0 0 4294967040 4294967295 0 0 0 0 0 0 1 258 2",
                8,
                18_446_744_073_709_486_081,
            ),
            ("4 0 0 0 0 1 0 0 0 0 0 1 0 1 1 1", 11, 1),
            ("4 0 0 0 0 0 0 1 0 0 0 0 0 1 259 1", 36, 4),
        ] {
            let (rust, outcome) = answers(&sheet(textures, line));
            assert_eq!((rust.number, rust.end), (number, end), "{line}");
            assert_eq!(outcome, Outcome::Refused(rust), "{line}");
        }
        let (copy, _) = copies([1, 2, 3], [4; 3])[2];
        for number in (0..=38).filter(|number| !matches!(number, 9 | 10)) {
            let refusal = Refusal {
                number,
                side: SOURCE,
                dimension: 1,
                start: 1,
                end: u64::MAX,
                limit: 8,
            };
            assert_eq!(refused(refusal, &copy), Outcome::Refused(refusal));
        }
    }

    /// The same copies as those of `copy_lines`.
    fn copies(origin: [u32; 3], size: [u32; 3]) -> [(Copy, u32); 5] {
        let [width, height, depth] = size;
        copy_lines(origin, &format!("{width} {height} {depth}")).map(|(line, side)| {
            let sheet = sheet(["0 3 4 4 4 1 1 3"; 2], &line);
            let sheet = parse(sheet.as_bytes()).expect("a good sheet");
            (sheet.copies[0], side)
        })
    }

    /// Also of what the Rust does not give, such as a 10 along z.
    #[test]
    fn ends_of_another_copy_are_noticed() {
        const MAX: u32 = u32::MAX;
        let runs = [(9, 0), (1, MAX), (MAX, 1), (MAX, 2), (MAX, MAX)];
        for (axis, (start, length)) in (0..3).flat_map(|axis| runs.map(|run| (axis, run))) {
            let (mut origin, mut size) = ([0; 3], [1; 3]);
            (origin[axis], size[axis]) = (start, length);
            for (copy, side) in copies(origin, size) {
                for number in [TEXTURE_OVERRUN, PARTIAL_TRANSFER] {
                    let whole = Refusal {
                        number,
                        side,
                        dimension: axis as u32 + 1,
                        start: start.into(),
                        end: u64::from(start) + u64::from(length),
                        limit: 4,
                    };
                    hold(&copy, whole);
                }
            }
        }
    }

    /// Of a copy the one refusal is taken, and no other.
    fn hold(copy: &Copy, whole: Refusal) {
        let rust = Refusal {
            end: whole.end % (1 << 32),
            ..whole
        };
        assert_eq!(refused(rust, copy), Outcome::Refused(whole));
        let mut others = vec![];
        let mut other = |change: fn(&mut Refusal)| {
            let mut refusal = rust;
            change(&mut refusal);
            others.push(refusal);
        };
        other(|refusal| refusal.start ^= 1);
        other(|refusal| refusal.start += 1 << 32);
        other(|refusal| refusal.end ^= 1);
        other(|refusal| refusal.end += 1 << 32);
        other(|refusal| refusal.side ^= 3);
        other(|refusal| refusal.side = 0);
        other(|refusal| refusal.dimension = refusal.dimension % 3 + 1);
        other(|refusal| refusal.dimension = 0);
        for other in others {
            let outcome = refused(other, copy);
            assert!(matches!(outcome, Outcome::Disagreed(_)), "{other:?}");
        }
    }

    /// A copy between buffers has no texture that could be left.
    #[test]
    fn buffers_have_no_such_ends() {
        let buffers = Copy::BufferToBuffer {
            source: 0,
            source_offset: 0,
            destination: 1,
            destination_offset: 0,
            size: None,
        };
        for side in [SOURCE, DESTINATION] {
            let refusal = Refusal {
                number: TEXTURE_OVERRUN,
                side,
                dimension: 1,
                ..Refusal::default()
            };
            let outcome = refused(refusal, &buffers);
            assert!(matches!(outcome, Outcome::Disagreed(_)));
        }
    }
}
