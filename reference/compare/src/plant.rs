//! Faults planted in a planner's answer, to see that the comparison finds them.

/// The places of a refusal's number and end among the words of its line.
const NUMBER: usize = 3;
const END: usize = 7;

/// A fault of a listing.
#[derive(Clone, Copy, Debug, Eq, PartialEq)]
pub enum Plant {
    /// The last digit is another.
    Digit,
    /// A region is missing.
    Region,
    /// A range is missing.
    Range,
    /// Two lines of an answer that follow each other are swapped.
    Order,
    /// An absent stride is printed as 0.
    Absent,
    /// A refusal has another number.
    Refusal,
    /// A refused copy is accepted.
    Refused,
    /// An accepted copy is refused.
    Accepted,
    /// The bytes of an 8 are taken modulo 2^32.
    CutBytes,
    /// The end of a 9 or 10 is wrapped to 32 bits, as the Rust has it.
    CutEnd,
    /// An ill sheet's line has another number.
    Ill,
    /// The last newline is missing.
    Newline,
    /// A newline follows the last line.
    Extra,
    /// Nothing is printed.
    Nothing,
}

impl Plant {
    pub const ALL: [(&'static str, Self); 14] = [
        ("digit", Self::Digit),
        ("region", Self::Region),
        ("range", Self::Range),
        ("order", Self::Order),
        ("absent", Self::Absent),
        ("refusal", Self::Refusal),
        ("refused", Self::Refused),
        ("accepted", Self::Accepted),
        ("cut_bytes", Self::CutBytes),
        ("cut_end", Self::CutEnd),
        ("ill", Self::Ill),
        ("newline", Self::Newline),
        ("extra", Self::Extra),
        ("nothing", Self::Nothing),
    ];

    pub fn from_name(name: &str) -> Option<Self> {
        let found = Self::ALL.iter().find(|(other, _)| *other == name);
        found.map(|(_, plant)| *plant)
    }

    /// Puts the fault into a listing; false if the listing has no place for it.
    pub fn put_into(self, listing: &mut Vec<u8>) -> bool {
        if matches!(self, Self::Extra) {
            listing.push(b'\n');
            return true;
        }
        match self.changed(listing) {
            Some(changed) => {
                *listing = changed;
                true
            }
            None => false,
        }
    }

    fn changed(self, listing: &[u8]) -> Option<Vec<u8>> {
        match self {
            Self::Digit => with_last_digit_changed(listing),
            Self::Region => without_line(listing, |line| line.starts_with(b"r ")),
            Self::Range => without_line(listing, |line| {
                line.starts_with(b"t ") || line.starts_with(b"b ")
            }),
            Self::Order => with_lines_swapped(listing),
            Self::Absent => with_line(listing, |line| {
                let place = line.iter().position(|byte| *byte == b'-')?;
                let mut changed = line.to_vec();
                changed[place] = b'0';
                line.starts_with(b"r ").then_some(changed)
            }),
            Self::Refusal => with_line(listing, |line| {
                let number = field(line, "refused", NUMBER)?;
                Some(replace_field(line, NUMBER, &(number + 1).to_string()))
            }),
            Self::Refused => with_line(listing, |line| {
                field(line, "refused", 1)?;
                Some(format!("{} ok 0 0 0\n", first_words(line)).into_bytes())
            }),
            Self::Accepted => with_line(listing, |line| {
                field(line, "ok", 1)?;
                Some(format!("{} refused 1 0 0 0 0 0\n", first_words(line)).into_bytes())
            }),
            Self::CutBytes => with_line(listing, |line| with_cut_end(line, &[8])),
            Self::CutEnd => with_line(listing, |line| with_cut_end(line, &[9, 10])),
            Self::Ill => with_line(listing, |line| {
                let number = line.strip_prefix(b"sheet ")?;
                let number: u64 = std::str::from_utf8(number).ok()?.trim_end().parse().ok()?;
                Some(format!("sheet {}\n", number + 1).into_bytes())
            }),
            Self::Newline => listing.strip_suffix(b"\n").map(<[u8]>::to_vec),
            Self::Extra => unreachable!("it fits every listing"),
            Self::Nothing => (!listing.is_empty()).then(Vec::new),
        }
    }
}

/// The lines of a listing, each with its newline.
fn lines(listing: &[u8]) -> Vec<&[u8]> {
    listing.split_inclusive(|byte| *byte == b'\n').collect()
}

fn with_last_digit_changed(listing: &[u8]) -> Option<Vec<u8>> {
    let place = listing.iter().rposition(u8::is_ascii_digit)?;
    let mut changed = listing.to_vec();
    changed[place] = b'0' + (changed[place] - b'0' + 1) % 10;
    Some(changed)
}

/// The listing with the first line that can be changed.
fn with_line(listing: &[u8], change: impl Fn(&[u8]) -> Option<Vec<u8>>) -> Option<Vec<u8>> {
    let lines = lines(listing);
    let (place, changed) = lines
        .iter()
        .enumerate()
        .find_map(|(place, line)| change(line).map(|changed| (place, changed)))?;
    let (before, after) = (lines[..place].concat(), lines[place + 1..].concat());
    Some([before, changed, after].concat())
}

fn without_line(listing: &[u8], is_meant: impl Fn(&[u8]) -> bool) -> Option<Vec<u8>> {
    with_line(listing, |line| is_meant(line).then(Vec::new))
}

fn with_lines_swapped(listing: &[u8]) -> Option<Vec<u8>> {
    let mut lines = lines(listing);
    let is_detail = |line: &[u8]| !line.starts_with(b"copy") && !line.starts_with(b"sheet");
    let place = lines
        .windows(2)
        .position(|pair| is_detail(pair[0]) && is_detail(pair[1]) && pair[0] != pair[1])?;
    lines.swap(place, place + 1);
    Some(lines.concat())
}

/// The number in a field of a copy's first line, if its third word is this one.
fn field(line: &[u8], word: &str, place: usize) -> Option<u64> {
    let text = std::str::from_utf8(line).ok()?;
    let words: Vec<&str> = text.split_whitespace().collect();
    if words.first() != Some(&"copy") || words.get(2) != Some(&word) {
        return None;
    }
    words.get(place)?.parse().ok()
}

/// A refusal's line with the remainder of its end by 2^32, if it has one of these
/// numbers and so large an end.
fn with_cut_end(line: &[u8], numbers: &[u64]) -> Option<Vec<u8>> {
    const WRAP: u64 = 1 << 32;
    let number = field(line, "refused", NUMBER)?;
    let end = field(line, "refused", END)?;
    let has_place = numbers.contains(&number) && end >= WRAP;
    has_place.then(|| replace_field(line, END, &(end % WRAP).to_string()))
}

fn replace_field(line: &[u8], place: usize, value: &str) -> Vec<u8> {
    let text = String::from_utf8_lossy(line);
    let mut words: Vec<&str> = text.split_whitespace().collect();
    words[place] = value;
    (words.join(" ") + "\n").into_bytes()
}

/// `copy` and its number.
fn first_words(line: &[u8]) -> String {
    let text = String::from_utf8_lossy(line);
    let words: Vec<&str> = text.split_whitespace().take(2).collect();
    words.join(" ")
}
