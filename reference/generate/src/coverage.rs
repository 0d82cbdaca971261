//! What the copy functions said to the copies of many sheets, counted.

use std::fmt;

use copy_sheet::{
    run_copy, Copy, CopyKind, InitAction, MemoryInitKind, Objects, Outcome, Recorder, Refusal,
    Sheet, Texture, TextureView,
};

use crate::records::NV12;

const NUMBERS: usize = Refusal::LAST + 1;
const KINDS: usize = CopyKind::ALL.len();

/// More panics and disagreements than these are counted only.
const KEPT_TROUBLES: usize = 20;

/// Counts of the outcomes of copies, by kind.
#[derive(Debug)]
pub struct Coverage {
    sheets: u64,
    with_regions: [u64; KINDS],
    zero_sized: [u64; KINDS],
    refused: [[u64; KINDS]; NUMBERS],
    panicked: [u64; KINDS],
    disagreed: [u64; KINDS],
    /// Writes from memory to which the order of checks makes a difference.
    usage_asked_first: u64,
    /// The traits of the accepted copies with regions.
    traits: [[u64; KINDS]; TRAITS.len()],
    recorder: Recorder,
    /// The first panics and disagreements, as the text of their copies.
    pub troubles: Vec<String>,
}

impl Default for Coverage {
    fn default() -> Self {
        Self {
            sheets: 0,
            with_regions: [0; KINDS],
            zero_sized: [0; KINDS],
            refused: [[0; KINDS]; NUMBERS],
            panicked: [0; KINDS],
            disagreed: [0; KINDS],
            usage_asked_first: 0,
            traits: [[0; KINDS]; TRAITS.len()],
            recorder: Recorder::new(),
            troubles: Vec::new(),
        }
    }
}

impl Coverage {
    pub fn new() -> Self {
        Self::default()
    }

    /// Runs every copy of a sheet and counts the outcomes.
    pub fn count_sheet(&mut self, sheet: &Sheet) {
        self.sheets += 1;
        let mut objects = Objects::new(sheet);
        for copy in &sheet.copies {
            let kind = copy.kind() as usize;
            match run_copy(&mut self.recorder, &mut objects, copy) {
                // Regions come with ranges, and ranges with regions.
                Outcome::Accepted { .. } if self.recorder.init_actions().is_empty() => {
                    self.zero_sized[kind] += 1;
                }
                Outcome::Accepted { .. } => {
                    self.with_regions[kind] += 1;
                    self.count_traits(sheet, copy);
                }
                Outcome::Refused(refusal) => {
                    self.refused[refusal.number as usize][kind] += 1;
                    self.usage_asked_first +=
                        u64::from(is_usage_asked_first(sheet, copy, &refusal));
                }
                Outcome::Panicked(message) => {
                    self.panicked[kind] += 1;
                    self.keep_trouble(copy, &message);
                }
                Outcome::Disagreed(message) => {
                    self.disagreed[kind] += 1;
                    self.keep_trouble(copy, &message);
                }
            }
        }
    }

    fn keep_trouble(&mut self, copy: &Copy, message: &str) {
        if self.troubles.len() < KEPT_TROUBLES {
            self.troubles.push(format!("{copy:?}: {message}"));
        }
    }

    fn count_traits(&mut self, sheet: &Sheet, copy: &Copy) {
        let (source, destination) = match copy {
            Copy::BufferToBuffer { .. } => (None, None),
            Copy::BufferToTexture { destination, .. }
            | Copy::MemoryToTexture { destination, .. } => (None, Some(destination)),
            Copy::TextureToBuffer { source, .. } => (Some(source), None),
            Copy::TextureToTexture {
                source,
                destination,
                ..
            } => (Some(source), Some(destination)),
        };
        let side =
            |view: &TextureView| (sheet.textures[view.texture as usize], view.texture, *view);
        let accepted = Accepted {
            sheet,
            copy,
            source: source.map(side),
            destination: destination.map(side),
            recorder: &self.recorder,
        };
        for ((_, holds), counts) in TRAITS.iter().zip(&mut self.traits) {
            counts[copy.kind() as usize] += u64::from(holds(&accepted));
        }
    }

    /// How often copies of a kind were refused with a number.
    pub fn refused(&self, kind: CopyKind, number: usize) -> u64 {
        self.refused[number][kind as usize]
    }

    /// How many writes from memory are refused for their range or aspects, and
    /// by `Queue::write_texture` for the usage that they lack as well.
    pub fn usage_asked_first(&self) -> u64 {
        self.usage_asked_first
    }

    /// How many copies of a kind were accepted.
    pub fn accepted(&self, kind: CopyKind) -> u64 {
        self.with_regions[kind as usize] + self.zero_sized[kind as usize]
    }

    /// How many copies of a kind there were.
    pub fn copies(&self, kind: CopyKind) -> u64 {
        let refused: u64 = (0..NUMBERS).map(|number| self.refused(kind, number)).sum();
        let troubled = self.panicked[kind as usize] + self.disagreed[kind as usize];
        self.accepted(kind) + refused + troubled
    }
}

/// Whether the usage is lacking too, which `Queue::write_texture` asks for before
/// the range and the aspects.
fn is_usage_asked_first(sheet: &Sheet, copy: &Copy, refusal: &Refusal) -> bool {
    let Copy::MemoryToTexture { destination, .. } = copy else {
        return false;
    };
    let texture = sheet.textures.get(destination.texture as usize);
    let lacks_usage = texture.is_some_and(|texture| texture.usage & Texture::COPY_DST == 0);
    lacks_usage && matches!(refusal.number, 9 | 10 | 12 | 13 | 16..=19)
}

/// An accepted copy with regions.
struct Accepted<'a> {
    sheet: &'a Sheet,
    copy: &'a Copy,
    source: Option<(Texture, u32, TextureView)>,
    destination: Option<(Texture, u32, TextureView)>,
    recorder: &'a Recorder,
}

impl Accepted<'_> {
    fn any_texture(&self, holds: impl Fn(&Texture) -> bool) -> bool {
        [self.source, self.destination]
            .iter()
            .flatten()
            .any(|(texture, ..)| holds(texture))
    }

    fn both_textures(&self, hold: impl Fn(&Texture, &Texture) -> bool) -> bool {
        match (self.source, self.destination) {
            (Some((source, ..)), Some((destination, ..))) => hold(&source, &destination),
            _ => false,
        }
    }

    fn regions(&self) -> usize {
        let encoder = self.recorder.encoder();
        encoder.buffer_copies.len()
            + encoder.buffer_texture_copies.len()
            + encoder.texture_copies.len()
    }

    fn any_buffer_range(&self, holds: impl Fn(u64, u64, u64) -> bool) -> bool {
        self.recorder
            .init_actions()
            .iter()
            .any(|action| match *action {
                InitAction::Buffer {
                    buffer, start, end, ..
                } => holds(start, end, self.sheet.buffers[buffer as usize].size),
                InitAction::Texture { .. } => false,
            })
    }

    /// The length of the memory that is written from.
    fn memory(&self) -> Option<u64> {
        match self.copy {
            Copy::MemoryToTexture { source, .. } => Some(source.length),
            _ => None,
        }
    }

    fn last_region_offset(&self) -> u64 {
        let regions = &self.recorder.encoder().buffer_texture_copies;
        regions
            .last()
            .map_or(0, |region| region.buffer_layout.offset)
    }

    fn fills_texture(&self) -> bool {
        self.recorder.init_actions().iter().any(|action| {
            matches!(
                action,
                InitAction::Texture {
                    kind: MemoryInitKind::ImplicitlyInitialized,
                    ..
                }
            )
        })
    }
}

type Trait = (&'static str, fn(&Accepted) -> bool);

/// What accepted copies are counted by.
const TRAITS: [Trait; 20] = [
    ("a 1D texture", |copy| {
        copy.any_texture(|t| t.dimension == 1)
    }),
    ("a 2D texture", |copy| {
        copy.any_texture(|t| t.dimension == 2)
    }),
    ("a 3D texture", |copy| {
        copy.any_texture(|t| t.dimension == 3)
    }),
    ("a level above 0", |copy| {
        let sides = [copy.source, copy.destination];
        sides.iter().flatten().any(|(.., view)| view.level > 0)
    }),
    ("a block-compressed format", |copy| {
        copy.any_texture(|t| (11..=14).contains(&t.format))
    }),
    ("a depth-stencil format", |copy| {
        copy.any_texture(|t| (15..=20).contains(&t.format))
    }),
    ("NV12", |copy| copy.any_texture(|t| t.format == NV12)),
    ("four samples", |copy| copy.any_texture(|t| t.samples == 4)),
    ("a plane split", |copy| {
        copy.both_textures(|s, d| s.format == NV12 && d.format != NV12)
    }),
    ("srgb on one side only", |copy| {
        copy.both_textures(|s, d| s.format != NV12 && s.format != d.format)
    }),
    ("2D into 3D", |copy| {
        copy.both_textures(|s, d| (s.dimension, d.dimension) == (2, 3))
    }),
    ("3D into 2D", |copy| {
        copy.both_textures(|s, d| (s.dimension, d.dimension) == (3, 2))
    }),
    ("one texture", |copy| {
        match (copy.source, copy.destination) {
            (Some((_, source, _)), Some((_, destination, _))) => source == destination,
            _ => false,
        }
    }),
    ("more than one region", |copy| copy.regions() > 1),
    ("a texture range of kind 0", |copy| copy.fills_texture()),
    ("a backward buffer range", |copy| {
        copy.any_buffer_range(|start, end, _| start > end)
    }),
    ("a buffer range past the size", |copy| {
        copy.any_buffer_range(|_, end, size| end > size)
    }),
    ("memory of 2^32 bytes or more", |copy| {
        copy.memory().is_some_and(|length| length >= 1 << 32)
    }),
    ("memory of 2^63 bytes or more", |copy| {
        copy.memory().is_some_and(|length| length >= 1 << 63)
    }),
    ("a region at 2^63 or later", |copy| {
        copy.last_region_offset() >= 1 << 63
    }),
];

impl fmt::Display for Coverage {
    /// Markdown tables, a column for each kind.
    fn fmt(&self, formatter: &mut fmt::Formatter<'_>) -> fmt::Result {
        writeln!(formatter, "{} sheets\n", self.sheets)?;
        head(formatter, "Outcome")?;
        row(
            formatter,
            "copies",
            &CopyKind::ALL.map(|kind| self.copies(kind)),
        )?;
        row(formatter, "accepted, with regions", &self.with_regions)?;
        row(formatter, "accepted, zero-sized", &self.zero_sized)?;
        for (number, counts) in self.refused.iter().enumerate().skip(1) {
            row(formatter, format_args!("refused {number}"), counts)?;
        }
        row(formatter, "panicked", &self.panicked)?;
        row(formatter, "disagreed", &self.disagreed)?;
        writeln!(
            formatter,
            "\nRefused 6 by the queue for a usage asked first: {}\n",
            self.usage_asked_first
        )?;
        head(formatter, "Accepted with regions and")?;
        for ((name, _), counts) in TRAITS.iter().zip(&self.traits) {
            row(formatter, name, counts)?;
        }
        Ok(())
    }
}

fn head(formatter: &mut fmt::Formatter<'_>, first: &str) -> fmt::Result {
    write!(
        formatter,
        "| {first} | buffer to buffer | buffer to texture |"
    )?;
    writeln!(
        formatter,
        " texture to buffer | texture to texture | memory to texture |"
    )?;
    writeln!(formatter, "|---|---:|---:|---:|---:|---:|")
}

fn row(
    formatter: &mut fmt::Formatter<'_>,
    name: impl fmt::Display,
    counts: &[u64; KINDS],
) -> fmt::Result {
    write!(formatter, "| {name} |")?;
    for count in counts {
        write!(formatter, " {count} |")?;
    }
    writeln!(formatter)
}
