//! The text of sheets and listings.

use std::io::{self, Write};

use crate::{
    parse, run_copy, BufferView, Copy, Extent, IllSheet, InitAction, MemoryInitKind, MemoryView,
    Objects, Outcome, Recorder, Sheet, TextureView,
};

/// An absent stride among a region's numbers.
pub const ABSENT: u64 = u64::MAX;

/// Numbers of a region: 3 between buffers, 15 between textures.
const BUFFER_NUMBERS: usize = 3;
const BUFFER_TEXTURE_NUMBERS: usize = 12;
const TEXTURE_NUMBERS: usize = 15;

/// Runs a sheet and writes its listing.
pub fn write_listing(sheet: &[u8], output: &mut impl Write) -> io::Result<()> {
    match parse(sheet) {
        Ok(sheet) => Listing::new().write_sheet(&sheet, output),
        Err(ill) => write_ill_sheet(ill, output),
    }
}

fn write_ill_sheet(ill: IllSheet, output: &mut impl Write) -> io::Result<()> {
    writeln!(output, "sheet {}", ill.number())
}

/// Writes listings with memory that is used again from copy to copy.
#[derive(Debug, Default)]
pub struct Listing {
    recorder: Recorder,
    lines: Lines,
}

impl Listing {
    pub fn new() -> Self {
        Self::default()
    }

    /// Runs the copies of a sheet, writing each one's lines as it is done.
    pub fn write_sheet(&mut self, sheet: &Sheet, output: &mut impl Write) -> io::Result<()> {
        let mut objects = Objects::new(sheet);
        for (k, copy) in (0..).zip(&sheet.copies) {
            let outcome = run_copy(&mut self.recorder, &mut objects, copy);
            self.lines.0.clear();
            self.lines.outcome(k, &outcome, &self.recorder);
            output.write_all(&self.lines.0)?;
        }
        Ok(())
    }
}

/// Appends the numbers of every region that the recorder holds, as the region
/// writer's slice has them.
pub fn append_region_numbers(recorder: &Recorder, numbers: &mut Vec<u64>) {
    let encoder = recorder.encoder();
    for region in &encoder.buffer_copies {
        numbers.extend(buffer_copy_numbers(region));
    }
    for region in &encoder.buffer_texture_copies {
        numbers.extend(buffer_texture_copy_numbers(region));
    }
    for region in &encoder.texture_copies {
        numbers.extend(texture_copy_numbers(region));
    }
}

/// The two offsets and the size.
pub fn buffer_copy_numbers(region: &hal::BufferCopy) -> [u64; BUFFER_NUMBERS] {
    [region.src_offset, region.dst_offset, region.size.get()]
}

/// Offset, strides ([`ABSENT`] where left out), base and size.
pub fn buffer_texture_copy_numbers(
    region: &hal::BufferTextureCopy,
) -> [u64; BUFFER_TEXTURE_NUMBERS] {
    let layout = &region.buffer_layout;
    let [level, layer, x, y, z, aspects] = base_numbers(&region.texture_base);
    let [width, height, depth] = extent_numbers(&region.size);
    [
        layout.offset,
        layout.bytes_per_row.map_or(ABSENT, u64::from),
        layout.rows_per_image.map_or(ABSENT, u64::from),
        level,
        layer,
        x,
        y,
        z,
        aspects,
        width,
        height,
        depth,
    ]
}

/// The base of the source, that of the destination, and the size.
pub fn texture_copy_numbers(region: &hal::TextureCopy) -> [u64; TEXTURE_NUMBERS] {
    let mut numbers = [0; TEXTURE_NUMBERS];
    numbers[..6].copy_from_slice(&base_numbers(&region.src_base));
    numbers[6..12].copy_from_slice(&base_numbers(&region.dst_base));
    numbers[12..].copy_from_slice(&extent_numbers(&region.size));
    numbers
}

fn base_numbers(base: &hal::TextureCopyBase) -> [u64; 6] {
    [
        base.mip_level.into(),
        base.array_layer.into(),
        base.origin.x.into(),
        base.origin.y.into(),
        base.origin.z.into(),
        base.aspect.bits().into(),
    ]
}

fn extent_numbers(size: &hal::CopyExtent) -> [u64; 3] {
    [size.width.into(), size.height.into(), size.depth.into()]
}

/// The lines of a sheet or a listing.
#[derive(Debug, Default)]
struct Lines(Vec<u8>);

impl Lines {
    fn outcome(&mut self, k: u64, outcome: &Outcome, recorder: &Recorder) {
        self.text("copy");
        self.number(k);
        match outcome {
            Outcome::Accepted { bytes_checked } => self.accepted(*bytes_checked, recorder),
            Outcome::Refused(refusal) => {
                self.text(" refused");
                self.numbers(&refusal.numbers());
                self.end();
            }
            Outcome::Panicked(message) => self.trouble(" panicked ", message),
            Outcome::Disagreed(message) => self.trouble(" disagreed ", message),
        }
    }

    /// What no planner prints.
    fn trouble(&mut self, word: &str, message: &str) {
        self.text(word);
        self.text(message);
        self.end();
    }

    fn accepted(&mut self, bytes_checked: u64, recorder: &Recorder) {
        let encoder = recorder.encoder();
        let regions = encoder.buffer_copies.len()
            + encoder.buffer_texture_copies.len()
            + encoder.texture_copies.len();
        self.text(" ok");
        self.number(regions as u64);
        self.number(recorder.init_actions().len() as u64);
        self.number(bytes_checked);
        self.end();
        for action in recorder.init_actions() {
            self.init_action(action);
        }
        for region in &encoder.buffer_copies {
            self.region(&buffer_copy_numbers(region));
        }
        for region in &encoder.buffer_texture_copies {
            self.buffer_texture_region(&buffer_texture_copy_numbers(region));
        }
        for region in &encoder.texture_copies {
            self.region(&texture_copy_numbers(region));
        }
    }

    fn init_action(&mut self, action: &InitAction) {
        match *action {
            InitAction::Texture {
                texture,
                first_level,
                first_layer,
                end_layer,
                kind,
                ..
            } => {
                self.text("t");
                self.numbers(&[texture, first_level, first_layer, end_layer].map(u64::from));
                self.number(kind_number(kind));
            }
            InitAction::Buffer {
                buffer,
                start,
                end,
                kind,
            } => {
                self.text("b");
                self.numbers(&[buffer.into(), start, end, kind_number(kind)]);
            }
        }
        self.end();
    }

    fn region(&mut self, numbers: &[u64]) {
        self.text("r");
        self.numbers(numbers);
        self.end();
    }

    fn buffer_texture_region(&mut self, numbers: &[u64; BUFFER_TEXTURE_NUMBERS]) {
        let [offset, bytes_per_row, rows_per_image, rest @ ..] = numbers;
        self.text("r");
        self.number(*offset);
        for stride in [*bytes_per_row, *rows_per_image] {
            self.number_or_absent((stride != ABSENT).then_some(stride));
        }
        self.numbers(rest);
        self.end();
    }

    fn numbers(&mut self, numbers: &[u64]) {
        for number in numbers {
            self.number(*number);
        }
    }

    fn number_or_absent(&mut self, number: Option<u64>) {
        match number {
            Some(number) => self.number(number),
            None => self.text(" -"),
        }
    }

    /// A space and a number.
    fn number(&mut self, number: u64) {
        self.0.push(b' ');
        self.digits(number);
    }

    fn digits(&mut self, mut number: u64) {
        let mut digits = [0; 20];
        let mut first = digits.len();
        loop {
            first -= 1;
            digits[first] = b'0' + (number % 10) as u8;
            number /= 10;
            if number == 0 {
                break;
            }
        }
        self.0.extend_from_slice(&digits[first..]);
    }

    fn text(&mut self, text: &str) {
        self.0.extend_from_slice(text.as_bytes());
    }

    fn end(&mut self) {
        self.0.push(b'\n');
    }

    /// A line of the sheet: its first number and the others.
    fn record(&mut self, first: u64, rest: &[u64]) {
        self.digits(first);
        self.numbers(rest);
        self.end();
    }

    fn copy(&mut self, copy: &Copy) {
        match copy {
            Copy::BufferToBuffer {
                source,
                source_offset,
                destination,
                destination_offset,
                size,
            } => {
                self.text("1");
                self.numbers(&[(*source).into(), *source_offset]);
                self.numbers(&[(*destination).into(), *destination_offset]);
                self.number_or_absent(*size);
            }
            Copy::BufferToTexture {
                source,
                destination,
                size,
            } => {
                self.text("2");
                self.buffer_view(source);
                self.texture_view(destination);
                self.extent(size);
            }
            Copy::TextureToBuffer {
                source,
                destination,
                size,
            } => {
                self.text("3");
                self.buffer_view(destination);
                self.texture_view(source);
                self.extent(size);
            }
            Copy::TextureToTexture {
                source,
                destination,
                size,
            } => {
                self.text("4");
                self.texture_view(source);
                self.texture_view(destination);
                self.extent(size);
            }
            Copy::MemoryToTexture {
                source,
                destination,
                size,
            } => {
                self.text("5");
                self.memory_view(source);
                self.texture_view(destination);
                self.extent(size);
            }
        }
        self.end();
    }

    fn buffer_view(&mut self, view: &BufferView) {
        self.numbers(&[view.buffer.into(), view.offset]);
        self.strides([view.bytes_per_row, view.rows_per_image]);
    }

    fn memory_view(&mut self, view: &MemoryView) {
        self.numbers(&[view.length, view.offset]);
        self.strides([view.bytes_per_row, view.rows_per_image]);
    }

    fn strides(&mut self, strides: [Option<u32>; 2]) {
        for stride in strides {
            self.number_or_absent(stride.map(u64::from));
        }
    }

    fn texture_view(&mut self, view: &TextureView) {
        let place = [view.texture, view.level, view.x, view.y, view.z];
        self.numbers(&place.map(u64::from));
        self.number(view.aspect.into());
    }

    fn extent(&mut self, size: &Extent) {
        self.numbers(&[size.width, size.height, size.depth].map(u64::from));
    }
}

fn kind_number(kind: MemoryInitKind) -> u64 {
    match kind {
        MemoryInitKind::ImplicitlyInitialized => 0,
        MemoryInitKind::NeedsInitializedMemory => 1,
    }
}

/// The text of a sheet, which [`parse`] reads back.
pub fn sheet_text(sheet: &Sheet) -> Vec<u8> {
    let mut lines = Lines::default();
    lines.record(1, &[]);
    let device = &sheet.device;
    lines.record(
        device.depth_texture_and_buffer_copies.into(),
        &[device.unrestricted_index_buffer.into()],
    );
    lines.record(sheet.textures.len() as u64, &[]);
    for texture in &sheet.textures {
        let [format, rest @ ..] = texture.words().map(u64::from);
        lines.record(format, &rest);
    }
    lines.record(sheet.buffers.len() as u64, &[]);
    for buffer in &sheet.buffers {
        lines.record(buffer.size, &[buffer.usage.into()]);
    }
    lines.record(sheet.copies.len() as u64, &[]);
    for copy in &sheet.copies {
        lines.copy(copy);
    }
    lines.0
}

#[cfg(test)]
mod tests {
    use super::*;

    /// Troubles have lines of their own, which no planner prints.
    #[test]
    fn troubles() {
        for (outcome, expected) in [
            (Outcome::Panicked("alas".into()), "copy 7 panicked alas\n"),
            (Outcome::Disagreed("no".into()), "copy 7 disagreed no\n"),
        ] {
            let mut lines = Lines::default();
            lines.outcome(7, &outcome, &Recorder::new());
            assert_eq!(lines.0, expected.as_bytes());
        }
    }
}
