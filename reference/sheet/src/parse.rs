//! The grammar of the job sheet.

use std::ops::RangeInclusive;

use crate::{Buffer, BufferView, Copy, Device, Extent, MemoryView, Sheet, Texture, TextureView};

/// The most bytes of a sheet.
pub const MAX_SHEET_BYTES: usize = 65_536;
/// The most textures, and the most buffers.
pub const MAX_RECORDS: u32 = 64;
/// The most copies.
pub const MAX_COPIES: u32 = 256;

const MAX_ASPECT: u32 = 5;

/// Why a sheet is not run.
#[derive(Clone, Copy, Debug, Eq, PartialEq)]
pub enum IllSheet {
    TooLong,
    /// The first ill, missing or extra line, counted from 1.
    Line(u32),
}

impl IllSheet {
    /// The number that the listing prints.
    pub fn number(self) -> u32 {
        match self {
            Self::TooLong => 0,
            Self::Line(number) => number,
        }
    }
}

/// Reads a sheet.
pub fn parse(text: &[u8]) -> Result<Sheet, IllSheet> {
    if text.len() > MAX_SHEET_BYTES {
        return Err(IllSheet::TooLong);
    }
    let mut lines = Lines {
        rest: text,
        number: 0,
    };
    let mut devices = lines.section(1..=1, device)?;
    let sheet = Sheet {
        device: devices.pop().expect("the section has one line"),
        textures: lines.section(0..=MAX_RECORDS, texture)?,
        buffers: lines.section(0..=MAX_RECORDS, buffer)?,
        copies: lines.section(0..=MAX_COPIES, copy)?,
    };
    lines.end()?;
    Ok(sheet)
}

/// The lines not yet read, and the number of the last one read.
struct Lines<'a> {
    rest: &'a [u8],
    number: u32,
}

impl Lines<'_> {
    /// A count within bounds, then as many lines.
    fn section<T>(
        &mut self,
        bounds: RangeInclusive<u32>,
        read: fn(&mut Fields) -> Option<T>,
    ) -> Result<Vec<T>, IllSheet> {
        let count = self.line(|fields| fields.u32().filter(|count| bounds.contains(count)))?;
        (0..count).map(|_| self.line(read)).collect()
    }

    /// The next line, read to its end.
    fn line<T>(&mut self, read: impl FnOnce(&mut Fields) -> Option<T>) -> Result<T, IllSheet> {
        self.number += 1;
        let ill = IllSheet::Line(self.number);
        let length = self
            .rest
            .iter()
            .position(|byte| *byte == b'\n')
            .ok_or(ill)?;
        let mut fields = Fields(Some(&self.rest[..length]));
        let value = read(&mut fields).ok_or(ill)?;
        if fields.0.is_some() {
            return Err(ill);
        }
        self.rest = &self.rest[length + 1..];
        Ok(value)
    }

    /// Nothing follows the last line.
    fn end(&self) -> Result<(), IllSheet> {
        if self.rest.is_empty() {
            Ok(())
        } else {
            Err(IllSheet::Line(self.number + 1))
        }
    }
}

/// What is left of a line: nothing after its last field.
struct Fields<'a>(Option<&'a [u8]>);

impl<'a> Fields<'a> {
    fn text(&mut self) -> Option<&'a [u8]> {
        let rest = self.0?;
        let end = rest.iter().position(|byte| *byte == b' ');
        self.0 = end.map(|end| &rest[end + 1..]);
        Some(&rest[..end.unwrap_or(rest.len())])
    }

    fn u64(&mut self) -> Option<u64> {
        self.text().and_then(decimal)
    }

    fn u32(&mut self) -> Option<u32> {
        self.u64().and_then(|value| u32::try_from(value).ok())
    }

    fn fact(&mut self) -> Option<bool> {
        match self.u32()? {
            0 => Some(false),
            1 => Some(true),
            _ => None,
        }
    }

    fn u64_or_absent(&mut self) -> Option<Option<u64>> {
        match self.text()? {
            b"-" => Some(None),
            text => decimal(text).map(Some),
        }
    }

    fn u32_or_absent(&mut self) -> Option<Option<u32>> {
        match self.u64_or_absent()? {
            Some(value) => u32::try_from(value).ok().map(Some),
            None => Some(None),
        }
    }
}

/// Digits without leading zeros, below 2^64.
fn decimal(text: &[u8]) -> Option<u64> {
    if text.is_empty() || (text[0] == b'0' && text.len() > 1) {
        return None;
    }
    text.iter().try_fold(0u64, |value, byte| {
        let digit = byte.is_ascii_digit().then(|| byte - b'0')?;
        value.checked_mul(10)?.checked_add(digit.into())
    })
}

fn device(fields: &mut Fields) -> Option<Device> {
    Some(Device {
        depth_texture_and_buffer_copies: fields.fact()?,
        unrestricted_index_buffer: fields.fact()?,
    })
}

fn texture(fields: &mut Fields) -> Option<Texture> {
    Some(Texture {
        format: fields.u32()?,
        dimension: fields.u32()?,
        width: fields.u32()?,
        height: fields.u32()?,
        depth: fields.u32()?,
        levels: fields.u32()?,
        samples: fields.u32()?,
        usage: fields.u32()?,
    })
}

fn buffer(fields: &mut Fields) -> Option<Buffer> {
    Some(Buffer {
        size: fields.u64()?,
        usage: fields.u32()?,
    })
}

fn copy(fields: &mut Fields) -> Option<Copy> {
    match fields.u32()? {
        1 => Some(Copy::BufferToBuffer {
            source: fields.u32()?,
            source_offset: fields.u64()?,
            destination: fields.u32()?,
            destination_offset: fields.u64()?,
            size: fields.u64_or_absent()?,
        }),
        2 => Some(Copy::BufferToTexture {
            source: buffer_view(fields)?,
            destination: texture_view(fields)?,
            size: extent(fields)?,
        }),
        3 => {
            let destination = buffer_view(fields)?;
            Some(Copy::TextureToBuffer {
                source: texture_view(fields)?,
                destination,
                size: extent(fields)?,
            })
        }
        4 => Some(Copy::TextureToTexture {
            source: texture_view(fields)?,
            destination: texture_view(fields)?,
            size: extent(fields)?,
        }),
        5 => Some(Copy::MemoryToTexture {
            source: memory_view(fields)?,
            destination: texture_view(fields)?,
            size: extent(fields)?,
        }),
        _ => None,
    }
}

fn buffer_view(fields: &mut Fields) -> Option<BufferView> {
    Some(BufferView {
        buffer: fields.u32()?,
        offset: fields.u64()?,
        bytes_per_row: fields.u32_or_absent()?,
        rows_per_image: fields.u32_or_absent()?,
    })
}

fn memory_view(fields: &mut Fields) -> Option<MemoryView> {
    Some(MemoryView {
        length: fields.u64()?,
        offset: fields.u64()?,
        bytes_per_row: fields.u32_or_absent()?,
        rows_per_image: fields.u32_or_absent()?,
    })
}

fn texture_view(fields: &mut Fields) -> Option<TextureView> {
    Some(TextureView {
        texture: fields.u32()?,
        level: fields.u32()?,
        x: fields.u32()?,
        y: fields.u32()?,
        z: fields.u32()?,
        aspect: fields.u32().filter(|aspect| *aspect <= MAX_ASPECT)?,
    })
}

fn extent(fields: &mut Fields) -> Option<Extent> {
    Some(Extent {
        width: fields.u32()?,
        height: fields.u32()?,
        depth: fields.u32()?,
    })
}
