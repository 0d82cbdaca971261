//! Copies packed into as few sheets as their bounds allow.

use std::io;

use copy_sheet::{
    sheet_text, Buffer, Copy, Device, Sheet, Texture, TextureView, MAX_COPIES, MAX_RECORDS,
};

/// Takes the sheets of a set, one by one.
pub type Emit<'a> = dyn FnMut(&[u8]) -> io::Result<()> + 'a;

/// A copy with its records; it names them by their places in these lists.
#[derive(Clone, Debug)]
pub struct Case<'a> {
    pub device: Device,
    pub textures: &'a [Texture],
    pub buffers: &'a [Buffer],
    pub copy: Copy,
}

impl Case<'_> {
    /// Both facts.
    pub const DEVICE: Device = Device {
        depth_texture_and_buffer_copies: true,
        unrestricted_index_buffer: true,
    };
}

/// Gathers cases into sheets and hands on each full sheet.
pub struct Packer<'a, 'b> {
    sheet: Sheet,
    emit: &'a mut Emit<'b>,
}

impl<'a, 'b> Packer<'a, 'b> {
    pub fn new(emit: &'a mut Emit<'b>) -> Self {
        Self {
            sheet: empty_sheet(Case::DEVICE),
            emit,
        }
    }

    /// Adds a case, after handing on the sheet if it has no room for it.
    pub fn add(&mut self, case: &Case) -> io::Result<()> {
        if self.sheet.device != case.device || self.sheet.copies.len() >= MAX_COPIES as usize {
            self.start_sheet(case.device)?;
        }
        if !self.try_add(case) {
            self.start_sheet(case.device)?;
            assert!(self.try_add(case), "a case fits an empty sheet");
        }
        Ok(())
    }

    /// Hands on the last sheet.
    pub fn finish(mut self) -> io::Result<()> {
        self.start_sheet(Case::DEVICE)
    }

    fn start_sheet(&mut self, device: Device) -> io::Result<()> {
        let full = std::mem::replace(&mut self.sheet, empty_sheet(device));
        if full.copies.is_empty() {
            return Ok(());
        }
        (self.emit)(&sheet_text(&full))
    }

    fn try_add(&mut self, case: &Case) -> bool {
        let textures = places(&mut self.sheet.textures, case.textures);
        let buffers = places(&mut self.sheet.buffers, case.buffers);
        match (textures, buffers) {
            (Some(textures), Some(buffers)) => {
                self.sheet
                    .copies
                    .push(moved(&case.copy, &textures, &buffers));
                true
            }
            _ => false,
        }
    }
}

fn empty_sheet(device: Device) -> Sheet {
    Sheet {
        device,
        textures: Vec::new(),
        buffers: Vec::new(),
        copies: Vec::new(),
    }
}

/// The places of records in a section, each its own; records that it lacks are
/// added. Nothing if there is no room.
fn places<T: PartialEq + std::marker::Copy>(
    section: &mut Vec<T>,
    records: &[T],
) -> Option<Vec<u32>> {
    let mut places = Vec::with_capacity(records.len());
    for record in records {
        let found = (0..)
            .zip(section.iter())
            .find(|(place, other)| *other == record && !places.contains(place));
        let place = match found {
            Some((place, _)) => place,
            None if section.len() < MAX_RECORDS as usize => {
                section.push(*record);
                section.len() as u32 - 1
            }
            None => return None,
        };
        places.push(place);
    }
    Some(places)
}

/// A copy whose indices are led through the new places; an index past them is
/// kept.
pub fn moved(copy: &Copy, textures: &[u32], buffers: &[u32]) -> Copy {
    let place = |places: &[u32], index: u32| places.get(index as usize).copied().unwrap_or(index);
    let view = |view: &TextureView| TextureView {
        texture: place(textures, view.texture),
        ..*view
    };
    let mut copy = *copy;
    match &mut copy {
        Copy::BufferToBuffer {
            source,
            destination,
            ..
        } => {
            *source = place(buffers, *source);
            *destination = place(buffers, *destination);
        }
        Copy::BufferToTexture {
            source,
            destination,
            ..
        } => {
            source.buffer = place(buffers, source.buffer);
            *destination = view(destination);
        }
        Copy::TextureToBuffer {
            source,
            destination,
            ..
        } => {
            *source = view(source);
            destination.buffer = place(buffers, destination.buffer);
        }
        Copy::TextureToTexture {
            source,
            destination,
            ..
        } => {
            *source = view(source);
            *destination = view(destination);
        }
        Copy::MemoryToTexture { destination, .. } => *destination = view(destination),
    }
    copy
}
