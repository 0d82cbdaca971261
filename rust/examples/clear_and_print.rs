//! Fills a sheet texture by several copies, and prints it when it is complete. A book of the texture says what has to be cleared before
//! each copy, and which layers no range held.

use std::error::Error;

use copy_planner::*;

/// Texels along a layer's sides, and bytes of a row: a texel has one.
const SIDE: u32 = 256;

/// Texels along the sides of a correction and of the legend.
const PART: u32 = 64;

const LAYERS: u32 = 8;

const LAYER: Extent3d = Extent3d {
    width: SIDE,
    height: SIDE,
    depth_or_array_layers: 1,
};

const CORNER: Extent3d = Extent3d {
    width: PART,
    height: PART,
    depth_or_array_layers: 1,
};

fn main() -> Result<(), Box<dyn Error>> {
    let texture = Texture {
        id: 0,
        format: TextureFormat::R8Unorm,
        dimension: TextureDimension::D2,
        size: layers(LAYERS),
        mip_level_count: 1,
        sample_count: 1,
        usage: TextureUsages::COPY_SRC | TextureUsages::COPY_DST,
    };
    let mut sheet = Sheet {
        book: Book::new(&texture)?,
        room: PlaceRoom::new(),
    };

    // Layers 0 to 3, then 5 to 7: layer 4 is left out.
    sheet.copy("load of four layers", load(&texture, 0, 4))?;
    sheet.copy("load of three layers", load(&texture, 5, 3))?;
    // A part of a layer that is already written.
    sheet.copy("correction of layer 6", correct(&texture, 6))?;
    // A layer that is not there.
    sheet.copy("load of layer 8", load(&texture, 8, 1))?;
    sheet.print()?;

    // A part of layer 4. Without the clear, the rest of it would show what the memory held before.
    let legend = copy_texture_to_texture(from_layer(&texture, 0), from_layer(&texture, 4), CORNER);
    sheet.copy("legend onto layer 4", legend)?;
    sheet.print()?;
    Ok(())
}

/// So many whole layers.
fn layers(depth_or_array_layers: u32) -> Extent3d {
    Extent3d {
        depth_or_array_layers,
        ..LAYER
    }
}

fn from_layer(texture: &Texture, layer: u32) -> TexelCopyTextureInfo<'_> {
    TexelCopyTextureInfo {
        texture,
        mip_level: 0,
        origin: Origin3d {
            x: 0,
            y: 0,
            z: layer,
        },
        aspect: TextureAspect::All,
    }
}

/// Plans a load of whole layers from a buffer, from a layer on.
fn load(
    texture: &Texture,
    first_layer: u32,
    count: u32,
) -> Result<Plan<BufferTextureCopy>, TransferError> {
    let buffer = Buffer {
        id: 0,
        size: u64::from(SIDE * SIDE * LAYERS),
        usage: BufferUsages::COPY_SRC,
    };
    let src = TexelCopyBufferInfo {
        buffer: &buffer,
        layout: TexelCopyBufferLayout {
            offset: 0,
            bytes_per_row: Some(SIDE),
            rows_per_image: Some(SIDE),
        },
    };
    let dst = from_layer(texture, first_layer);
    copy_buffer_to_texture(Device::default(), src, dst, layers(count))
}

/// Plans a write from memory into a layer's corner.
fn correct(texture: &Texture, layer: u32) -> Result<Plan<BufferTextureCopy>, TransferError> {
    let rows = TexelCopyBufferLayout {
        offset: 0,
        bytes_per_row: Some(PART),
        rows_per_image: None,
    };
    let dst = from_layer(texture, layer);
    write_texture(Device::default(), dst, (PART * PART).into(), rows, CORNER)
}

/// A sheet texture's book, and room for what it answers.
struct Sheet {
    book: Book,
    room: PlaceRoom,
}

impl Sheet {
    /// Executes an accepted copy: clears what its ranges need cleared, then copies. A refused one changes nothing.
    fn copy<R: Region>(
        &mut self,
        name: &str,
        planned: Result<Plan<R>, TransferError>,
    ) -> Result<(), BookError> {
        let plan = match planned {
            Ok(plan) => plan,
            Err(why) => {
                println!("{name}: refused with {}: {why}", why.number());
                return Ok(());
            }
        };
        println!("{name}: accepted");
        for range in plan.ranges() {
            for place in self.book.update(&range, &mut self.room)? {
                clear(place);
            }
        }
        for region in plan.regions() {
            execute(region);
        }
        Ok(())
    }

    /// Prints the sheet if every level and layer is written, else says what is missing.
    fn print(&mut self) -> Result<(), BookError> {
        if self.book.is_filled() {
            println!("the sheet is complete and is printed");
            return Ok(());
        }
        println!("the sheet is not printed, since no copy held");
        for mip_level in 0..self.book.mip_level_count() {
            for place in self.book.missing(mip_level, &mut self.room)? {
                println!("    {place}");
            }
        }
        Ok(())
    }
}

/// Stands for the call that clears a level and layer.
fn clear(place: Place) {
    println!("    clear {place}");
}

/// Stands for the call that copies a region.
fn execute<R: Region>(_: R) {
    println!("    copy a region");
}
