//! Plans an upload of two layers, a copy that is refused, a write from memory, and the copies of a job sheet.

use copy_planner::*;

const SHEET: &str = "\
1
1 1
0
2
64 4
64 8
2
1 0 0 1 16 32
1 0 0 1 16 -
";

fn main() -> Result<(), TransferError> {
    let buffer = Buffer {
        id: 0,
        size: 4096,
        usage: BufferUsages::COPY_SRC | BufferUsages::COPY_DST,
    };
    let texture = Texture {
        id: 0,
        format: TextureFormat::Rgba8Unorm,
        dimension: TextureDimension::D2,
        size: Extent3d {
            width: 8,
            height: 8,
            depth_or_array_layers: 2,
        },
        mip_level_count: 1,
        sample_count: 1,
        usage: TextureUsages::COPY_SRC | TextureUsages::COPY_DST,
    };
    print_upload(&upload(&buffer, Some(256), &texture)?);

    // Rows of 8 texels have 32 bytes, but each has to begin at a multiple of 256.
    match upload(&buffer, Some(32), &texture) {
        Ok(_) => println!("accepted"),
        Err(why) => println!("refused with {}: {why}", why.number()),
    }

    // In memory, without a buffer, they may follow each other.
    print_upload(&write(512, Some(32), &texture)?);

    print!("{}", String::from_utf8_lossy(&list_sheet(SHEET.as_bytes())));
    Ok(())
}

/// Plans all layers of the texture, from the buffer's start on.
fn upload(
    buffer: &Buffer,
    bytes_per_row: Option<u32>,
    texture: &Texture,
) -> Result<Plan<BufferTextureCopy>, TransferError> {
    let src = TexelCopyBufferInfo {
        buffer,
        layout: layout(bytes_per_row, texture),
    };
    copy_buffer_to_texture(Device::default(), src, whole(texture), texture.size)
}

/// Plans all layers of the texture, from the start of so many bytes of memory on.
fn write(
    data_len: u64,
    bytes_per_row: Option<u32>,
    texture: &Texture,
) -> Result<Plan<BufferTextureCopy>, TransferError> {
    let rows = layout(bytes_per_row, texture);
    write_texture(
        Device::default(),
        whole(texture),
        data_len,
        rows,
        texture.size,
    )
}

fn layout(bytes_per_row: Option<u32>, texture: &Texture) -> TexelCopyBufferLayout {
    TexelCopyBufferLayout {
        offset: 0,
        bytes_per_row,
        rows_per_image: Some(texture.size.height),
    }
}

fn whole(texture: &Texture) -> TexelCopyTextureInfo<'_> {
    TexelCopyTextureInfo {
        texture,
        mip_level: 0,
        origin: Origin3d::ZERO,
        aspect: TextureAspect::All,
    }
}

fn print_upload(plan: &Plan<BufferTextureCopy>) {
    println!(
        "{} regions, {} bytes checked",
        plan.regions_left(),
        plan.bytes_checked()
    );
    for range in plan.ranges() {
        println!("{range:?}");
    }
    for region in plan.regions() {
        println!(
            "layer {} from byte {} on, {} x {} texels",
            region.texture_base.array_layer,
            region.buffer_layout.offset,
            region.size.width,
            region.size.height
        );
    }
}
