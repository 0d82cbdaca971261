//! How the blocks of a copy lie in a buffer.

use crate::{BufferAddress, Extent3d, TextureAspect, TextureFormat};

/// Where the data of a copy starts in a buffer, and its strides where given.
#[derive(Clone, Copy, Debug, Eq, PartialEq)]
pub struct TexelCopyBufferLayout {
    pub offset: BufferAddress,
    pub bytes_per_row: Option<u32>,
    pub rows_per_image: Option<u32>,
}

/// The measures of a copy's linear data.
#[derive(Clone, Copy, Debug, Eq, PartialEq)]
pub struct BufferTextureCopyInfo {
    pub copy_width: u64,
    pub copy_height: u64,
    pub depth_or_array_layers: u64,
    pub offset: BufferAddress,
    pub block_size_bytes: u64,
    pub block_width_texels: u64,
    pub block_height_texels: u64,
    pub width_blocks: u64,
    pub height_blocks: u64,
    pub row_bytes_dense: u64,
    pub row_stride_bytes: u64,
    pub image_stride_rows: u64,
    pub image_stride_bytes: u64,
    pub image_rows_dense: u64,
    pub image_bytes_dense: u64,
    pub bytes_in_copy: u64,
}

/// Why the measures of a copy's linear data do not exist.
///
/// The flag of an overflow tells whether the addition (rather than the
/// multiplication before it) reached 2^64.
#[derive(Clone, Copy, Debug, Eq, PartialEq)]
pub enum BufferTextureCopyInfoError {
    InvalidBytesPerRow,
    InvalidRowsPerImage,
    ImageStrideOverflow,
    ImageBytesOverflow(bool),
    ArraySizeOverflow(bool),
}

impl TexelCopyBufferLayout {
    /// Measures a copy; an absent stride counts as the dense one.
    pub fn get_buffer_texture_copy_info(
        &self,
        format: TextureFormat,
        aspect: TextureAspect,
        copy_size: &Extent3d,
    ) -> Result<BufferTextureCopyInfo, BufferTextureCopyInfoError> {
        use BufferTextureCopyInfoError as E;

        let block_size_bytes = format
            .block_copy_size(Some(aspect))
            .expect("the aspect can be copied")
            .into();
        let (block_width_texels, block_height_texels) = format.block_dimensions();
        let width_blocks: u64 = copy_size.width.div_ceil(block_width_texels).into();
        let height_blocks: u64 = copy_size.height.div_ceil(block_height_texels).into();
        let images = copy_size.depth_or_array_layers.into();

        let row_bytes_dense = width_blocks * block_size_bytes;
        let row_stride_bytes = self.bytes_per_row.map_or(row_bytes_dense, u64::from);
        if row_stride_bytes < row_bytes_dense {
            return Err(E::InvalidBytesPerRow);
        }
        let image_stride_rows = self.rows_per_image.map_or(height_blocks, u64::from);
        if image_stride_rows < height_blocks {
            return Err(E::InvalidRowsPerImage);
        }

        let image_stride_bytes = image_stride_rows
            .checked_mul(row_stride_bytes)
            .ok_or(E::ImageStrideOverflow)?;
        let image_bytes_dense = strided_bytes(
            height_blocks,
            row_stride_bytes,
            row_bytes_dense,
            E::ImageBytesOverflow,
        )?;
        let bytes_in_copy = strided_bytes(
            images,
            image_stride_bytes,
            image_bytes_dense,
            E::ArraySizeOverflow,
        )?;

        Ok(BufferTextureCopyInfo {
            copy_width: copy_size.width.into(),
            copy_height: copy_size.height.into(),
            depth_or_array_layers: images,
            offset: self.offset,
            block_size_bytes,
            block_width_texels: block_width_texels.into(),
            block_height_texels: block_height_texels.into(),
            width_blocks,
            height_blocks,
            row_bytes_dense,
            row_stride_bytes,
            image_stride_rows,
            image_stride_bytes,
            image_rows_dense: height_blocks,
            image_bytes_dense,
            bytes_in_copy,
        })
    }
}

/// The bytes from the start of the first of `count` items to the end of the
/// last, one item starting every `stride` bytes.
fn strided_bytes<E>(
    count: u64,
    stride: u64,
    item: u64,
    overflow: impl Fn(bool) -> E,
) -> Result<u64, E> {
    let Some(strides) = count.checked_sub(1) else {
        return Ok(0);
    };
    strides
        .checked_mul(stride)
        .ok_or_else(|| overflow(false))?
        .checked_add(item)
        .ok_or_else(|| overflow(true))
}

#[cfg(test)]
mod tests {
    use super::*;

    fn extent(width: u32, height: u32, depth_or_array_layers: u32) -> Extent3d {
        Extent3d {
            width,
            height,
            depth_or_array_layers,
        }
    }

    fn layout(bytes_per_row: Option<u32>, rows_per_image: Option<u32>) -> TexelCopyBufferLayout {
        TexelCopyBufferLayout {
            offset: 0,
            bytes_per_row,
            rows_per_image,
        }
    }

    fn measure(
        layout: TexelCopyBufferLayout,
        format: TextureFormat,
        size: Extent3d,
    ) -> Result<BufferTextureCopyInfo, BufferTextureCopyInfoError> {
        layout.get_buffer_texture_copy_info(format, TextureAspect::All, &size)
    }

    #[test]
    fn strides_and_total() {
        let given = layout(Some(256), Some(8));
        let info = measure(given, TextureFormat::Rgba8Unorm, extent(8, 8, 2)).unwrap();
        assert_eq!(info.row_bytes_dense, 32);
        assert_eq!(info.image_stride_bytes, 2048);
        assert_eq!(info.image_bytes_dense, 1824);
        assert_eq!(info.bytes_in_copy, 3872);

        let absent = layout(None, None);
        let info = measure(absent, TextureFormat::Bc7RgbaUnorm, extent(8, 4, 1)).unwrap();
        assert_eq!((info.width_blocks, info.height_blocks), (2, 1));
        assert_eq!(info.row_stride_bytes, 32);
        assert_eq!(info.bytes_in_copy, 32);
    }

    #[test]
    fn empty_copies() {
        let given = layout(Some(256), Some(4));
        for (size, total) in [
            (extent(4, 4, 0), 0),
            (extent(4, 0, 1), 0),
            (extent(4, 0, 3), 2048),
            (extent(0, 4, 1), 768),
        ] {
            let info = measure(given, TextureFormat::R8Unorm, size).unwrap();
            assert_eq!(info.bytes_in_copy, total);
        }
    }

    /// Two images pass 2^64 bytes once the second one's rows are added.
    #[test]
    fn overflow_by_the_last_image() {
        let given = layout(Some(4_294_967_040), Some(u32::MAX));
        let format = TextureFormat::R8Unorm;
        let total = measure(given, format, extent(1, 258, 2))
            .unwrap()
            .bytes_in_copy;
        assert_eq!(total, 4_294_967_040 * (4_294_967_295 + 257) + 1);
        assert_eq!(
            measure(given, format, extent(1, 259, 2)),
            Err(BufferTextureCopyInfoError::ArraySizeOverflow(true))
        );
    }

    #[test]
    fn errors_in_order() {
        use BufferTextureCopyInfoError as E;
        let format = TextureFormat::R8Unorm;
        for (bytes, rows, size, error) in [
            (7, 1, extent(8, 2, 1), E::InvalidBytesPerRow),
            (8, 1, extent(8, 2, 1), E::InvalidRowsPerImage),
            (
                4_294_967_040,
                u32::MAX,
                extent(8, 2, 3),
                E::ArraySizeOverflow(false),
            ),
        ] {
            let given = layout(Some(bytes), Some(rows));
            assert_eq!(measure(given, format, size), Err(error));
        }
    }
}
