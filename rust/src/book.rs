//! What has been written of a texture.

use std::error::Error;
use std::fmt;
use std::iter::FusedIterator;
use std::mem::MaybeUninit;
use std::ops::Range;
use std::slice::ChunksExact;

use crate::ffi::{self, BookRecord, RangeRow, BOOK_LAYERS};
use crate::plan::{InitRange, MemoryInitKind};
use crate::resources::Texture;

/// How many numbers hold the places of any range: no level has more layers than there are marks for.
const ROOM_NUMBERS: usize = BOOK_LAYERS * Place::NUMBERS;

/// A book of what has been written of a texture: which levels and layers must be cleared before a copy, and whether any is left
/// that no range held.
///
/// A book is made with its texture, when nothing is written. Every accepted copy is then applied to it, range by range and in the
/// plan's order, before the copy is executed; what [`update`](Self::update) returns must be cleared first. Of a copy within one
/// texture both ranges belong to its one book, of a copy between two textures each to its own.
///
/// What is written to the texture otherwise than by copies is told to the book by [`update_layers`](Self::update_layers), as if a copy
/// filled it.
///
/// A book believes the ranges. As in wgpu-core, a copy of depth 2 or more between a volume and layers may report its destination as
/// filled though its regions do not write all of it; then the book has the rest as written too.
///
/// Layers go from the first up to, not including, the end. In 1D and 3D a whole level is layer 0. A layer is written as a whole, with
/// all of its aspects and planes: a copy that writes a part of it, or reads it, has it cleared first, and then it counts as written.
///
/// ```
/// use copy_planner::*;
///
/// let texture = Texture {
///     id: 7,
///     format: TextureFormat::Rgba8Unorm,
///     dimension: TextureDimension::D2,
///     size: Extent3d { width: 8, height: 8, depth_or_array_layers: 2 },
///     mip_level_count: 1,
///     sample_count: 1,
///     usage: TextureUsages::COPY_DST,
/// };
/// let mut book = Book::new(&texture)?;
/// let mut room = PlaceRoom::new();
///
/// // A corner of layer 1: the rest of the layer must be cleared before it.
/// let layout = TexelCopyBufferLayout { offset: 0, bytes_per_row: Some(16), rows_per_image: None };
/// let dst = TexelCopyTextureInfo {
///     texture: &texture,
///     mip_level: 0,
///     origin: Origin3d { x: 0, y: 0, z: 1 },
///     aspect: TextureAspect::All,
/// };
/// let corner = Extent3d { width: 4, height: 4, depth_or_array_layers: 1 };
/// let plan = write_texture(Device::default(), dst, 64, layout, corner)?;
/// let mut cleared = Vec::new();
/// for range in plan.ranges() {
///     cleared.extend(book.update(&range, &mut room)?);
/// }
/// assert_eq!(cleared, [Place { mip_level: 0, array_layer: 1 }]);
///
/// // Now layer 1 is written, and layer 0 is not.
/// assert!(book.is_written(0, 1));
/// assert!(!book.is_filled());
/// let missing: Vec<Place> = book.missing(0, &mut room)?.collect();
/// assert_eq!(missing, [Place { mip_level: 0, array_layer: 0 }]);
/// # Ok::<(), Box<dyn std::error::Error>>(())
/// ```
#[derive(Clone, PartialEq, Eq)]
pub struct Book {
    id: u32,
    record: BookRecord,
}

impl Book {
    /// A book of a texture of which nothing is written.
    ///
    /// # Errors
    ///
    /// [`BookError::InvalidTextureRecord`] where the texture is out of its bounds; [`Texture`] gives them.
    ///
    /// ```
    /// # use copy_planner::*;
    /// # let volume = Texture {
    /// #     id: 0,
    /// #     format: TextureFormat::R8Unorm,
    /// #     dimension: TextureDimension::D3,
    /// #     size: Extent3d { width: 8, height: 8, depth_or_array_layers: 32 },
    /// #     mip_level_count: 6,
    /// #     sample_count: 1,
    /// #     usage: TextureUsages::COPY_DST,
    /// # };
    /// // All 32 slices of a volume's level are one layer.
    /// let book = Book::new(&volume)?;
    /// assert_eq!((book.mip_level_count(), book.array_layer_count()), (6, 1));
    ///
    /// // A level too many for the longest side.
    /// let ill = Texture { mip_level_count: 7, ..volume };
    /// assert_eq!(Book::new(&ill), Err(BookError::InvalidTextureRecord));
    /// # Ok::<(), BookError>(())
    /// ```
    #[inline]
    pub fn new(texture: &Texture) -> Result<Self, BookError> {
        let mut record = MaybeUninit::uninit();
        // SAFETY: both are lent and do not overlap.
        match unsafe { ffi::copy_planner_new_book(texture, &mut record) } {
            0 => Ok(Self {
                id: texture.id,
                // SAFETY: the call has written all of it.
                record: unsafe { record.assume_init() },
            }),
            number => Err(BookError::of(number)),
        }
    }

    /// The id of the book's texture.
    #[inline]
    pub const fn id(&self) -> u32 {
        self.id
    }

    /// The texture's levels.
    #[inline]
    pub const fn mip_level_count(&self) -> u32 {
        self.record.mip_level_count
    }

    /// The texture's layers; 1 in 1D and 3D.
    #[inline]
    pub const fn array_layer_count(&self) -> u32 {
        self.record.array_layer_count
    }

    /// Applies a range of an accepted copy: returns the places that must be cleared before the copy is executed, layers rising, and
    /// marks all of the range's layers as written. The places are those of the range that were not written, and none where the copy
    /// itself fills the range.
    ///
    /// A range of a buffer, or of a texture with another id, is not the book's: it needs nothing cleared and marks nothing. So all
    /// ranges of a plan may be given to each book.
    ///
    /// # Errors
    ///
    /// [`BookError::InvalidRange`] where the book's texture has no such level or layers, which no plan of a copy with that texture
    /// gives. Then the book is not changed.
    ///
    /// ```
    /// # use copy_planner::*;
    /// # let [src, dst] = [0, 1].map(|id| Texture {
    /// #     id,
    /// #     format: TextureFormat::R8Unorm,
    /// #     dimension: TextureDimension::D2,
    /// #     size: Extent3d { width: 8, height: 8, depth_or_array_layers: 4 },
    /// #     mip_level_count: 1,
    /// #     sample_count: 1,
    /// #     usage: TextureUsages::COPY_SRC | TextureUsages::COPY_DST,
    /// # });
    /// # fn part(texture: &Texture) -> TexelCopyTextureInfo<'_> {
    /// #     TexelCopyTextureInfo {
    /// #         texture,
    /// #         mip_level: 0,
    /// #         origin: Origin3d::ZERO,
    /// #         aspect: TextureAspect::All,
    /// #     }
    /// # }
    /// let mut books = [Book::new(&src)?, Book::new(&dst)?];
    /// let mut room = PlaceRoom::new();
    /// let mut cleared = Vec::new();
    /// let two_layers = Extent3d { depth_or_array_layers: 2, ..src.size };
    /// let plan = copy_texture_to_texture(part(&src), part(&dst), two_layers)?;
    /// for range in plan.ranges() {
    ///     for book in &mut books {
    ///         for place in book.update(&range, &mut room)? {
    ///             cleared.push((book.id(), place.array_layer));
    ///         }
    ///     }
    /// }
    ///
    /// // No range held the source before; the destination's layers are filled by the copy.
    /// assert_eq!(cleared, [(0, 0), (0, 1)]);
    /// assert!(books.iter().all(|book| book.is_written(0, 1) && !book.is_written(0, 2)));
    /// # Ok::<(), Box<dyn std::error::Error>>(())
    /// ```
    #[inline]
    pub fn update<'room>(
        &mut self,
        range: &InitRange,
        room: &'room mut PlaceRoom,
    ) -> Result<Places<'room>, BookError> {
        let count = match range {
            InitRange::Texture {
                id,
                mip_level,
                layers,
                kind,
            } if *id == self.id => {
                self.update_layers(*mip_level, layers.clone(), *kind, &mut room.0)?
            }
            _ => 0,
        };
        Ok(room.places(count))
    }

    /// [`update`](Self::update) with the parts of a range, whatever its texture's id, and with the places as numbers: level and layer
    /// of each ([`Place::NUMBERS`]), from the start of `out` on. Returns how many places they are. What lies after their numbers in
    /// `out` keeps its value. 512 numbers are room for any range.
    ///
    /// # Errors
    ///
    /// [`BookError::InvalidRange`] where the book has no such level, or where the layers' end lies below their start or above the
    /// book's layers; then [`BookError::SliceTooShort`] where `out` has fewer numbers than the places to be cleared. In both cases
    /// neither the book nor `out` is changed.
    ///
    /// ```
    /// # use copy_planner::*;
    /// # let texture = Texture {
    /// #     id: 0,
    /// #     format: TextureFormat::R8Unorm,
    /// #     dimension: TextureDimension::D2,
    /// #     size: Extent3d { width: 8, height: 8, depth_or_array_layers: 8 },
    /// #     mip_level_count: 1,
    /// #     sample_count: 1,
    /// #     usage: TextureUsages::COPY_DST,
    /// # };
    /// use MemoryInitKind::{ImplicitlyInitialized, NeedsInitializedMemory};
    ///
    /// let mut book = Book::new(&texture)?;
    /// let mut numbers = [99; 5];
    /// book.update_layers(0, 0..4, ImplicitlyInitialized, &mut numbers)?;
    /// book.update_layers(0, 5..7, ImplicitlyInitialized, &mut numbers)?;
    ///
    /// // Of eight layers two are not written.
    /// let count = book.update_layers(0, 0..8, NeedsInitializedMemory, &mut numbers)?;
    /// assert_eq!(count, 2);
    /// assert_eq!(numbers, [0, 4, 0, 7, 99]);
    /// # Ok::<(), BookError>(())
    /// ```
    #[inline]
    pub fn update_layers(
        &mut self,
        mip_level: u32,
        layers: Range<u64>,
        kind: MemoryInitKind,
        out: &mut [u64],
    ) -> Result<usize, BookError> {
        let range = row_of(layers, kind);
        counted(|count| {
            let (places, len) = (out.as_mut_ptr(), out.len());
            // SAFETY: pointer and length are those of one slice, which is lent; it, the book and the count do not overlap.
            unsafe {
                ffi::copy_planner_update_book(
                    &mut self.record,
                    mip_level,
                    &range,
                    places,
                    len,
                    count,
                )
            }
        })
    }

    /// The layers of a level that are not written, rising.
    ///
    /// # Errors
    ///
    /// [`BookError::InvalidRange`] where the book has no such level.
    ///
    /// ```
    /// # use copy_planner::*;
    /// # let texture = Texture {
    /// #     id: 0,
    /// #     format: TextureFormat::R8Unorm,
    /// #     dimension: TextureDimension::D2,
    /// #     size: Extent3d { width: 8, height: 8, depth_or_array_layers: 2 },
    /// #     mip_level_count: 4,
    /// #     sample_count: 1,
    /// #     usage: TextureUsages::COPY_DST,
    /// # };
    /// # let book = Book::new(&texture)?;
    /// let mut room = PlaceRoom::new();
    /// for mip_level in 0..book.mip_level_count() {
    ///     for place in book.missing(mip_level, &mut room)? {
    ///         println!("no range held {place}");
    ///     }
    /// }
    /// # assert_eq!(book.missing(3, &mut room)?.len(), 2);
    /// # assert_eq!(book.missing(4, &mut room).unwrap_err(), BookError::InvalidRange);
    /// # Ok::<(), BookError>(())
    /// ```
    #[inline]
    pub fn missing<'room>(
        &self,
        mip_level: u32,
        room: &'room mut PlaceRoom,
    ) -> Result<Places<'room>, BookError> {
        let count = self.missing_layers(mip_level, &mut room.0)?;
        Ok(room.places(count))
    }

    /// [`missing`](Self::missing) with the places as numbers, as [`update_layers`](Self::update_layers) writes them. Returns how many
    /// places they are.
    ///
    /// # Errors
    ///
    /// [`BookError::InvalidRange`] where the book has no such level, then [`BookError::SliceTooShort`] where `out` has fewer numbers
    /// than the places. In both cases `out` is not changed.
    #[inline]
    pub fn missing_layers(&self, mip_level: u32, out: &mut [u64]) -> Result<usize, BookError> {
        counted(|count| {
            let (places, len) = (out.as_mut_ptr(), out.len());
            // SAFETY: pointer and length are those of one slice, which is lent; it, the book and the count do not overlap.
            unsafe { ffi::copy_planner_book_missing(&self.record, mip_level, places, len, count) }
        })
    }

    /// Whether the book has this level and layer, and it is written. A layer that had to be cleared for a copy is.
    #[inline]
    pub fn is_written(&self, mip_level: u32, array_layer: u32) -> bool {
        // SAFETY: the record is lent.
        unsafe { ffi::copy_planner_book_is_written(&self.record, mip_level, array_layer) }
    }

    /// Whether every level and layer is written.
    #[inline]
    pub fn is_filled(&self) -> bool {
        // SAFETY: the record is lent.
        unsafe { ffi::copy_planner_book_is_filled(&self.record) }
    }
}

impl fmt::Debug for Book {
    /// Of the marks, the written layers of each level as half-open ranges.
    fn fmt(&self, f: &mut fmt::Formatter<'_>) -> fmt::Result {
        f.debug_struct("Book")
            .field("id", &self.id)
            .field("mip_level_count", &self.record.mip_level_count)
            .field("array_layer_count", &self.record.array_layer_count)
            .field("written", &WrittenLevels(&self.record))
            .finish()
    }
}

/// The written layers of each level.
struct WrittenLevels<'a>(&'a BookRecord);

impl fmt::Debug for WrittenLevels<'_> {
    fn fmt(&self, f: &mut fmt::Formatter<'_>) -> fmt::Result {
        let record = self.0;
        let layers = BOOK_LAYERS.min(record.array_layer_count as usize);
        let levels = record.marks.chunks_exact(BOOK_LAYERS);
        f.debug_list()
            .entries(
                levels
                    .take(record.mip_level_count as usize)
                    .map(|marks| WrittenLayers(&marks[..layers])),
            )
            .finish()
    }
}

/// The written layers among those that these marks are of.
struct WrittenLayers<'a>(&'a [u8]);

impl fmt::Debug for WrittenLayers<'_> {
    fn fmt(&self, f: &mut fmt::Formatter<'_>) -> fmt::Result {
        let mut end = 0;
        let runs = self.0.chunk_by(|a, b| (*a == 0) == (*b == 0));
        let runs = runs.filter_map(|run| {
            end += run.len();
            (run[0] != 0).then_some(end - run.len()..end)
        });
        f.debug_list().entries(runs).finish()
    }
}

/// The words of a texture's range.
#[inline]
fn row_of(layers: Range<u64>, kind: MemoryInitKind) -> RangeRow {
    let kind = match kind {
        MemoryInitKind::ImplicitlyInitialized => 1,
        MemoryInitKind::NeedsInitializedMemory => 2,
    };
    [kind, layers.start, layers.end]
}

/// How many places `call` counts. It writes the count and returns 0, or a refusal's number.
#[inline]
fn counted(call: impl FnOnce(&mut u64) -> u32) -> Result<usize, BookError> {
    let mut count = 0;
    match call(&mut count) {
        0 => Ok(count as usize),
        number => Err(BookError::of(number)),
    }
}

/// A level and layer of a texture.
#[derive(Clone, Copy, Debug, PartialEq, Eq, PartialOrd, Ord, Hash)]
pub struct Place {
    /// The level.
    pub mip_level: u32,
    /// The layer; 0 in 1D and 3D, where it is the whole level.
    pub array_layer: u32,
}

impl Place {
    /// How many numbers [`Book::update_layers`] and [`Book::missing_layers`] write for each place.
    pub const NUMBERS: usize = 2;

    #[inline]
    fn from_numbers(numbers: &[u64]) -> Self {
        Self {
            mip_level: numbers[0] as u32,
            array_layer: numbers[1] as u32,
        }
    }
}

impl fmt::Display for Place {
    fn fmt(&self, f: &mut fmt::Formatter<'_>) -> fmt::Result {
        write!(f, "level {}, layer {}", self.mip_level, self.array_layer)
    }
}

/// Room for the places of any range. It has about 4,000 bytes, and may be used again and again, for any book.
///
/// ```
/// # use copy_planner::*;
/// # let textures = [0, 1].map(|id| Texture {
/// #     id,
/// #     format: TextureFormat::R8Unorm,
/// #     dimension: TextureDimension::D2,
/// #     size: Extent3d { width: 8, height: 8, depth_or_array_layers: 256 },
/// #     mip_level_count: 1,
/// #     sample_count: 1,
/// #     usage: TextureUsages::COPY_DST,
/// # });
/// let mut room = PlaceRoom::new();
/// for texture in &textures {
///     assert_eq!(Book::new(texture)?.missing(0, &mut room)?.len(), 256);
/// }
/// # Ok::<(), BookError>(())
/// ```
#[derive(Clone)]
pub struct PlaceRoom([u64; ROOM_NUMBERS]);

impl PlaceRoom {
    /// Room with no places in it.
    #[inline]
    pub const fn new() -> Self {
        Self([0; ROOM_NUMBERS])
    }

    /// The first places in it.
    #[inline]
    fn places(&self, count: usize) -> Places<'_> {
        Places(self.0[..count * Place::NUMBERS].chunks_exact(Place::NUMBERS))
    }
}

impl Default for PlaceRoom {
    fn default() -> Self {
        Self::new()
    }
}

impl fmt::Debug for PlaceRoom {
    fn fmt(&self, f: &mut fmt::Formatter<'_>) -> fmt::Result {
        f.debug_struct("PlaceRoom").finish_non_exhaustive()
    }
}

/// Levels and layers in order: of a range that must be cleared before its copy, made by [`Book::update`], or of a level that are not
/// written, made by [`Book::missing`].
#[derive(Clone)]
#[must_use = "places that have to be cleared are the caller's to clear"]
pub struct Places<'room>(ChunksExact<'room, u64>);

impl Iterator for Places<'_> {
    type Item = Place;

    #[inline]
    fn next(&mut self) -> Option<Place> {
        self.0.next().map(Place::from_numbers)
    }

    #[inline]
    fn size_hint(&self) -> (usize, Option<usize>) {
        self.0.size_hint()
    }
}

impl ExactSizeIterator for Places<'_> {}

impl FusedIterator for Places<'_> {}

impl fmt::Debug for Places<'_> {
    fn fmt(&self, f: &mut fmt::Formatter<'_>) -> fmt::Result {
        f.debug_list().entries(self.clone()).finish()
    }
}

/// Why a book is not made, or a range not applied to it.
#[derive(Clone, Copy, Debug, PartialEq, Eq, Hash)]
#[non_exhaustive]
pub enum BookError {
    /// The texture is out of its bounds; [`Texture`] gives them.
    InvalidTextureRecord,

    /// The book's texture has no such level, or the layers' end lies below their start or above the texture's layers.
    InvalidRange,

    /// [`Book::update_layers`] or [`Book::missing_layers`] was lent too few numbers.
    SliceTooShort,
}

impl BookError {
    /// The refusal's number: 2, 39 or 38.
    ///
    /// ```
    /// # use copy_planner::BookError;
    /// assert_eq!(BookError::InvalidRange.number(), 39);
    /// ```
    pub const fn number(&self) -> u32 {
        match self {
            Self::InvalidTextureRecord => 2,
            Self::InvalidRange => 39,
            Self::SliceTooShort => 38,
        }
    }

    /// The error of a refusal's number.
    #[cold]
    fn of(number: u32) -> Self {
        match number {
            2 => Self::InvalidTextureRecord,
            38 => Self::SliceTooShort,
            39 => Self::InvalidRange,
            _ => unreachable!("no call with a book is refused with {number}"),
        }
    }
}

impl fmt::Display for BookError {
    fn fmt(&self, f: &mut fmt::Formatter<'_>) -> fmt::Result {
        f.write_str(match self {
            Self::InvalidTextureRecord => "the book's texture is out of its bounds",
            Self::InvalidRange => "the range is not of the book's levels and layers",
            Self::SliceTooShort => "the places have more numbers than the slice",
        })
    }
}

impl Error for BookError {}

/// Records and ranges that no texture and no plan has. Books and words of ranges like these are not met through the crate, but a caller in C may
/// lend any.
#[cfg(test)]
mod tests {
    use std::mem::{align_of, offset_of, size_of};

    use super::*;
    use crate::ffi::BOOK_MARKS;
    use crate::flags::TextureUsages;
    use crate::resources::{Extent3d, TextureDimension, TextureFormat};

    fn stray(mip_level_count: u32, array_layer_count: u32, mark: u8) -> Book {
        Book {
            id: 0,
            record: BookRecord {
                mip_level_count,
                array_layer_count,
                marks: [mark; BOOK_MARKS],
            },
        }
    }

    #[test]
    fn layout() {
        let offsets = [
            offset_of!(BookRecord, mip_level_count),
            offset_of!(BookRecord, array_layer_count),
            offset_of!(BookRecord, marks),
        ];
        assert_eq!(offsets, [0, 4, 8]);
        let size = (size_of::<BookRecord>(), align_of::<BookRecord>());
        assert_eq!(size, (3_592, 4));
    }

    /// A range as its words say it, at a level: the refusal's number, the places and their count.
    fn update_with(book: &mut Book, level: u32, range: RangeRow) -> (u32, [u64; 2], u64) {
        let (mut places, mut count) = ([99; 2], 99);
        // SAFETY: pointer and length are those of one array; it, the book and the count do not overlap.
        let number = unsafe {
            ffi::copy_planner_update_book(
                &mut book.record,
                level,
                &range,
                places.as_mut_ptr(),
                places.len(),
                &mut count,
            )
        };
        (number, places, count)
    }

    /// No range is never refused and does nothing, and every kind above 2 needs memory.
    #[test]
    fn kinds_as_words() {
        for mut book in [stray(2, 3, 0), stray(15, 257, 0)] {
            let before = book.clone();
            for range in [[0; 3], [0, 0, 3], [0, 3, 0], [0, u64::MAX, u64::MAX]] {
                for level in [0, u32::MAX] {
                    let nothing = (0, [99; 2], 0);
                    assert_eq!(update_with(&mut book, level, range), nothing);
                    assert_eq!(book, before);
                }
            }
        }
        for kind in [2, 3, 1 << 32, (1 << 32) + 1, u64::MAX] {
            let mut book = stray(2, 3, 0);
            let two = update_with(&mut book, 1, [kind, 0, 2]);
            assert_eq!(two, (38, [99; 2], 0), "{kind}");
            let one = update_with(&mut book, 1, [kind, 2, 3]);
            assert_eq!(one, (0, [1, 2], 1), "{kind}");
            let past = update_with(&mut book, 1, [kind, 2, 4]);
            assert_eq!(past, (39, [99; 2], 0), "{kind}");
        }
    }

    /// A refused texture's book is empty, whatever lay there before.
    #[test]
    fn books_of_ill_textures() {
        let texture = Texture {
            id: 0,
            format: TextureFormat::R8Unorm,
            dimension: TextureDimension::D2,
            size: Extent3d {
                width: 1,
                height: 1,
                depth_or_array_layers: 257,
            },
            mip_level_count: 1,
            sample_count: 1,
            usage: TextureUsages::COPY_DST,
        };
        let mut record = MaybeUninit::new(stray(9, 9, 9).record);
        // SAFETY: both are lent and do not overlap.
        let number = unsafe { ffi::copy_planner_new_book(&texture, &mut record) };
        assert_eq!(number, 2);
        // SAFETY: it was written before the call.
        assert!(unsafe { record.assume_init() } == stray(0, 0, 0).record);
    }

    /// More levels or layers than there are marks for: every range is refused, and nothing is written or filled.
    #[test]
    fn counts_past_the_marks() {
        use MemoryInitKind::*;
        for (levels, layers) in [
            (15, 1),
            (1, 257),
            (u32::MAX, u32::MAX),
            (14, 257),
            (15, 256),
        ] {
            let mut book = stray(levels, layers, 1);
            let before = book.clone();
            for level in [0, 13, 14, u32::MAX] {
                let mut out = [99; 4];
                for layers in [0..0, 0..1, 0..257, 256..256, 0..u64::MAX] {
                    for kind in [ImplicitlyInitialized, NeedsInitializedMemory] {
                        let answer = book.update_layers(level, layers.clone(), kind, &mut out);
                        assert_eq!(answer, Err(BookError::InvalidRange));
                    }
                }
                let answer = book.missing_layers(level, &mut out);
                assert_eq!(answer, Err(BookError::InvalidRange));
                assert_eq!(out, [99; 4]);
                assert!(!book.is_written(level, 0) && !book.is_written(level, 256));
            }
            assert!(!book.is_filled());
            assert_eq!(book, before);
            assert!(format!("{book:?}").starts_with("Book { id: 0, "));
        }
    }

    /// Without levels every range is refused; without layers all but the empty one. Neither book is filled.
    #[test]
    fn no_levels_or_no_layers() {
        let kind = MemoryInitKind::NeedsInitializedMemory;
        let mut book = stray(0, 256, 1);
        let answer = book.update_layers(0, 0..0, kind, &mut []);
        assert_eq!(answer, Err(BookError::InvalidRange));
        assert!(!book.is_filled());
        let mut book = stray(14, 0, 1);
        assert_eq!(book.update_layers(13, 0..0, kind, &mut []), Ok(0));
        assert_eq!(book.missing_layers(13, &mut []), Ok(0));
        let answer = book.update_layers(13, 0..1, kind, &mut []);
        assert_eq!(answer, Err(BookError::InvalidRange));
        assert!(!book.is_filled());
    }

    /// Any byte but 0 is a mark, and stays as it is where nothing is marked over it.
    #[test]
    fn stray_marks() {
        let mut book = stray(14, 256, 7);
        assert!(book.is_filled());
        book.record.marks[3 * BOOK_LAYERS + 4] = 0;
        book.record.marks[3 * BOOK_LAYERS + 5] = 255;
        assert!(!book.is_filled() && !book.is_written(3, 4) && book.is_written(3, 5));
        let mut out = [99; 3];
        let kind = MemoryInitKind::NeedsInitializedMemory;
        assert_eq!(book.update_layers(3, 4..6, kind, &mut out), Ok(1));
        assert_eq!(out, [3, 4, 99]);
        assert!(book.is_filled());
        let marks = &book.record.marks[3 * BOOK_LAYERS..];
        assert_eq!(marks[3..7], [7, 1, 1, 7]);
    }
}
