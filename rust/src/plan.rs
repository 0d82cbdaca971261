//! The plan of an accepted copy.

use std::iter::{Enumerate, FusedIterator};
use std::mem::MaybeUninit;
use std::ops::Range;
use std::ptr;
use std::slice;

use crate::error::TransferError;
use crate::ffi::RangeRow;
use crate::regions::Region;
use crate::resources::{Buffer, TexelCopyTextureInfo};

/// The word that says how many regions are left.
const REGIONS_LEFT: usize = 0;

/// An accepted copy: its regions, and the ranges of memory that must be initialised or that it initialises.
///
/// A copy with width, height, depth or size 0 has no regions and no ranges.
#[derive(Debug, PartialEq, Eq)]
pub struct Plan<R: Region>(Parts<R>);

#[derive(Clone, Copy, Debug, PartialEq, Eq)]
struct Parts<R: Region> {
    words: R::Words,
    ranges: R::Ranges,
    resources: Resources,
}

impl<R: Region> Clone for Plan<R> {
    /// All parts at once, which is faster than one by one.
    #[inline]
    fn clone(&self) -> Self {
        Self(self.0)
    }
}

impl<R: Region> Plan<R> {
    /// How many regions were not yet asked for.
    #[inline]
    pub fn regions_left(&self) -> usize {
        regions_left::<R>(&self.0.words)
    }

    /// How many numbers [`write_regions`](Self::write_regions) needs room for.
    #[inline]
    pub fn numbers_left(&self) -> usize {
        self.regions_left() * R::NUMBERS
    }

    /// The bytes that the buffers, or the block of memory, were checked for; 0 between textures.
    #[inline]
    pub fn bytes_checked(&self) -> u64 {
        R::BYTES_CHECKED.map_or(0, |word| self.0.words.as_ref()[word])
    }

    /// The memory that must be initialised before the copy, or that the copy itself initialises, in wgpu-core's order. Asking for
    /// regions does not change it. A [`Book`](crate::Book) takes these ranges, and says which layers are to be cleared.
    #[inline]
    pub fn ranges(&self) -> Ranges<'_> {
        Ranges {
            rows: self.0.ranges.as_ref().iter().enumerate(),
            resources: &self.0.resources,
        }
    }

    /// The regions left; the plan stays where it is.
    #[inline]
    pub fn regions(&self) -> Regions<R> {
        Regions {
            words: self.0.words,
        }
    }

    /// The next region, with the plan moved past it; `None`, with the plan as it was, where none is left.
    #[inline]
    pub fn next_region(&mut self) -> Option<R> {
        next_region(&mut self.0.words)
    }

    /// Writes the numbers of the regions left from the start of `out` on, [`Region::NUMBERS`] each, moves the plan past them
    /// and returns how many numbers they are. What lies after them in `out` keeps its value.
    ///
    /// # Errors
    ///
    /// [`TransferError::RegionSliceTooShort`] where `out` has fewer than [`numbers_left`](Self::numbers_left) numbers; then
    /// neither `out` nor the plan is changed.
    #[inline]
    pub fn write_regions(&mut self, out: &mut [u64]) -> Result<usize, TransferError> {
        let numbers = self.numbers_left();
        // SAFETY: pointer and length are those of one slice, which is lent and does not overlap with the plan.
        let refused = unsafe { R::WRITE(&mut self.0.words, out.as_mut_ptr(), out.len()) };
        match refused {
            0 => Ok(numbers),
            _ => Err(TransferError::RegionSliceTooShort),
        }
    }
}

#[inline]
fn regions_left<R: Region>(words: &R::Words) -> usize {
    words.as_ref()[REGIONS_LEFT] as usize
}

#[inline]
fn next_region<R: Region>(words: &mut R::Words) -> Option<R> {
    // Spares the call that would say so.
    if regions_left::<R>(words) == 0 {
        return None;
    }
    let mut numbers = MaybeUninit::uninit();
    // SAFETY: both are lent and do not overlap.
    unsafe { R::NEXT(words, &mut numbers) };
    // SAFETY: the call has written every number.
    let numbers = unsafe { numbers.assume_init_ref() };
    Some(R::from_numbers(numbers))
}

/// Room for a plan, for callers to whom every nanosecond counts. A plan is large, and a function that returns one moves it, often
/// more than once, which is felt beside the planning itself. Here it is written where it is read.
///
/// ```
/// # use copy_planner::*;
/// # let device = Device::default();
/// # let [src, dst] = [0, 1].map(|id| Buffer {
/// #     id,
/// #     size: 64,
/// #     usage: BufferUsages::COPY_SRC | BufferUsages::COPY_DST,
/// # });
/// let mut room = PlanRoom::new();
/// for offset in [0, 16, 32, 48] {
///     let plan = room.copy_buffer_to_buffer(device, &src, offset, &dst, offset, Some(16))?;
///     while let Some(region) = plan.next_region() {
///         assert_eq!(region.src_offset, offset);
///     }
/// }
/// # Ok::<(), TransferError>(())
/// ```
#[derive(Debug)]
pub struct PlanRoom<R: Region>(MaybeUninit<Plan<R>>);

impl<R: Region> PlanRoom<R> {
    /// Room with no plan in it.
    #[inline]
    pub const fn new() -> Self {
        Self(MaybeUninit::uninit())
    }

    /// Has `call` write a plan. It returns 0 for an accepted copy, else the refusal's number; `refused` makes an error of this and
    /// the plan's words.
    ///
    /// # Safety
    ///
    /// `call` must write every word of both arrays that it is lent.
    #[inline]
    pub(crate) unsafe fn plan(
        &mut self,
        resources: Resources,
        call: impl FnOnce(&mut MaybeUninit<R::Words>, &mut MaybeUninit<R::Ranges>) -> u32,
        refused: impl FnOnce(u32, &[u64]) -> TransferError,
    ) -> Result<&mut Plan<R>, TransferError> {
        let plan = self.0.as_mut_ptr();
        // SAFETY: these are fields of what `plan` points to, apart from one another; a lent one need not be initialised.
        let (words, ranges): (&mut MaybeUninit<R::Words>, _) = unsafe {
            (
                &mut *ptr::addr_of_mut!((*plan).0.words).cast(),
                &mut *ptr::addr_of_mut!((*plan).0.ranges).cast(),
            )
        };
        let number = call(words, ranges);
        if number != 0 {
            // SAFETY: the call has written every word.
            return Err(refused(number, unsafe { words.assume_init_ref() }.as_ref()));
        }
        // SAFETY: the call has written every word of both arrays, and a plan has nothing else but the resources.
        Ok(unsafe {
            ptr::addr_of_mut!((*plan).0.resources).write(resources);
            self.0.assume_init_mut()
        })
    }
}

impl<R: Region> Default for PlanRoom<R> {
    fn default() -> Self {
        Self::new()
    }
}

/// The regions of a plan, in order. Made by [`Plan::regions`].
#[derive(Clone, Debug)]
pub struct Regions<R: Region> {
    words: R::Words,
}

impl<R: Region> Iterator for Regions<R> {
    type Item = R;

    #[inline]
    fn next(&mut self) -> Option<R> {
        next_region(&mut self.words)
    }

    #[inline]
    fn size_hint(&self) -> (usize, Option<usize>) {
        let left = regions_left::<R>(&self.words);
        (left, Some(left))
    }
}

impl<R: Region> ExactSizeIterator for Regions<R> {}

impl<R: Region> FusedIterator for Regions<R> {}

/// The resource that a row of ranges is about.
#[derive(Clone, Copy, Debug, PartialEq, Eq)]
pub(crate) enum Resource {
    Texture {
        id: u32,
        mip_level: u32,
    },
    Buffer {
        id: u32,
    },
    /// A block of memory, of which there are no ranges: it is not the device's.
    Memory,
}

impl From<&Buffer> for Resource {
    #[inline]
    fn from(buffer: &Buffer) -> Self {
        Self::Buffer { id: buffer.id }
    }
}

impl From<&TexelCopyTextureInfo<'_>> for Resource {
    #[inline]
    fn from(info: &TexelCopyTextureInfo<'_>) -> Self {
        Self::Texture {
            id: info.texture.id,
            mip_level: info.mip_level,
        }
    }
}

/// The resource of the first row of ranges, and that of all others.
pub(crate) type Resources = [Resource; 2];

/// What a range is to the copy.
#[derive(Clone, Copy, Debug, PartialEq, Eq, Hash)]
pub enum MemoryInitKind {
    /// The copy fills it.
    ImplicitlyInitialized,
    /// It must be initialised before the copy.
    NeedsInitializedMemory,
}

/// A part of a texture or a buffer, half-open. A range whose end lies below its start covers nothing, and one of a buffer may reach
/// past its size, up to the next multiple of 4. Both are wgpu-core's own answers.
#[derive(Clone, Debug, PartialEq, Eq, Hash)]
pub enum InitRange {
    /// Layers of a texture's level.
    Texture {
        /// The texture's id.
        id: u32,
        /// The level.
        mip_level: u32,
        /// The layers; 0 to 1 for a volume.
        layers: Range<u64>,
        /// What they are to the copy.
        kind: MemoryInitKind,
    },
    /// Bytes of a buffer.
    Buffer {
        /// The buffer's id.
        id: u32,
        /// The bytes.
        range: Range<u64>,
        /// What they are to the copy.
        kind: MemoryInitKind,
    },
}

impl InitRange {
    /// The range of a row of words; none where its kind is 0, nor of a block of memory.
    #[inline]
    fn from_row(resource: Resource, &[kind, start, end]: &RangeRow) -> Option<Self> {
        let kind = match kind {
            0 => return None,
            1 => MemoryInitKind::ImplicitlyInitialized,
            _ => MemoryInitKind::NeedsInitializedMemory,
        };
        Some(match resource {
            Resource::Texture { id, mip_level } => Self::Texture {
                id,
                mip_level,
                layers: start..end,
                kind,
            },
            Resource::Buffer { id } => Self::Buffer {
                id,
                range: start..end,
                kind,
            },
            Resource::Memory => return None,
        })
    }
}

/// The ranges of a plan, in order. Made by [`Plan::ranges`].
#[derive(Clone, Debug)]
pub struct Ranges<'a> {
    rows: Enumerate<slice::Iter<'a, RangeRow>>,
    resources: &'a Resources,
}

impl Iterator for Ranges<'_> {
    type Item = InitRange;

    #[inline]
    fn next(&mut self) -> Option<InitRange> {
        let [first, others] = *self.resources;
        self.rows.find_map(|(number, row)| {
            let resource = if number == 0 { first } else { others };
            InitRange::from_row(resource, row)
        })
    }

    #[inline]
    fn size_hint(&self) -> (usize, Option<usize>) {
        (0, Some(self.rows.len()))
    }
}

impl FusedIterator for Ranges<'_> {}
