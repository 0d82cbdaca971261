//! Books: what has to be cleared before a copy, and what is written after it.

mod common;

use std::collections::HashSet;
use std::ops::Range;

use common::*;
use copy_planner::*;
use MemoryInitKind::{ImplicitlyInitialized, NeedsInitializedMemory};
use TextureDimension::{D1, D2, D3};
use TextureFormat::{Depth24PlusStencil8, R8Unorm, Rg8Unorm, NV12};

/// What a slice holds where nothing is written to it.
const UNTOUCHED: u64 = 99;

/// A texture of so many levels and layers.
fn layered(mip_level_count: u32, layers: u32) -> Texture {
    Texture {
        mip_level_count,
        ..texture(0, R8Unorm, D2, [8_192, 1, layers])
    }
}

fn book(mip_level_count: u32, layers: u32) -> Book {
    Book::new(&layered(mip_level_count, layers)).unwrap()
}

/// The layers of level 0 that have to be cleared before a copy with this range.
#[track_caller]
fn cleared(book: &mut Book, layers: Range<u64>, kind: MemoryInitKind) -> Vec<u64> {
    let mut out = [UNTOUCHED; 520];
    let count = book.update_layers(0, layers, kind, &mut out).unwrap();
    let (numbers, rest) = out.split_at(count * Place::NUMBERS);
    assert!(rest.iter().all(|number| *number == UNTOUCHED));
    assert!(numbers.chunks(2).all(|place| place[0] == 0));
    numbers.chunks(2).map(|place| place[1]).collect()
}

/// The layers of a level that are not written.
#[track_caller]
fn missing(book: &Book, mip_level: u32) -> Vec<u32> {
    let mut room = PlaceRoom::new();
    let places = book.missing(mip_level, &mut room).unwrap();
    places
        .map(|place| {
            assert_eq!(place.mip_level, mip_level);
            place.array_layer
        })
        .collect()
}

/// The plan of a write from memory to layers of a texture's level 0, as wide as is told.
fn write_of(
    texture: &Texture,
    layers: Range<u32>,
    width: u32,
) -> Result<Plan<BufferTextureCopy>, TransferError> {
    let size = extent([width, texture.size.height, layers.len() as u32]);
    let mut dst = from_start(texture);
    dst.origin.z = layers.start;
    let rows = layout(0, Some(width), Some(size.height));
    write_texture(DEVICE, dst, 1 << 30, rows, size)
}

/// All that has to be cleared before a plan of a texture's copy, in the book's order.
fn apply<R: Region>(book: &mut Book, plan: &Plan<R>) -> Vec<(u32, u32)> {
    let mut room = PlaceRoom::new();
    let mut places = Vec::new();
    for range in plan.ranges() {
        places.extend(book.update(&range, &mut room).unwrap());
    }
    places
        .into_iter()
        .map(|place| (place.mip_level, place.array_layer))
        .collect()
}

/// A pool once took both ends of a range as its own. Two loads fill layers 0 to 3 and 5 to 7, and layer 4 is nobody's.
#[test]
fn the_layer_between_two_loads() {
    let mut book = book(1, 8);
    assert_eq!(cleared(&mut book, 0..4, ImplicitlyInitialized), []);
    assert_eq!(cleared(&mut book, 5..8, ImplicitlyInitialized), []);
    assert!(book.is_written(0, 3) && !book.is_written(0, 4) && book.is_written(0, 5));
    assert_eq!(missing(&book, 0), [4]);
    assert!(!book.is_filled());
    assert_eq!(cleared(&mut book, 4..5, NeedsInitializedMemory), [4]);
    assert_eq!(cleared(&mut book, 4..5, NeedsInitializedMemory), []);
    assert_eq!(missing(&book, 0), []);
    assert!(book.is_filled());
}

/// The same with the plans of copies.
#[test]
fn the_layer_between_two_planned_loads() {
    let sheet = texture(3, R8Unorm, D2, [16, 4, 8]);
    let mut book = Book::new(&sheet).unwrap();
    for layers in [0..4, 5..8] {
        let plan = write_of(&sheet, layers, 16).unwrap();
        assert_eq!(apply(&mut book, &plan), []);
    }
    assert_eq!(missing(&book, 0), [4]);
    // All layers are read, and one of them was never written.
    let to = buffer(0, 1 << 20);
    let rows = strided(&to, Some(256), Some(4));
    let print = copy_texture_to_buffer(DEVICE, from_start(&sheet), rows, sheet.size).unwrap();
    assert_eq!(apply(&mut book, &print), [(0, 4)]);
    assert!(book.is_filled());
}

#[test]
fn parts_are_cleared_once() {
    let sheet = texture(3, R8Unorm, D2, [16, 4, 3]);
    let mut book = Book::new(&sheet).unwrap();
    let part = write_of(&sheet, 1..3, 15).unwrap();
    assert_eq!(apply(&mut book, &part), [(0, 1), (0, 2)]);
    assert_eq!(apply(&mut book, &part), []);
    assert_eq!(missing(&book, 0), [0]);
    // A refused copy has no plan, and one of size 0 no ranges.
    assert!(write_of(&sheet, 2..4, 16).is_err());
    let nothing = write_of(&sheet, 0..0, 16).unwrap();
    assert_eq!(apply(&mut book, &nothing), []);
    assert_eq!(missing(&book, 0), [0]);
}

/// An aspect of a layer is a part of it, and so is a plane.
#[test]
fn aspects_have_no_marks_of_their_own() {
    let aspects = [
        (Depth24PlusStencil8, TextureAspect::StencilOnly, [8, 8, 1]),
        (NV12, TextureAspect::Plane0, [8, 8, 1]),
    ];
    for (format, aspect, size) in aspects {
        let texels = texture(3, format, D2, size);
        let mut book = Book::new(&texels).unwrap();
        let dst = TexelCopyTextureInfo {
            aspect,
            ..from_start(&texels)
        };
        let rows = layout(0, Some(8), Some(8));
        let plan = write_texture(DEVICE, dst, 64, rows, texels.size).unwrap();
        assert_eq!(apply(&mut book, &plan), [(0, 0)], "{format:?}");
        assert!(book.is_filled(), "{format:?}");
    }
}

/// Between textures, the source's range comes first, and each is for its own book.
#[test]
fn copies_between_textures() {
    let [src, dst] = [1, 2].map(|id| texture(id, R8Unorm, D2, [8, 8, 4]));
    let [mut from, mut to] = [&src, &dst].map(|texture| Book::new(texture).unwrap());
    let mut into = from_start(&dst);
    into.origin.z = 1;
    let size = extent([8, 8, 3]);
    let plan = copy_texture_to_texture(from_start(&src), into, size).unwrap();
    assert_eq!(apply(&mut from, &plan), [(0, 0), (0, 1), (0, 2)]);
    assert_eq!(apply(&mut to, &plan), []);
    assert_eq!((missing(&from, 0), missing(&to, 0)), (vec![3], vec![0]));
}

/// Within one texture, layers that are read and then written are cleared for their being read.
#[test]
fn copies_within_a_texture() {
    let texels = texture(5, R8Unorm, D2, [8, 8, 5]);
    let mut book = Book::new(&texels).unwrap();
    let mut into = from_start(&texels);
    into.origin.z = 2;
    let part = extent([7, 8, 2]);
    let plan = copy_texture_to_texture(from_start(&texels), into, part).unwrap();
    assert_eq!(apply(&mut book, &plan), [(0, 0), (0, 1), (0, 2), (0, 3)]);
    assert_eq!(missing(&book, 0), [4]);
}

/// Ranges of buffers and of other textures are no book's, even where their numbers are layers.
#[test]
fn ranges_of_others() {
    let mut book = book(1, 8);
    let before = book.clone();
    let kind = ImplicitlyInitialized;
    let (id, mip_level, layers) = (book.id() + 1, 0, 0..8);
    let other = InitRange::Texture {
        id,
        mip_level,
        layers,
        kind,
    };
    let (id, range) = (book.id(), 0..8);
    let bytes = InitRange::Buffer { id, range, kind };
    let mut room = PlaceRoom::new();
    for range in [other, bytes] {
        assert_eq!(book.update(&range, &mut room).unwrap().len(), 0);
        assert_eq!(book, before);
    }
}

#[test]
fn levels_and_layers_of_textures() {
    let cases = [
        (D1, [8_192, 1, 1], 1, 1),
        (D2, [8_192, 8_192, 256], 14, 256),
        (D2, [1, 1, 1], 1, 1),
        (D3, [2_048, 2_048, 2_048], 12, 1),
        (D3, [1, 1, 2], 2, 1),
    ];
    for (dimension, size, mip_level_count, layers) in cases {
        let texels = Texture {
            mip_level_count,
            ..texture(9, R8Unorm, dimension, size)
        };
        let book = Book::new(&texels).unwrap();
        let counts = (book.mip_level_count(), book.array_layer_count());
        assert_eq!(counts, (mip_level_count, layers), "{texels:?}");
        assert_eq!(book.id(), 9);
        assert!(!book.is_filled());
        let all: Vec<u32> = (0..layers).collect();
        assert!((0..mip_level_count).all(|level| missing(&book, level) == all));
    }
}

/// Whatever slices of a volume are copied, it is layer 0 that is cleared and written.
#[test]
fn volumes_have_one_layer() {
    let volume = texture(0, R8Unorm, D3, [8, 4, 16]);
    let mut book = Book::new(&volume).unwrap();
    let slices = write_of(&volume, 9..16, 8).unwrap();
    assert_eq!(apply(&mut book, &slices), [(0, 0)]);
    assert!(book.is_filled());
    assert!(!book.is_written(0, 1));
    let mut out = [UNTOUCHED; 2];
    assert_eq!(
        book.update_layers(0, 0..2, NeedsInitializedMemory, &mut out),
        Err(BookError::InvalidRange)
    );

    let mut whole = Book::new(&volume).unwrap();
    let slices = write_of(&volume, 0..16, 8).unwrap();
    assert_eq!(apply(&mut whole, &slices), []);
    assert_eq!(whole, book);
}

#[test]
fn ill_textures() {
    let ill = [
        layered(1, 257),
        layered(1, 0),
        layered(0, 1),
        layered(15, 1),
        texture(0, R8Unorm, D3, [1, 1, 2_049]),
        texture(0, R8Unorm, D1, [1, 1, 2]),
        texture(0, NV12, D2, [1, 2, 1]),
    ];
    for texture in ill {
        let refused = Book::new(&texture).unwrap_err();
        assert_eq!(refused, BookError::InvalidTextureRecord, "{texture:?}");
        assert_eq!(refused.number(), 2);
    }
}

/// Has a range refused, with an empty slice and with a long one, and sees that neither slice nor book is changed.
#[track_caller]
fn expect_refusal(book: &mut Book, level: u32, layers: Range<u64>, room: usize, number: u32) {
    let before = book.clone();
    let mut out = vec![UNTOUCHED; room];
    let refused = book.update_layers(level, layers, NeedsInitializedMemory, &mut out);
    assert_eq!(refused.map_err(|e| e.number()), Err(number));
    assert_eq!(out, vec![UNTOUCHED; room]);
    assert_eq!(*book, before);
}

/// Each of these is refused whatever the slice, and an accepted range behind it only for its slice.
#[test]
fn ranges_before_slices() {
    let mut book = book(3, 8);
    let past_32_bits = 1 << 32;
    for room in [0, 1, 600] {
        for level in [3, 13, 14, u32::MAX] {
            expect_refusal(&mut book, level, 0..8, room, 39);
            expect_refusal(&mut book, level, 0..0, room, 39);
        }
        #[allow(clippy::reversed_empty_ranges)]
        let ill = [
            4..3,
            8..0,
            u64::MAX..0,
            0..9,
            9..9,
            0..256,
            0..u64::MAX,
            u64::MAX..u64::MAX,
            past_32_bits..past_32_bits + 8,
            0..past_32_bits + 8,
        ];
        for layers in ill {
            expect_refusal(&mut book, 2, layers, room, 39);
        }
    }
    for room in 0..16 {
        expect_refusal(&mut book, 2, 0..8, room, 38);
    }
    let mut out = [UNTOUCHED; 16];
    assert_eq!(
        book.update_layers(2, 0..8, NeedsInitializedMemory, &mut out),
        Ok(8)
    );
}

/// The slice has to hold the places that are written, however long the range is.
#[test]
fn slices_hold_places_not_ranges() {
    let mut book = book(1, 256);
    assert_eq!(
        book.update_layers(0, 0..256, ImplicitlyInitialized, &mut []),
        Ok(0)
    );
    assert_eq!(
        book.update_layers(0, 0..256, NeedsInitializedMemory, &mut []),
        Ok(0)
    );

    let mut book = self::book(1, 256);
    assert_eq!(cleared(&mut book, 0..100, ImplicitlyInitialized), []);
    assert_eq!(cleared(&mut book, 102..255, ImplicitlyInitialized), []);
    for room in 0..6 {
        expect_refusal(&mut book, 0, 0..256, room, 38);
    }
    let mut out = [UNTOUCHED; 6];
    assert_eq!(book.missing_layers(0, &mut out), Ok(3));
    assert_eq!(out, [0, 100, 0, 101, 0, 255]);
    out = [UNTOUCHED; 6];
    assert_eq!(
        book.update_layers(0, 0..256, NeedsInitializedMemory, &mut out),
        Ok(3)
    );
    assert_eq!(out, [0, 100, 0, 101, 0, 255]);
}

#[test]
fn missing_layers_are_refused_alike() {
    let book = book(2, 3);
    let before = book.clone();
    for room in 0..8 {
        let mut out = vec![UNTOUCHED; room];
        assert_eq!(
            book.missing_layers(2, &mut out),
            Err(BookError::InvalidRange)
        );
        assert_eq!(out, vec![UNTOUCHED; room]);
        let answer = book.missing_layers(1, &mut out);
        if room < 6 {
            assert_eq!(answer, Err(BookError::SliceTooShort));
            assert_eq!(out, vec![UNTOUCHED; room]);
        } else {
            assert_eq!(answer, Ok(3));
            assert_eq!(out[..6], [1, 0, 1, 1, 1, 2]);
            assert_eq!(out[6..], vec![UNTOUCHED; room - 6]);
        }
    }
    assert_eq!(book, before);
}

/// Nothing is needed for them and nothing marked, wherever they lie among the layers, and behind the last.
#[test]
fn empty_ranges() {
    let mut book = book(2, 8);
    let before = book.clone();
    for kind in [ImplicitlyInitialized, NeedsInitializedMemory] {
        for layer in 0..=8 {
            assert_eq!(book.update_layers(1, layer..layer, kind, &mut []), Ok(0));
            assert_eq!(book, before);
        }
        assert_eq!(
            book.update_layers(1, 9..9, kind, &mut []),
            Err(BookError::InvalidRange)
        );
    }
}

#[test]
fn levels_and_layers_past_the_book() {
    let mut full = book(14, 256);
    for level in 0..14 {
        assert!(!full.is_filled());
        let answer = full.update_layers(level, 0..256, ImplicitlyInitialized, &mut []);
        assert_eq!(answer, Ok(0));
    }
    assert!(full.is_filled());
    assert!(full.is_written(13, 255));
    for (level, layer) in [(14, 0), (0, 256), (13, 256), (u32::MAX, 0), (0, u32::MAX)] {
        assert!(!full.is_written(level, layer), "{level} {layer}");
    }
    // The next level's first mark lies behind the last layer's.
    let mut row = book(2, 256);
    let answer = row.update_layers(1, 0..1, ImplicitlyInitialized, &mut []);
    assert_eq!(answer, Ok(0));
    assert!(row.is_written(1, 0) && !row.is_written(0, 255) && !row.is_written(0, 256));
}

#[test]
fn errors_and_what_is_printed() {
    let errors = [
        (BookError::InvalidTextureRecord, 2),
        (BookError::SliceTooShort, 38),
        (BookError::InvalidRange, 39),
    ];
    for (error, number) in errors {
        assert_eq!(error.number(), number);
        let error: Box<dyn std::error::Error> = error.into();
        assert!(!error.to_string().is_empty());
    }
    let mut book = book(3, 8);
    for (level, layers) in [(0, 0..4), (0, 5..8), (2, 7..8)] {
        let answer = book.update_layers(level, layers, ImplicitlyInitialized, &mut []);
        assert_eq!(answer, Ok(0));
    }
    assert_eq!(
        format!("{book:?}"),
        "Book { id: 0, mip_level_count: 3, array_layer_count: 8, written: [[0..4, 5..8], [], [7..8]] }"
    );
    let mut room = PlaceRoom::new();
    assert_eq!(
        format!("{:?}", book.missing(0, &mut room).unwrap()),
        "[Place { mip_level: 0, array_layer: 4 }]"
    );
    assert_eq!(format!("{room:?}"), "PlaceRoom { .. }");
}

/// A book as a set of what is written.
struct Model {
    levels: u32,
    layers: u32,
    written: HashSet<(u32, u64)>,
}

impl Model {
    /// Of the layers of a level, those that are not written.
    fn unwritten(&self, level: u32, layers: Range<u64>) -> Vec<u64> {
        layers
            .filter(|layer| !self.written.contains(&(level, *layer)))
            .collect()
    }

    /// Writes the layers that are to be cleared, with the level before each, or says why not.
    fn put(level: u32, layers: &[u64], out: &mut [u64]) -> Result<usize, u32> {
        if out.len() < 2 * layers.len() {
            return Err(38);
        }
        for (place, layer) in out.chunks_mut(2).zip(layers) {
            place.copy_from_slice(&[level.into(), *layer]);
        }
        Ok(layers.len())
    }

    fn update(
        &mut self,
        level: u32,
        layers: Range<u64>,
        kind: MemoryInitKind,
        out: &mut [u64],
    ) -> Result<usize, u32> {
        if level >= self.levels || layers.start > layers.end || layers.end > u64::from(self.layers)
        {
            return Err(39);
        }
        let places = match kind {
            ImplicitlyInitialized => Vec::new(),
            NeedsInitializedMemory => self.unwritten(level, layers.clone()),
        };
        let count = Self::put(level, &places, out)?;
        self.written.extend(layers.map(|layer| (level, layer)));
        Ok(count)
    }

    fn missing(&self, level: u32, out: &mut [u64]) -> Result<usize, u32> {
        if level >= self.levels {
            return Err(39);
        }
        Self::put(level, &self.unwritten(level, 0..self.layers.into()), out)
    }

    fn is_filled(&self) -> bool {
        self.written.len() as u64 == u64::from(self.levels) * u64::from(self.layers)
    }
}

/// A book and its model, given the same.
struct Pair {
    book: Book,
    model: Model,
}

impl Pair {
    fn random(random: &mut Random) -> Self {
        let levels = 1 + random.below(14) as u32;
        let (dimension, levels, size) = match random.below(8) {
            0 => (D1, 1, [8_192, 1, 1]),
            1 => (D3, 12.min(levels), [1, 1, 2_048]),
            _ => {
                let layers = random.pick(&[1, 2, 8, 31, 256]);
                (D2, random.pick(&[levels, 1, 2]), [8_192, 1, layers])
            }
        };
        let texels = Texture {
            mip_level_count: levels,
            ..texture(0, R8Unorm, dimension, size)
        };
        let layers = if dimension == D2 { size[2] } else { 1 };
        Self {
            book: Book::new(&texels).unwrap(),
            model: Model {
                levels,
                layers,
                written: HashSet::new(),
            },
        }
    }

    /// Applies a random range to both, and compares the answers and the slices. Tells the answer.
    fn update(&mut self, random: &mut Random) -> Result<usize, u32> {
        let (levels, layers) = (u64::from(self.model.levels), u64::from(self.model.layers));
        let any = random.below(levels);
        let level = random.mostly(&[any, any, any, levels]) as u32;
        let start = random.below(layers + 1);
        let any = random.below(layers + 1);
        let length = random.mostly(&[1, 1, 2, any, layers]);
        let end = match random.below(16) {
            0 => random.pick(&[start.wrapping_sub(1), layers + 1, u64::MAX]),
            _ => layers.min(start + length),
        };
        let kind = random.pick(&[ImplicitlyInitialized, NeedsInitializedMemory]);
        let short = random.below(2 * layers + 2) as usize;
        let room = random.pick(&[520, short]);
        let mut outs = [(); 2].map(|()| vec![UNTOUCHED; room]);
        let before = self.book.clone();
        let book = self
            .book
            .update_layers(level, start..end, kind, &mut outs[0]);
        let model = self.model.update(level, start..end, kind, &mut outs[1]);
        assert_eq!(book.map_err(|e| e.number()), model);
        assert_eq!(outs[0], outs[1]);
        if model.is_err() {
            assert_eq!(self.book, before);
        }
        model
    }

    /// Compares what is missing of a random level, and whether all is written.
    fn compare(&self, random: &mut Random) {
        let level = random.below(u64::from(self.model.levels) + 1) as u32;
        let short = random.below(514) as usize;
        let room = random.mostly(&[520, short]);
        let mut outs = [(); 2].map(|()| vec![UNTOUCHED; room]);
        let book = self.book.missing_layers(level, &mut outs[0]);
        let model = self.model.missing(level, &mut outs[1]);
        assert_eq!(book.map_err(|e| e.number()), model);
        assert_eq!(outs[0], outs[1]);
        assert_eq!(self.book.is_filled(), self.model.is_filled());
    }

    /// Compares every level and layer that any texture has, and some that none has.
    fn compare_all(&self) {
        let all = (0..16).flat_map(|level| (0..260).map(move |layer| (level, layer)));
        let written = all.filter(|(level, layer)| self.book.is_written(*level, *layer));
        let written: HashSet<(u32, u64)> = written
            .map(|(level, layer)| (level, layer.into()))
            .collect();
        assert_eq!(written, self.model.written);
    }
}

#[test]
fn random_updates() {
    const BOOKS: usize = 1_000;
    const UPDATES: usize = 100;
    let mut random = Random(1);
    let mut answers = [0; 5];
    for _ in 0..BOOKS {
        let mut pair = Pair::random(&mut random);
        for _ in 0..UPDATES {
            answers[match pair.update(&mut random) {
                Ok(0) => 0,
                Ok(_) => 1,
                Err(38) => 2,
                Err(_) => 3,
            }] += 1;
            pair.compare(&mut random);
        }
        pair.compare_all();
        answers[4] += usize::from(pair.book.is_filled());
    }
    // Enough of each answer, and enough books that are filled, for the test to mean something.
    let [nothing, places, short, outside, filled] = answers;
    assert!(
        nothing > 10_000 && places > 5_000 && short > 100 && outside > 5_000,
        "{answers:?}"
    );
    assert!((BOOKS / 10..BOOKS).contains(&filled), "{answers:?}");
}

/// A part of a texture for a random copy, often one that is not there.
fn random_view<'a>(random: &mut Random, texture: &'a Texture) -> TexelCopyTextureInfo<'a> {
    let mut start = || random.mostly(&[0, 1, 4]);
    let (x, y, z) = (start(), start(), random.pick(&[0, 1, 2, 3]));
    TexelCopyTextureInfo {
        texture,
        mip_level: random.pick(&[0, 1, 2]),
        origin: Origin3d { x, y, z },
        aspect: TextureAspect::All,
    }
}

/// No range of an accepted copy is refused by the book of its texture; the places to be cleared were not written before; and afterwards
/// every layer that a region names is written.
#[test]
fn ranges_of_random_copies() {
    let mut random = Random(2);
    let mut accepted = 0;
    for _ in 0..500 {
        let dimension = random.mostly(&[D2, D3]);
        let textures = [0, 1].map(|id| Texture {
            mip_level_count: 3,
            ..texture(id, random.pick(&[R8Unorm, Rg8Unorm]), dimension, [8, 8, 4])
        });
        let mut books = [0, 1].map(|at| Book::new(&textures[at]).unwrap());
        for _ in 0..20 {
            let [from, to] = [(); 2].map(|()| random.below(2) as usize);
            let src = random_view(&mut random, &textures[from]);
            let dst = random_view(&mut random, &textures[to]);
            let size = extent([(); 3].map(|()| random.pick(&[8, 4, 2, 1])));
            if random.below(2) == 0 {
                let rows = layout(0, Some(16), Some(8));
                let Ok(plan) = write_texture(DEVICE, dst, 1 << 16, rows, size) else {
                    continue;
                };
                let named = plan.regions().map(|region| (to, region.texture_base));
                check_copy(&mut books, &plan, named);
            } else {
                let Ok(plan) = copy_texture_to_texture(src, dst, size) else {
                    continue;
                };
                let named = plan
                    .regions()
                    .flat_map(|region| [(from, region.src_base), (to, region.dst_base)]);
                check_copy(&mut books, &plan, named);
            }
            accepted += 1;
        }
    }
    assert!(accepted > 1_000, "accepted: {accepted}");
}

/// The places of a range of the book's texture that needs memory and finds them unwritten.
fn unwritten_before(book: &Book, range: &InitRange) -> Vec<Place> {
    match range {
        InitRange::Texture {
            id,
            mip_level,
            layers,
            kind: MemoryInitKind::NeedsInitializedMemory,
        } if *id == book.id() => layers
            .clone()
            .map(|layer| Place {
                mip_level: *mip_level,
                array_layer: layer as u32,
            })
            .filter(|place| !book.is_written(place.mip_level, place.array_layer))
            .collect(),
        _ => Vec::new(),
    }
}

fn check_copy<R: Region>(
    books: &mut [Book; 2],
    plan: &Plan<R>,
    named: impl Iterator<Item = (usize, TextureCopyBase)>,
) {
    let mut room = PlaceRoom::new();
    for range in plan.ranges() {
        for book in books.iter_mut() {
            let before = book.clone();
            let told: Vec<Place> = book.update(&range, &mut room).unwrap().collect();
            assert_eq!(told, unwritten_before(&before, &range));
            for place in told {
                assert!(book.is_written(place.mip_level, place.array_layer));
            }
        }
    }
    for (at, base) in named {
        assert!(books[at].is_written(base.mip_level, base.array_layer));
    }
}
