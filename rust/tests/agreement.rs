//! Random copies: what the functions answer is what the listing says of the same copy in a job sheet. Both come from one planner;
//! held to each other are the two ways in and out of it.

mod common;

use common::*;
use copy_planner::*;

const JOBS: usize = 20_000;

/// One part of a texture, by its index.
#[derive(Clone, Copy)]
struct View {
    texture: usize,
    mip_level: u32,
    origin: Origin3d,
    aspect: TextureAspect,
}

impl View {
    fn random(random: &mut Random) -> Self {
        use TextureAspect::*;
        let mut start = || random.mostly(&[0, 1, 4, 8, u32::MAX]);
        let origin = Origin3d {
            x: start(),
            y: start(),
            z: start(),
        };
        Self {
            texture: random.below(2) as usize,
            mip_level: random.mostly(&[0, 1, 2, u32::MAX]),
            origin,
            aspect: random.mostly(&[All, StencilOnly, DepthOnly, Plane0, Plane1, Plane2]),
        }
    }

    fn of<'a>(&self, textures: &'a [Texture; 2]) -> TexelCopyTextureInfo<'a> {
        TexelCopyTextureInfo {
            texture: &textures[self.texture],
            mip_level: self.mip_level,
            origin: self.origin,
            aspect: self.aspect,
        }
    }

    fn fields(&self) -> String {
        let Origin3d { x, y, z } = self.origin;
        let aspect = self.aspect as u32;
        format!("{} {} {x} {y} {z} {aspect}", self.texture, self.mip_level)
    }
}

/// A device, two textures, two buffers, and what the copies between them ask.
struct Job {
    device: Device,
    textures: [Texture; 2],
    buffers: [Buffer; 2],
    indices: [usize; 2],
    offsets: [u64; 2],
    bytes: Option<u64>,
    /// The length of a block of memory.
    length: u64,
    layout: TexelCopyBufferLayout,
    views: [View; 2],
    size: Extent3d,
}

impl Job {
    fn random(random: &mut Random) -> Self {
        let format = random.pick(&TextureFormat::ALL);
        let offsets = [(); 2].map(|()| random.mostly(&[0, 4, 8, 9, u64::MAX]));
        Self {
            device: Device {
                depth_texture_and_buffer_copies: random.mostly(&[true, false]),
                unrestricted_index_buffer: random.mostly(&[true, false]),
            },
            textures: [0, 1].map(|id| random_texture(random, id, format)),
            buffers: [0, 1].map(|id| random_buffer(random, id)),
            indices: random.mostly(&[[0, 1], [1, 0], [0, 0]]),
            offsets,
            bytes: random.pick(&[None, Some(0), Some(8), Some(60), Some(1 << 40)]),
            length: random.mostly(&[1 << 16, 64, 9, 1 << 40, u64::MAX]),
            layout: TexelCopyBufferLayout {
                offset: offsets[0],
                bytes_per_row: random.mostly(&[Some(256), None, Some(64), Some(u32::MAX - 255)]),
                rows_per_image: random.mostly(&[Some(8), None, Some(2), Some(u32::MAX)]),
            },
            views: [(); 2].map(|()| View::random(random)),
            size: extent([(); 3].map(|()| random.pick(&[1, 2, 4, 8, 0]))),
        }
    }

    /// The job sheet of one copy.
    fn sheet(&self, copy: &str) -> String {
        let [a, b] = self.textures.each_ref().map(texture_fields);
        let [c, d] = self
            .buffers
            .map(|b| format!("{} {}", b.size, b.usage.bits()));
        let depth = u32::from(self.device.depth_texture_and_buffer_copies);
        let index = u32::from(self.device.unrestricted_index_buffer);
        format!("1\n{depth} {index}\n2\n{a}\n{b}\n2\n{c}\n{d}\n1\n{copy}\n")
    }

    /// What the sheet's listing says, and what the function answers.
    fn check<R: Numbered>(&self, copy: &str, answer: Result<Plan<R>, TransferError>) -> bool {
        let sheet = self.sheet(copy);
        let listing = String::from_utf8(list_sheet(sheet.as_bytes())).unwrap();
        assert_eq!(listing, format!("copy 0 {}", listed(&answer)), "{sheet}");
        answer.is_ok()
    }

    fn buffer_to_buffer(&self) -> bool {
        let ([src, dst], [src_offset, dst_offset]) = (self.indices, self.offsets);
        let size = or_absent(self.bytes);
        let answer = copy_buffer_to_buffer(
            self.device,
            &self.buffers[src],
            src_offset,
            &self.buffers[dst],
            dst_offset,
            self.bytes,
        );
        self.check(
            &format!("1 {src} {src_offset} {dst} {dst_offset} {size}"),
            answer,
        )
    }

    /// The fields after the buffer, or after the length, of a copy with one texture.
    fn layout_and_view(&self) -> String {
        let row = or_absent(self.layout.bytes_per_row);
        let rows = or_absent(self.layout.rows_per_image);
        let (view, size) = (self.views[0].fields(), size_fields(self.size));
        format!("{} {row} {rows} {view} {size}", self.layout.offset)
    }

    fn buffer_and_texture(&self) -> [bool; 2] {
        let [index, _] = self.indices;
        let bytes = TexelCopyBufferInfo {
            buffer: &self.buffers[index],
            layout: self.layout,
        };
        let texels = self.views[0].of(&self.textures);
        let fields = format!("{index} {}", self.layout_and_view());
        [
            self.check(
                &format!("2 {fields}"),
                copy_buffer_to_texture(self.device, bytes, texels, self.size),
            ),
            self.check(
                &format!("3 {fields}"),
                copy_texture_to_buffer(self.device, texels, bytes, self.size),
            ),
        ]
    }

    fn memory_to_texture(&self) -> bool {
        let Self { length, layout, .. } = *self;
        let texels = self.views[0].of(&self.textures);
        self.check(
            &format!("5 {length} {}", self.layout_and_view()),
            write_texture(self.device, texels, length, layout, self.size),
        )
    }

    fn texture_to_texture(&self) -> bool {
        let [src, dst] = self.views.map(|view| view.of(&self.textures));
        let [from, to] = self.views.map(|view| view.fields());
        self.check(
            &format!("4 {from} {to} {}", size_fields(self.size)),
            copy_texture_to_texture(src, dst, self.size),
        )
    }
}

fn random_texture(random: &mut Random, id: u32, format: TextureFormat) -> Texture {
    use TextureDimension::*;
    Texture {
        id,
        format: random.mostly(&[format, TextureFormat::R8Unorm, TextureFormat::Rg8Unorm]),
        dimension: random.mostly(&[D2, D3, D1]),
        size: extent([(); 3].map(|()| random.pick(&[8, 4, 1]))),
        mip_level_count: random.mostly(&[1, 2, 3]),
        sample_count: random.mostly(&[1, 4]),
        usage: TextureUsages::from_bits_retain(random.mostly(&[3, 1, 2, 31, 32])),
    }
}

fn random_buffer(random: &mut Random, id: u32) -> Buffer {
    Buffer {
        id,
        size: random.mostly(&[1 << 16, 64, 9, 1 << 40]),
        usage: BufferUsages::from_bits_retain(random.mostly(&[12, 4, 8, 12 + 16 + 32, 1_024])),
    }
}

fn texture_fields(t: &Texture) -> String {
    let (format, dimension) = (t.format as u32, t.dimension as u32);
    let (levels, samples, usage) = (t.mip_level_count, t.sample_count, t.usage.bits());
    format!(
        "{format} {dimension} {} {levels} {samples} {usage}",
        size_fields(t.size)
    )
}

fn size_fields(size: Extent3d) -> String {
    format!(
        "{} {} {}",
        size.width, size.height, size.depth_or_array_layers
    )
}

fn or_absent<T: ToString>(value: Option<T>) -> String {
    value.map_or("-".to_owned(), |value| value.to_string())
}

#[test]
fn functions_and_sheets_agree() {
    let mut random = Random(1);
    let mut accepted = [0; 5];
    for _ in 0..JOBS {
        let job = Job::random(&mut random);
        let [upload, download] = job.buffer_and_texture();
        let answers = [
            job.buffer_to_buffer(),
            upload,
            download,
            job.texture_to_texture(),
            job.memory_to_texture(),
        ];
        for (count, is_accepted) in accepted.iter_mut().zip(answers) {
            *count += usize::from(is_accepted);
        }
    }
    // Enough of both answers for the test to mean something.
    for count in accepted {
        assert!((JOBS / 50..JOBS).contains(&count), "accepted: {accepted:?}");
    }
}
