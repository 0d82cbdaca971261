//! Every small copy between buffers, and some at the ends of 64 bits.

use std::io;

use copy_sheet::{Buffer, Copy, MAX_BUFFER_SIZE};

use crate::{Case, Emit, Packer};

const SIZES: [u64; 7] = [0, 3, 4, 8, 10, MAX_BUFFER_SIZE, MAX_BUFFER_SIZE + 1];
const OFFSETS: [u64; 13] = [
    0,
    1,
    2,
    4,
    6,
    8,
    10,
    11,
    12,
    MAX_BUFFER_SIZE,
    1 << 32,
    u64::MAX - 3,
    u64::MAX,
];
const COPY_SIZES: [Option<u64>; 13] = [
    None,
    Some(0),
    Some(1),
    Some(2),
    Some(3),
    Some(4),
    Some(5),
    Some(8),
    Some(12),
    Some(MAX_BUFFER_SIZE),
    Some(1 << 32),
    Some(u64::MAX - 3),
    Some(u64::MAX),
];

pub fn sheets(emit: &mut Emit) -> io::Result<()> {
    let mut packer = Packer::new(emit);
    for source in SIZES {
        for destination in SIZES {
            add_offsets(&mut packer, [source, destination])?;
        }
    }
    packer.finish()
}

fn add_offsets(packer: &mut Packer, sizes: [u64; 2]) -> io::Result<()> {
    let buffers = sizes.map(|size| Buffer {
        size,
        usage: Buffer::COPY_SRC | Buffer::COPY_DST,
    });
    for source_offset in OFFSETS {
        for destination_offset in OFFSETS {
            for size in COPY_SIZES {
                packer.add(&Case {
                    device: Case::DEVICE,
                    textures: &[],
                    buffers: &buffers,
                    copy: Copy::BufferToBuffer {
                        source: 0,
                        source_offset,
                        destination: 1,
                        destination_offset,
                        size,
                    },
                })?;
            }
        }
    }
    Ok(())
}
