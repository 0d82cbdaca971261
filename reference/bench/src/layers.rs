//! Copies of many layers, each of which is a region.

use std::hint::black_box;

use copy_compare::Call;
use copy_planner::{copy_buffer_to_texture, BufferTextureCopy, Plan, Region};
use copy_sheet::{parse, Sheet};

use crate::inputs::Inputs;
use crate::passes::asked;
use crate::race::{Race, Side};

/// Calls of a pass where one would be too short to be timed.
const CALLS: usize = 64;

/// A copy of so many layers from a buffer into a texture.
pub fn layers(count: usize) -> Inputs {
    Inputs::from_sheet(&sheet_of_layers(count))
}

fn sheet_of_layers(count: usize) -> Sheet {
    let text = format!(
        "1\n1 1\n1\n2 2 8 8 256 1 1 3\n1\n1048576 12\n1\n2 0 0 256 8 0 0 0 0 0 0 8 8 {count}\n"
    );
    parse(text.as_bytes()).expect("the sheet is well formed")
}

/// The plan of the one copy from a buffer into a texture.
pub fn plan_of(inputs: &Inputs) -> Plan<BufferTextureCopy> {
    let [Call::BufferToTexture {
        device,
        src,
        dst,
        size,
    }] = inputs.calls()[..]
    else {
        unreachable!("there is one copy, from a buffer into a texture");
    };
    copy_buffer_to_texture(device, src, dst, size).expect("the copy is accepted")
}

/// Clones a plan and has its regions written into a slice.
#[inline]
fn write(plan: &Plan<BufferTextureCopy>, slice: &mut [u64]) -> u64 {
    let mut plan = black_box(plan).clone();
    let written = plan.write_regions(black_box(slice));
    written.expect("the slice has room") as u64
}

/// A plan's regions written, over the same slice filled with a number.
pub fn write_race(plan: &Plan<BufferTextureCopy>) -> Race<'_> {
    let numbers = plan.numbers_left();
    let (mut filled, mut written) = (vec![0; numbers], vec![0; numbers]);
    Race {
        name: format!("write_{}_layers", plan.regions_left()),
        about: format!("{numbers} numbers, the plan cloned anew each time, over slice::fill"),
        sides: vec![
            Side::new("slice::fill", CALLS, move || {
                for _ in 0..CALLS {
                    black_box(&mut filled[..]).fill(black_box(1));
                }
                black_box(filled[0])
            }),
            Side::new("planner", CALLS, move || {
                (0..CALLS).map(|_| write(plan, &mut written)).sum()
            }),
        ],
    }
}

/// A plan's regions, asked for and written.
pub fn linearity_race(plan: &Plan<BufferTextureCopy>) -> Race<'_> {
    let mut slice = vec![0; plan.regions_left() * BufferTextureCopy::NUMBERS];
    Race {
        name: format!("{} regions", plan.regions_left()),
        about: "the plan cloned anew each time".into(),
        sides: vec![
            Side::new("asked for one by one", CALLS, move || {
                let one = |sum: u64, _| sum.wrapping_add(asked(&mut black_box(plan).clone()));
                (0..CALLS).fold(0, one)
            }),
            Side::new("written", CALLS, move || {
                (0..CALLS).map(|_| write(plan, &mut slice)).sum()
            }),
        ],
    }
}
