//! A write from memory asked in two ways, and what may part the answers.
//!
//! `Queue::write_texture` asks for the usage before the range and the aspects, so
//! that it has another answer where the texture lacks the usage and the range or
//! the aspects are refused as well. Which copies these are is read off the copy.
//! Of all others the answers are the same, but for offset and strides of regions:
//! the queue's are those of its staging buffer.

use std::sync::Arc;

use reference_core::{self as core, CommandEncoderError, Recorder};

use crate::prepared::texture_info;
use crate::run::{core_extent, memory_info, CoreTextureInfo};
use crate::{buffer_texture_copy_numbers, Copy, Objects, Refusal, Side};

/// `Queue::write_texture`, or what a test has in its place.
pub(crate) type QueueWrite<'a> = &'a dyn Fn(
    &mut Recorder,
    &Arc<core::Device>,
    &core::MemoryInfo,
    &CoreTextureInfo,
    &wgt::Extent3d,
) -> Result<(), CommandEncoderError>;

/// How the queue parts from a write just recorded, where it should not. Nothing
/// for other copies, and for those whose index or record is refused.
pub(crate) fn difference(
    recorded: &Result<(), Refusal>,
    recorder: &Recorder,
    objects: &mut Objects,
    copy: &Copy,
    queue_write: QueueWrite,
) -> Option<String> {
    let Copy::MemoryToTexture {
        source,
        destination,
        size,
    } = copy
    else {
        return None;
    };
    let texture = objects.textures.get(destination.texture as usize)?;
    let view = &texture.as_ref()?.as_destination;
    let size = core_extent(size);
    let queue = &mut objects.queue;
    let queued = queue_write(queue, &objects.device, &memory_info(source), view, &size)
        .map_err(Refusal::from_error);
    if is_left_out(view, &size) {
        let usage = Refusal::texture_usage(Side::Destination);
        return (queued != Err(usage)).then(|| format!("not for its usage: {queued:?}"));
    }
    if queued != *recorded {
        return Some(format!("{recorded:?} {queued:?}"));
    }
    difference_of_plans(recorder, queue)
}

/// Whether a copy is a write from memory on which the two answers may part.
pub fn is_left_out_of_agreement(objects: &Objects, copy: &Copy) -> bool {
    let Copy::MemoryToTexture {
        destination, size, ..
    } = copy
    else {
        return false;
    };
    let view = texture_info(objects, destination);
    view.is_some_and(|view| is_left_out(&view, &core_extent(size)))
}

/// Whether the order of checks makes a difference.
fn is_left_out(view: &CoreTextureInfo, size: &wgt::Extent3d) -> bool {
    let usage = view.texture.usage();
    !usage.contains(wgt::TextureUsages::COPY_DST) && core::range_or_aspects_are_refused(view, size)
}

fn difference_of_plans(recorder: &Recorder, queue: &Recorder) -> Option<String> {
    let (ranges, queued) = (recorder.init_actions(), queue.init_actions());
    if ranges != queued {
        return Some(format!("{ranges:?} {queued:?}"));
    }
    let regions = &recorder.encoder().buffer_texture_copies;
    let queued = &queue.encoder().buffer_texture_copies;
    if regions.len() != queued.len() {
        return Some(format!("{} {} regions", regions.len(), queued.len()));
    }
    let pairs = regions.iter().map(texture_numbers);
    pairs
        .zip(queued.iter().map(texture_numbers))
        .find(|(region, queued)| region != queued)
        .map(|(region, queued)| format!("{region:?} {queued:?}"))
}

/// What a region says of the texture.
fn texture_numbers(region: &hal::BufferTextureCopy) -> [u64; 9] {
    let [_, _, _, numbers @ ..] = buffer_texture_copy_numbers(region);
    numbers
}

#[cfg(test)]
mod tests {
    use super::*;
    use crate::run::run_copy_beside;
    use crate::{parse, Outcome, Sheet};

    /// A texture and a write of two of its layers: whole ones, and a part of them.
    const WHOLE: &str = "16 2 4 4 3 2 1 2\n0\n1\n5 99 1 9 5 0 0 0 0 1 0 4 4 2\n";
    const PART: &str = "0 2 4 4 3 2 1 2\n0\n1\n5 99 1 9 5 0 0 1 1 1 0 2 2 2\n";

    const QUEUE: QueueWrite = &Recorder::queue_write_texture;
    const IN_ORDER: QueueWrite = &Recorder::copy_memory_to_texture;
    const SILENT: QueueWrite = &|_, _, _, _, _| Ok(());

    /// Changes what the queue is asked for.
    type Fault = fn(&mut core::MemoryInfo, &mut CoreTextureInfo, &mut wgt::Extent3d);

    /// A sheet with one texture, given its line and all after.
    fn sheet(texture_and_copy: &str) -> Sheet {
        let text = format!("1\n1 1\n1\n{texture_and_copy}");
        parse(text.as_bytes()).expect("a good sheet")
    }

    /// The outcome of a sheet's one copy.
    fn outcome(texture_and_copy: &str, queue_write: QueueWrite) -> Outcome {
        let sheet = sheet(texture_and_copy);
        let (mut recorder, mut objects) = (Recorder::new(), Objects::new(&sheet));
        run_copy_beside(&mut recorder, &mut objects, &sheet.copies[0], queue_write)
    }

    fn is_noticed(texture_and_copy: &str, queue_write: QueueWrite) -> bool {
        let outcome = outcome(texture_and_copy, queue_write);
        matches!(outcome, Outcome::Disagreed(_))
    }

    fn is_fault_noticed(texture_and_copy: &str, fault: Fault) -> bool {
        is_noticed(texture_and_copy, &|queue, device, memory, view, size| {
            let (mut memory, mut view, mut size) = (*memory, view.clone(), *size);
            fault(&mut memory, &mut view, &mut size);
            queue.queue_write_texture(device, &memory, &view, &size)
        })
    }

    #[test]
    fn the_queue_agrees() {
        for sheet in [WHOLE, PART] {
            let outcome = outcome(sheet, QUEUE);
            assert!(matches!(outcome, Outcome::Accepted { .. }), "{outcome:?}");
        }
    }

    #[test]
    fn other_regions_and_ranges_are_noticed() {
        let faults: [Fault; 8] = [
            |_, view, size| {
                view.mip_level = 1;
                (view.origin.x, view.origin.y) = (0, 0);
                (size.width, size.height) = (2, 2);
            },
            |_, view, _| view.origin.x = 0,
            |_, view, _| view.origin.y = 0,
            |_, view, _| view.origin.z = 0,
            |_, _, size| size.width = 1,
            |_, _, size| size.height = 1,
            |_, _, size| size.depth_or_array_layers = 1,
            |_, _, size| size.depth_or_array_layers = 0,
        ];
        for (number, fault) in faults.into_iter().enumerate() {
            assert!(is_fault_noticed(PART, fault), "{number}");
        }
        // The regions are the same, and the kind of the range is another.
        let named: Fault = |_, view, _| view.aspect = wgt::TextureAspect::DepthOnly;
        assert!(is_fault_noticed(WHOLE, named));
    }

    #[test]
    fn other_answers_are_noticed() {
        assert!(is_noticed(PART, SILENT));
        assert!(is_fault_noticed(PART, |memory, _, _| memory.length = 3));
        assert!(is_fault_noticed(PART, |_, view, _| view.mip_level = 2));

        let refused = "0 2 4 4 3 2 1 2\n0\n1\n5 9 100 9 5 0 0 1 1 1 0 2 2 2\n";
        assert!(!is_noticed(refused, QUEUE));
        assert!(is_noticed(refused, SILENT));
        assert!(is_fault_noticed(refused, |_, view, _| view.mip_level = 2));
        // The same refusal with another start, and with another limit.
        let later: Fault = |memory, _, _| memory.layout.offset += 1;
        let longer: Fault = |memory, _, _| memory.length += 1;
        assert!(is_fault_noticed(refused, later));
        assert!(is_fault_noticed(refused, longer));
    }

    /// Offset and strides of the queue's regions are its staging buffer's.
    #[test]
    fn layouts_are_not_compared() {
        let denser: Fault = |memory, _, _| memory.layout.bytes_per_row = Some(2);
        assert!(!is_fault_noticed(PART, denser));
    }

    fn left_out(texture_and_copy: &str) -> bool {
        let sheet = sheet(texture_and_copy);
        is_left_out_of_agreement(&Objects::new(&sheet), &sheet.copies[0])
    }

    /// Which copies are left out depends on them alone, and of these the queue
    /// must say that the usage is lacking.
    #[test]
    fn left_out_are_those_that_lack_the_usage_too() {
        let asked_for = |usage: u32, level: u32, aspect: u32| {
            format!("0 2 1 1 1 1 1 {usage}\n0\n1\n5 1 0 - - 0 {level} 0 0 0 {aspect} 1 1 1\n")
        };
        for (level, aspect, number) in [(1, 0, 13), (0, 2, 12), (1, 2, 13)] {
            let copy = asked_for(1, level, aspect);
            let outcome = outcome(&copy, QUEUE);
            assert!(matches!(outcome, Outcome::Refused(refusal) if refusal.number == number));
            assert!(left_out(&copy));
            assert!(is_noticed(&copy, IN_ORDER));
            assert!(is_noticed(&copy, SILENT));
            // With the usage there is nothing to be left out.
            let copy = asked_for(3, level, aspect);
            assert!(!left_out(&copy));
            assert!(!is_noticed(&copy, QUEUE));
            assert!(!is_noticed(&copy, IN_ORDER));
            assert!(is_noticed(&copy, SILENT));
        }
        // Where the usage alone is lacking, neither.
        assert!(!left_out(&asked_for(1, 0, 0)));
        assert!(!is_noticed(&asked_for(1, 0, 0), QUEUE));
        assert!(is_noticed(&asked_for(1, 0, 0), SILENT));
    }
}
