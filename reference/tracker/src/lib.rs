//! The initialisation tracker of wgpu-core, compiled unmodified from its own source
//! files, all three of them.
//!
//! A [`Tracker`] knows of a texture which layers of which level are initialised. The
//! Rust's own are its state, the narrowing of an action by that state
//! (`check_action`), and the draining of layers (`drain`). That an action is
//! narrowed when it is registered and drained when it is due, in this order, is the
//! Rust's too, but the code is ours: the two files that do it, `memory_init.rs` of the
//! commands and `device/queue.rs` where it submits them, are not at hand or need
//! more than stands in. What is drained is cleared exactly where the action needs
//! memory, as `Queue::write_texture` has it, whose text is at hand. How many layers a
//! texture has is said by the caller, for the code that creates textures is not at
//! hand either.

extern crate alloc;

mod resource;

include!(concat!(env!("OUT_DIR"), "/init_tracker_mod.rs"));

use alloc::sync::Arc;
use core::ops::Range;

use init_tracker::{
    MemoryInitKind, TextureInitRange, TextureInitTracker, TextureInitTrackerAction,
};
use resource::Texture;

/// What is initialised of a texture.
#[derive(Debug)]
pub struct Tracker {
    status: TextureInitTracker,
    texture: Arc<Texture>,
}

impl Clone for Tracker {
    /// The Rust's tracker of a texture has no clone, but those of its levels have.
    fn clone(&self) -> Self {
        Self {
            status: TextureInitTracker {
                mips: self.status.mips.clone(),
            },
            texture: self.texture.clone(),
        }
    }
}

impl Tracker {
    /// Nothing is initialised of so many levels and layers.
    pub fn new(levels: u32, layers: u32) -> Self {
        Self {
            status: TextureInitTracker::new(levels, layers),
            texture: Arc::new(Texture),
        }
    }

    /// Applies an action to levels and layers, whose ends are excluded. Level and
    /// layer of each place that has to be cleared for it are put behind `cleared`.
    pub fn apply(
        &mut self,
        levels: Range<u32>,
        layers: Range<u32>,
        needs_memory: bool,
        cleared: &mut Vec<u64>,
    ) {
        let action = TextureInitTrackerAction {
            texture: self.texture.clone(),
            range: TextureInitRange {
                mip_range: levels,
                layer_range: layers,
            },
            kind: match needs_memory {
                true => MemoryInitKind::NeedsInitializedMemory,
                false => MemoryInitKind::ImplicitlyInitialized,
            },
        };
        if let Some(narrowed) = self.status.check_action(&action) {
            self.resolve(narrowed, cleared);
        }
    }

    /// Ours, as is said above.
    fn resolve(&mut self, action: TextureInitTrackerAction, cleared: &mut Vec<u64>) {
        for level in action.range.mip_range {
            let layers = action.range.layer_range.clone();
            let drained = self.status.mips[level as usize].drain(layers);
            match action.kind {
                MemoryInitKind::ImplicitlyInitialized => drop(drained),
                MemoryInitKind::NeedsInitializedMemory => {
                    let places = drained.flatten().flat_map(|layer| [level, layer]);
                    cleared.extend(places.map(u64::from));
                }
            }
        }
    }

    /// Whether a layer of a level is initialised.
    pub fn is_initialized(&self, level: u32, layer: u32) -> bool {
        let status = &self.status.mips[level as usize];
        status.check(layer..layer + 1).is_none()
    }

    /// The layers of a level that are not initialised, rising.
    pub fn uninitialized(&mut self, level: u32) -> impl Iterator<Item = u32> + '_ {
        let status = &mut self.status.mips[level as usize];
        status.uninitialized(0..u32::MAX).flatten()
    }
}

#[cfg(test)]
mod tests {
    use super::*;

    const LEVELS: u32 = 2;
    const LAYERS: u32 = 4;

    /// A tracker in one of its states: bit `level * LAYERS + layer` is of a layer.
    fn in_state(state: u32) -> Tracker {
        let mut tracker = Tracker::new(LEVELS, LAYERS);
        for place in (0..LEVELS * LAYERS).filter(|place| state >> place & 1 == 1) {
            let (level, layer) = (place / LAYERS, place % LAYERS);
            let cleared = &mut Vec::new();
            tracker.apply(level..level + 1, layer..layer + 1, false, cleared);
            assert!(cleared.is_empty());
        }
        tracker
    }

    fn state_of(tracker: &mut Tracker) -> u32 {
        let mut state = (1 << (LEVELS * LAYERS)) - 1;
        for level in 0..LEVELS {
            for layer in tracker.uninitialized(level) {
                state ^= 1 << (level * LAYERS + layer);
            }
        }
        for (level, layer) in (0..LEVELS).flat_map(|level| (0..LAYERS).map(move |z| (level, z))) {
            let is_set = state >> (level * LAYERS + layer) & 1 == 1;
            assert_eq!(tracker.is_initialized(level, layer), is_set);
        }
        state
    }

    /// Every state, every action on some levels and layers: what was not initialised
    /// of them has to be cleared, or is not, and is initialised afterwards.
    #[test]
    fn every_action_in_every_state() {
        for state in 0..1 << (LEVELS * LAYERS) {
            for [first_level, end_level, first, end] in ranges() {
                for needs_memory in [false, true] {
                    let mut tracker = in_state(state);
                    assert_eq!(state_of(&mut tracker), state);
                    let cleared = &mut Vec::new();
                    tracker.apply(first_level..end_level, first..end, needs_memory, cleared);
                    let (mut after, mut expected) = (state, Vec::new());
                    for level in first_level..end_level {
                        for layer in first..end {
                            let bit = 1 << (level * LAYERS + layer);
                            if needs_memory && state & bit == 0 {
                                expected.extend([level, layer].map(u64::from));
                            }
                            after |= bit;
                        }
                    }
                    assert_eq!(*cleared, expected);
                    assert_eq!(state_of(&mut tracker), after);
                }
            }
        }
    }

    fn ranges() -> Vec<[u32; 4]> {
        let mut ranges = Vec::new();
        for first_level in 0..LEVELS {
            for end_level in first_level..=LEVELS {
                for first in 0..=LAYERS {
                    ranges.extend((first..=LAYERS).map(|end| [first_level, end_level, first, end]));
                }
            }
        }
        ranges
    }

    /// An action that is drained at once, as a write from memory is, clears what one
    /// clears that is narrowed first.
    #[test]
    fn narrowing_loses_nothing() {
        for state in 0..1 << (LEVELS * LAYERS) {
            for [first_level, end_level, first, end] in ranges() {
                let (mut narrowed, mut drained) = (in_state(state), in_state(state));
                let (mut first_cleared, mut second_cleared) = (Vec::new(), Vec::new());
                narrowed.apply(first_level..end_level, first..end, true, &mut first_cleared);
                let action = TextureInitTrackerAction {
                    texture: drained.texture.clone(),
                    range: TextureInitRange {
                        mip_range: first_level..end_level,
                        layer_range: first..end,
                    },
                    kind: MemoryInitKind::NeedsInitializedMemory,
                };
                drained.resolve(action, &mut second_cleared);
                assert_eq!(first_cleared, second_cleared);
                assert_eq!(state_of(&mut narrowed), state_of(&mut drained));
            }
        }
    }
}
