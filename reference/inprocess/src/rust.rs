//! The Rust's answer.

use copy_sheet::{append_region_numbers, run_copy, Copy, Objects, Recorder};

use crate::answer::{init_action_numbers, Answer};

/// Runs a copy; a panic of the Rust is an answer too.
pub fn answer(recorder: &mut Recorder, objects: &mut Objects, copy: &Copy, answer: &mut Answer) {
    answer.clear();
    answer.outcome = run_copy(recorder, objects, copy);
    if answer.is_accepted() {
        let actions = recorder.init_actions();
        answer
            .ranges
            .extend(actions.iter().map(init_action_numbers));
        append_region_numbers(recorder, &mut answer.regions);
    }
}
