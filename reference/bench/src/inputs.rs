//! Copies in the types of both sides, made before anything is timed.

use std::collections::BTreeMap;
use std::fmt::Write;

use copy_compare::{Call, Records};
use copy_sheet::{
    is_left_out_of_agreement, run_copy, Copy, CopyKind, Objects, Outcome, Prepared, Recorder,
    Sheet, TextureView,
};
use sheet_generator::random_sheet;

/// The run of the generator that the copies are found in.
const SEED: u64 = 20_261_116;
const SHEET_COPIES: usize = 64;

pub const KINDS: usize = CopyKind::ALL.len();

/// Copies of a set.
pub const COPIES: usize = 64;

/// Refusals up to this one are of indices and records, which the Rust does not
/// check.
const LAST_RECORD_REFUSAL: u32 = 3;

/// Copies of one kind, all accepted or all refused.
#[derive(Default)]
pub struct Inputs {
    copies: Vec<Copy>,
    records: Vec<Records>,
    /// For the Rust, each with objects of its own.
    pub prepared: Vec<Prepared>,
    regions: Vec<usize>,
    formats: BTreeMap<u32, usize>,
    refusals: BTreeMap<u32, usize>,
}

impl Inputs {
    /// The copies of a sheet that a program writes down; all are accepted.
    pub fn from_sheet(sheet: &Sheet) -> Self {
        let mut inputs = Self::default();
        let mut recorder = Recorder::new();
        let mut objects = Objects::new(sheet);
        for copy in &sheet.copies {
            let outcome = run_copy(&mut recorder, &mut objects, copy);
            assert!(matches!(outcome, Outcome::Accepted { .. }), "{outcome:?}");
            inputs.add(sheet, &objects, copy, &outcome, &recorder);
        }
        inputs
    }

    /// For the planner.
    pub fn calls(&self) -> Vec<Call<'_>> {
        let calls = self.records.iter().zip(&self.copies);
        calls
            .map(|(records, copy)| records.call(copy).expect("the records are within bounds"))
            .collect()
    }

    fn add(
        &mut self,
        sheet: &Sheet,
        objects: &Objects,
        copy: &Copy,
        outcome: &Outcome,
        recorder: &Recorder,
    ) {
        let prepared = Prepared::new(objects, copy);
        self.prepared
            .push(prepared.expect("the records are within bounds"));
        self.copies.push(*copy);
        self.records.push(Records::new(sheet));
        for view in texture_views(copy) {
            let format = sheet.textures[view.texture as usize].format;
            *self.formats.entry(format).or_default() += 1;
        }
        if let Outcome::Refused(refusal) = outcome {
            *self.refusals.entry(refusal.number).or_default() += 1;
            return;
        }
        let encoder = recorder.encoder();
        self.regions.push(
            encoder.buffer_copies.len()
                + encoder.buffer_texture_copies.len()
                + encoder.texture_copies.len(),
        );
    }

    /// What the copies are like.
    pub fn mix(&self) -> String {
        let mut text = format!("{} copies", self.copies.len());
        if !self.regions.is_empty() {
            let all: usize = self.regions.iter().sum();
            let mean = all as f64 / self.regions.len() as f64;
            let most = self.regions.iter().max().expect("there are copies");
            let none = self.regions.iter().filter(|count| **count == 0).count();
            let _ = write!(
                text,
                "; regions: mean {mean:.2}, most {most}, none in {none}"
            );
        }
        for (what, counts) in [("refusals", &self.refusals), ("formats", &self.formats)] {
            if !counts.is_empty() {
                let _ = write!(text, "; {what}:");
            }
            for (number, count) in counts {
                let _ = write!(text, " {number}×{count}");
            }
        }
        text
    }
}

fn texture_views(copy: &Copy) -> Vec<&TextureView> {
    match copy {
        Copy::BufferToBuffer { .. } => vec![],
        Copy::BufferToTexture { destination, .. } => vec![destination],
        Copy::TextureToBuffer { source, .. } => vec![source],
        Copy::TextureToTexture {
            source,
            destination,
            ..
        } => vec![source, destination],
        Copy::MemoryToTexture { destination, .. } => vec![destination],
    }
}

/// Random copies of each kind, first the accepted ones, then the refused ones.
/// No two of a set are of one sheet, and the Rust has one answer to each.
pub fn random_inputs() -> [[Inputs; 2]; KINDS] {
    let mut sets: [[Inputs; 2]; KINDS] = Default::default();
    let mut recorder = Recorder::new();
    let mut number = 0;
    while sets.iter().flatten().any(|set| set.copies.len() < COPIES) {
        let sheet = random_sheet(SEED, number, SHEET_COPIES);
        let mut objects = Objects::new(&sheet);
        let mut is_taken = [[false; 2]; KINDS];
        for copy in &sheet.copies {
            let outcome = run_copy(&mut recorder, &mut objects, copy);
            let Some([kind, verdict]) = place(copy.kind(), &outcome) else {
                continue;
            };
            if is_left_out_of_agreement(&objects, copy) {
                continue;
            }
            let set = &mut sets[kind][verdict];
            if set.copies.len() < COPIES && !is_taken[kind][verdict] {
                is_taken[kind][verdict] = true;
                set.add(&sheet, &objects, copy, &outcome, &recorder);
            }
        }
        number += 1;
    }
    sets
}

/// The set that a copy belongs to, if it belongs to one.
fn place(kind: CopyKind, outcome: &Outcome) -> Option<[usize; 2]> {
    match outcome {
        Outcome::Accepted { .. } => Some([kind as usize, 0]),
        Outcome::Refused(refusal) if refusal.number > LAST_RECORD_REFUSAL => {
            Some([kind as usize, 1])
        }
        _ => None,
    }
}
