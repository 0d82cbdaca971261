//! Copies led through the Rust and the planner, and what came of it.

use std::fmt::Display;
use std::io::{self, Write};
use std::panic::{self, AssertUnwindSafe};
use std::sync::Mutex;

use copy_sheet::{
    is_left_out_of_agreement, sheet_text, Copy, CopyKind, Objects, Outcome, Recorder, Sheet,
};

use crate::answer::{Answer, TEXTURE};
use crate::calls::{Call, Records, Rooms};
use crate::{c, rust, Given, Plant, Tally};

/// Differences shown whole; more are counted only.
const SHOWN: u64 = 10;

/// So many differences that more need not be looked for.
const MANY: u64 = 1_000;

/// Shows the first differences of all threads.
#[derive(Debug, Default)]
pub struct Reports(Mutex<u64>);

impl Reports {
    /// Shows a difference, told from its number, if it is among the first.
    pub(crate) fn show(&self, tell: impl FnOnce(u64) -> String) {
        let mut shown = self.0.lock().expect("no thread panics here");
        *shown += 1;
        if *shown <= SHOWN {
            // Whoever read it has seen enough of it.
            let _ = io::stdout().write_all(tell(*shown).as_bytes());
        }
    }

    /// Whether there are so many that more need not be looked for.
    pub(crate) fn are_many(&self) -> bool {
        *self.0.lock().expect("no thread panics here") >= MANY
    }
}

/// The ways into the planner.
#[derive(Clone, Copy)]
enum Way {
    /// The crate's functions that return a plan.
    Crate,
    /// The crate's room for plans, which holds what the copy before left in it.
    Room,
    C,
}

impl Way {
    const ALL: [Self; 3] = [Self::Crate, Self::Room, Self::C];

    fn name(self) -> &'static str {
        match self {
            Self::Crate => "the planner's crate",
            Self::Room => "the planner's crate, in a room",
            Self::C => "the planner's C functions",
        }
    }
}

/// Compares copies, with memory that is used again.
#[derive(Debug)]
pub struct Comparer<'a> {
    recorder: Recorder,
    rooms: Rooms,
    expected: Answer,
    given: Given,
    tally: Tally,
    /// The one kind that is compared, or none for all.
    only: Option<CopyKind>,
    /// A fault, and how many answers that have a place for it come before.
    plant: Option<(Plant, u64)>,
    reports: &'a Reports,
}

impl<'a> Comparer<'a> {
    pub fn new(reports: &'a Reports) -> Self {
        Self {
            recorder: Recorder::new(),
            rooms: Rooms::default(),
            expected: Answer::default(),
            given: Given::default(),
            tally: Tally::default(),
            only: None,
            plant: None,
            reports,
        }
    }

    /// Leaves copies of other kinds alone.
    pub fn compare_only(&mut self, kind: CopyKind) {
        self.only = Some(kind);
    }

    /// Puts a fault into the planner's answer number `at`, counted from 1 among
    /// those that have a place for it.
    pub fn plant(&mut self, plant: Plant, at: u64) {
        self.plant = Some((plant, at.max(1)));
    }

    /// Whether a fault waits to be planted.
    pub fn waits_to_plant(&self) -> bool {
        self.plant.is_some()
    }

    pub fn tally(&self) -> &Tally {
        &self.tally
    }

    /// Compares the copies of a sheet; `name` tells it from others. An index
    /// past its section is led back into it: no call has such an index.
    pub fn compare_sheet(&mut self, name: impl Display, sheet: &Sheet) {
        let mut objects = Objects::new(sheet);
        let records = Records::new(sheet);
        for (k, copy) in sheet.copies.iter().enumerate() {
            let mut copy = *copy;
            if self.only.is_some_and(|only| only != copy.kind()) || !lead_back(sheet, &mut copy) {
                continue;
            }
            rust::answer(&mut self.recorder, &mut objects, &copy, &mut self.expected);
            self.tally.count(copy.kind(), &self.expected);
            self.tally.left_out += u64::from(is_left_out_of_agreement(&objects, &copy));
            if let Some((way, words)) = self.first_difference(sheet, &records, &copy) {
                self.tally.differences += 1;
                let head = format!("{name}, copy {k}: {}: {words}", way.name());
                self.report(&head, sheet, &copy);
            } else if !self.expected.regions.is_empty() {
                self.tally.count_short_slice(copy.kind());
            }
        }
    }

    /// The first way in which the planner's answer is not the Rust's, and how.
    fn first_difference(
        &mut self,
        sheet: &Sheet,
        records: &Records,
        copy: &Copy,
    ) -> Option<(Way, &'static str)> {
        if let Some(words) = unusable(&self.expected.outcome) {
            self.given.clear();
            return Some((Way::Crate, words));
        }
        let call = records.call(copy);
        self.tally.unnamed += u64::from(call.is_none());
        Way::ALL.into_iter().find_map(|way| {
            match (way, &call) {
                (Way::C, _) => c::answer(sheet, copy, &mut self.given),
                (_, Some(call)) => self.ask_crate(way, call),
                (_, None) => return None,
            }
            self.put_fault();
            let words = self.given.difference(&self.expected)?;
            Some((way, words))
        })
    }

    fn ask_crate(&mut self, way: Way, call: &Call) {
        let (given, rooms) = (&mut self.given, &mut self.rooms);
        let planned = panic::catch_unwind(AssertUnwindSafe(|| match way {
            Way::Room => call.plan_in(rooms, &mut *given),
            _ => call.plan(&mut *given),
        }));
        if planned.is_err() {
            given.clear();
            given.answer.outcome = Outcome::Panicked("in the planner's crate".into());
        }
    }

    fn put_fault(&mut self) {
        let Some((plant, before)) = self.plant else {
            return;
        };
        let mut changed = self.given.clone();
        if plant.put_into(&mut changed) {
            self.plant = (before > 1).then_some((plant, before - 1));
            if before == 1 {
                self.given = changed;
            }
        }
    }

    /// Shows the copy with its records, and both answers.
    fn report(&self, head: &str, sheet: &Sheet, copy: &Copy) {
        self.reports.show(|number| {
            let single = Single::new(sheet, copy);
            let listed = |answer: &Answer| single.listed(answer, copy);
            let mut text = format!("difference {number}: {head}\nsheet\n");
            text += &String::from_utf8_lossy(&sheet_text(&single.sheet));
            text += &format!("Rust\n{}", listed(&self.expected));
            text += &format!("planner\n{}", listed(&self.given.answer));
            if self.given.answer == self.expected {
                text += &format!("slice\n{:?}\n", self.given.slice);
            }
            text
        });
    }
}

/// Why the Rust's answer is none to compare with, if it is not.
fn unusable(outcome: &Outcome) -> Option<&'static str> {
    match outcome {
        Outcome::Accepted { .. } | Outcome::Refused(_) => None,
        Outcome::Panicked(_) => Some("not asked, for the Rust panicked"),
        Outcome::Disagreed(_) => {
            Some("not asked, for the Rust does not agree with itself or with the copy")
        }
    }
}

/// An index of a copy.
enum Index<'a> {
    Texture(&'a mut u32),
    Buffer(&'a mut u32),
    /// A block of memory is no record and has none.
    Memory,
}

/// The indices of a copy, the source's first.
fn indices(copy: &mut Copy) -> [Index<'_>; 2] {
    match copy {
        Copy::BufferToBuffer {
            source,
            destination,
            ..
        } => [Index::Buffer(source), Index::Buffer(destination)],
        Copy::BufferToTexture {
            source,
            destination,
            ..
        } => [
            Index::Buffer(&mut source.buffer),
            Index::Texture(&mut destination.texture),
        ],
        Copy::TextureToBuffer {
            source,
            destination,
            ..
        } => [
            Index::Texture(&mut source.texture),
            Index::Buffer(&mut destination.buffer),
        ],
        Copy::TextureToTexture {
            source,
            destination,
            ..
        } => [
            Index::Texture(&mut source.texture),
            Index::Texture(&mut destination.texture),
        ],
        Copy::MemoryToTexture { destination, .. } => {
            [Index::Memory, Index::Texture(&mut destination.texture)]
        }
    }
}

/// Leads indices past their sections back into them; false if a section is
/// empty.
pub(crate) fn lead_back(sheet: &Sheet, copy: &mut Copy) -> bool {
    indices(copy).into_iter().all(|index| {
        let (index, length) = match index {
            Index::Texture(index) => (index, sheet.textures.len() as u32),
            Index::Buffer(index) => (index, sheet.buffers.len() as u32),
            Index::Memory => return true,
        };
        if *index >= length && length > 0 {
            *index %= length;
        }
        length > 0
    })
}

/// A copy alone in a sheet, with the records that it names, and the indices
/// that these have in its own sheet.
struct Single {
    sheet: Sheet,
    textures: Vec<u32>,
    buffers: Vec<u32>,
}

impl Single {
    fn new(sheet: &Sheet, copy: &Copy) -> Self {
        let (mut textures, mut buffers) = (Vec::new(), Vec::new());
        let mut copy = *copy;
        for index in indices(&mut copy) {
            match index {
                Index::Texture(index) => *index = place(&mut textures, *index),
                Index::Buffer(index) => *index = place(&mut buffers, *index),
                Index::Memory => {}
            }
        }
        let sheet = Sheet {
            device: sheet.device,
            textures: records(&sheet.textures, &textures),
            buffers: records(&sheet.buffers, &buffers),
            copies: vec![copy],
        };
        Self {
            sheet,
            textures,
            buffers,
        }
    }

    /// An answer with the indices of this sheet.
    fn listed(&self, answer: &Answer, copy: &Copy) -> String {
        let mut answer = answer.clone();
        for [resource, index, ..] in &mut answer.ranges {
            let places = match *resource {
                TEXTURE => &self.textures,
                _ => &self.buffers,
            };
            let found = places.iter().position(|place| u64::from(*place) == *index);
            *index = found.map_or(u64::MAX, |place| place as u64);
        }
        answer.listed(copy.kind())
    }
}

/// The place of an index in a list, to which it is added if it lacks it.
fn place(list: &mut Vec<u32>, index: u32) -> u32 {
    let found = list.iter().position(|other| *other == index);
    let place = found.unwrap_or_else(|| {
        list.push(index);
        list.len() - 1
    });
    place as u32
}

fn records<T: std::marker::Copy>(section: &[T], indices: &[u32]) -> Vec<T> {
    indices
        .iter()
        .map(|index| section[*index as usize])
        .collect()
}
