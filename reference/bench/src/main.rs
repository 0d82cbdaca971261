//! Times the planner and the Rust on the same copies, in turn, in one process; its
//! books and plain C on the same ranges; and its refusals of texture records at two
//! checks, one of which follows the other.

mod books;
mod inputs;
mod layers;
mod listing;
mod passes;
mod race;
mod records;

use std::fs;

use copy_compare::{Call, Rooms};
use copy_planner::{BufferTextureCopy, Plan};
use copy_sheet::{CopyKind, Prepared, Recorder};

use inputs::{Inputs, KINDS};
use passes::Record;
use race::{Race, Side};
use records::IllRecords;

const NAMES: [&str; KINDS] = [
    "buffer_to_buffer",
    "buffer_to_texture",
    "texture_to_buffer",
    "texture_to_texture",
    "memory_to_texture",
];
const VERDICTS: [&str; 2] = ["accepted", "refused"];

/// Layers of the copy with the most regions, and those of the others that show
/// how the time grows.
const MOST_LAYERS: usize = 256;
const LAYERS: [usize; 4] = [1, 16, 64, MOST_LAYERS];

fn main() {
    print_setting();
    let sets = inputs::random_inputs();
    let layers = LAYERS.map(layers::layers);
    let plans = layers.each_ref().map(layers::plan_of);
    let sheet = listing::large_sheet();
    let (sizes, levels) = (IllRecords::of_size(), IllRecords::of_levels());

    let mut races = copy_races(&sets);
    let most = &layers[LAYERS.len() - 1];
    let name = format!("ask_{MOST_LAYERS}_layers");
    races.push(copy_race(name, "one copy, buffer to texture".into(), most));
    races.push(layers::write_race(&plans[LAYERS.len() - 1]));
    races.push(records::race(&sizes, &levels));
    races.extend(books::races());
    races.push(listing::race(&sheet));
    let ratios = races.len();
    races.extend(plans.iter().map(layers::linearity_race));

    race::run(&mut races);
    for race in &races[..ratios] {
        print!("{race}");
        println!("ratio {} {:.2}\n", race.name, race.ratio());
    }
    print_listing_rate(&races[ratios - 1], &sheet);
    print_linearity(&races[ratios..], &plans);
}

fn print_setting() {
    println!("{}", env!("RUSTC_VERSION"));
    println!("both sides: opt-level 3, link-time optimisation, no overflow checks");
    if let Some(processor) = processor() {
        println!("{processor}");
    }
    println!(
        "{} rounds, all sides in turn in each; medians, and 5th to 95th percentile, of a call",
        race::ROUNDS
    );
    println!(
        "no buffer is cleared between calls: slices, the Rust's recorder and the planner's room \
         are used again"
    );
    println!("a call of a copy is timed with the reading of all its ranges and regions");
    println!("texture_record_levels: both sides are the planner's");
    println!(
        "book_*: the planner over plain C; {}, {}; both by a call that nothing is inlined into",
        env!("CC_VERSION"),
        env!("CC_FLAGS")
    );
    println!(
        "memory_to_texture: the Rust is the body of Queue::write_texture, which validates, tracks \
         and makes regions of a staging buffer, with nothing staged; its rules alone are the same \
         validation in the planner's order, with regions of the block, as the planner makes them\n"
    );
}

fn processor() -> Option<String> {
    let text = fs::read_to_string("/proc/cpuinfo").ok()?;
    let line = text.lines().find(|line| line.starts_with("model name"))?;
    Some(line.split(':').nth(1)?.trim().to_owned())
}

fn copy_races(sets: &[[Inputs; 2]; KINDS]) -> Vec<Race<'_>> {
    let mut races = Vec::new();
    for (kind, sets) in CopyKind::ALL.into_iter().zip(sets) {
        for (verdict, inputs) in VERDICTS.iter().zip(sets) {
            let name = format!("{}_{verdict}", NAMES[kind as usize]);
            races.push(match kind {
                CopyKind::MemoryToTexture => memory_race(name, inputs),
                _ => copy_race(name, inputs.mix(), inputs),
            });
        }
    }
    races
}

/// The planner over the Rust.
fn copy_race(name: String, about: String, inputs: &Inputs) -> Race<'_> {
    race_with(name, about, inputs, Prepared::record)
}

/// The planner over `Queue::write_texture`. The copies were held to its answers
/// when they were drawn: its regions are those of a staging buffer.
fn memory_race(name: String, inputs: &Inputs) -> Race<'_> {
    let mut race = race_with(name, inputs.mix(), inputs, Prepared::record_by_queue);
    let mut recorder = Recorder::new();
    let rules = move || passes::rust_pass(&inputs.prepared, &mut recorder, Prepared::record);
    let count = inputs.prepared.len();
    race.sides
        .push(Side::new("Rust, rules alone", count, rules));
    race
}

/// The planner, which must read the numbers that the Rust's rules give, over a
/// call of the Rust.
fn race_with<'a>(
    name: String,
    about: String,
    inputs: &'a Inputs,
    record: impl Record + Copy + 'a,
) -> Race<'a> {
    let calls: Vec<Call> = inputs.calls();
    let [again, unread] = [calls.clone(), calls.clone()];
    let count = calls.len();
    let (mut recorder, mut rooms) = (Recorder::new(), Rooms::default());
    let (mut unread_recorder, mut unread_rooms) = (Recorder::new(), Rooms::default());
    let expected = passes::rust_pass(&inputs.prepared, &mut recorder, Prepared::record);
    assert_eq!(passes::planner_pass(&calls, &mut rooms), expected, "{name}");
    assert_eq!(passes::returning_pass(&calls), expected, "{name}");
    Race {
        name,
        about,
        sides: vec![
            Side::new("Rust", count, move || {
                passes::rust_pass(&inputs.prepared, &mut recorder, record)
            }),
            Side::new("planner", count, move || {
                passes::planner_pass(&calls, &mut rooms)
            }),
            Side::new("planner, plan returned", count, move || {
                passes::returning_pass(&again)
            }),
            Side::new("Rust, not read", count, move || {
                passes::recording_pass(&inputs.prepared, &mut unread_recorder, record)
            }),
            Side::new("planner, not read", count, move || {
                passes::planning_pass(&unread, &mut unread_rooms)
            }),
        ],
    }
}

fn print_listing_rate(race: &Race, sheet: &[u8]) {
    let mut listing = Vec::new();
    listing::rust_listing(sheet, &mut listing);
    let seconds = race.sides[1].median() * 1e-9;
    println!("listing {:.0} bytes/s\n", listing.len() as f64 / seconds);
}

fn print_linearity(races: &[Race], plans: &[Plan<BufferTextureCopy>]) {
    for (race, plan) in races.iter().zip(plans) {
        let count = plan.regions_left() as f64;
        println!("{}: {}", race.name, race.about);
        for side in &race.sides {
            println!("{side}, {:.2} ns a region", side.median() / count);
        }
    }
}
