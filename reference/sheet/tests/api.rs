//! What programs other than the sheet program use.

mod common;

use common::sheet;
use copy_sheet::{
    append_region_numbers, parse, record_copy, run_copy, silence_copy_panics, Copy, InitAction,
    MemoryInitKind, Objects, Outcome, Prepared, Recorder, Refusal, ABSENT,
};

#[test]
fn region_numbers() {
    let text = sheet(
        &["0 2 4 1 2 1 1 3", "0 2 4 1 2 1 1 3"],
        &["64 12", "64 12"],
        &[
            "1 0 4 1 8 12",
            "3 0 8 - - 0 0 1 0 1 0 2 1 1",
            "4 0 0 1 0 0 0 1 0 2 0 1 0 2 1 1",
            "5 99 7 2 - 0 0 1 0 1 0 2 1 1",
        ],
    );
    let sheet = parse(text.as_bytes()).unwrap();
    let mut objects = Objects::new(&sheet);
    let mut recorder = Recorder::new();
    let expected: [&[u64]; 4] = [
        &[4, 8, 12],
        &[8, ABSENT, ABSENT, 0, 1, 1, 0, 0, 1, 2, 1, 1],
        &[0, 0, 1, 0, 0, 1, 0, 1, 2, 0, 0, 1, 2, 1, 1],
        &[7, 2, ABSENT, 0, 1, 1, 0, 0, 1, 2, 1, 1],
    ];
    for (copy, expected) in sheet.copies.iter().zip(expected) {
        assert_eq!(record_copy(&mut recorder, &mut objects, copy), Ok(()));
        assert_eq!(region_numbers_of(&recorder), expected);
    }
}

fn region_numbers_of(recorder: &Recorder) -> Vec<u64> {
    let mut numbers = Vec::new();
    append_region_numbers(recorder, &mut numbers);
    numbers
}

/// A prepared copy is the same call.
#[test]
fn prepared_copies() {
    let text = sheet(
        &["0 2 4 1 2 1 1 3", "0 2 4 1 2 1 1 1", "22 2 4 1 2 1 1 3"],
        &["64 12", "64 12"],
        &[
            "1 0 4 1 8 12",
            "2 0 0 256 1 0 0 1 0 0 0 2 1 2",
            "3 0 8 - - 0 0 1 0 1 0 2 1 1",
            "4 0 0 1 0 0 0 0 0 2 0 1 0 2 1 1",
            "4 0 0 1 0 0 0 1 0 2 0 1 0 2 1 1",
            "4 0 0 1 0 0 0 2 0 2 0 1 0 2 1 1",
            "1 0 4 2 8 12",
            "5 9 1 5 1 0 0 1 0 0 0 2 1 2",
            "5 7 1 5 1 0 0 1 0 0 0 2 1 2",
            "5 9 1 5 1 2 0 1 0 0 0 2 1 2",
            "5 9 1 5 1 3 0 1 0 0 0 2 1 2",
        ],
    );
    let sheet = parse(text.as_bytes()).unwrap();
    let mut objects = Objects::new(&sheet);
    let (mut recorder, mut again) = (Recorder::new(), Recorder::new());
    for copy in &sheet.copies {
        let recorded = record_copy(&mut recorder, &mut objects, copy);
        let Some(prepared) = Prepared::new(&objects, copy) else {
            assert!(recorded.is_err_and(|refusal| refusal.number <= 3));
            continue;
        };
        assert_eq!(prepared.record(&mut again).is_ok(), recorded.is_ok());
        assert_eq!(region_numbers_of(&again), region_numbers_of(&recorder));
        assert_eq!(again.init_actions(), recorder.init_actions());
        assert_eq!(
            prepared.record_by_queue(&mut again).is_ok(),
            recorded.is_ok()
        );
        assert_eq!(again.init_actions(), recorder.init_actions());
        let counts = [&again, &recorder].map(|of| of.encoder().buffer_texture_copies.len());
        assert_eq!(counts[0], counts[1]);
    }
}

/// A refusal leaves nothing of the copy before it in the recorder.
#[test]
fn records_are_fresh() {
    let text = sheet(&[], &["64 12", "64 8"], &["1 0 0 1 0 4", "1 1 0 0 0 4"]);
    let sheet = parse(text.as_bytes()).unwrap();
    let mut objects = Objects::new(&sheet);
    let mut recorder = Recorder::new();
    let outcome = run_copy(&mut recorder, &mut objects, &sheet.copies[0]);
    assert_eq!(outcome, Outcome::Accepted { bytes_checked: 4 });
    assert_eq!(
        recorder.init_actions()[0],
        InitAction::Buffer {
            buffer: 1,
            start: 0,
            end: 4,
            kind: MemoryInitKind::ImplicitlyInitialized,
        }
    );
    let outcome = run_copy(&mut recorder, &mut objects, &sheet.copies[1]);
    let refusal = Refusal {
        number: 5,
        side: 1,
        ..Refusal::default()
    };
    assert_eq!(outcome, Outcome::Refused(refusal));
    assert!(recorder.init_actions().is_empty());
    assert!(recorder.encoder().buffer_copies.is_empty());
}

/// A panic during a copy is an outcome, and the objects are as good as before.
#[test]
fn panics_are_outcomes() {
    silence_copy_panics();
    let text = sheet(
        &["0 2 4 1 2 1 1 3"],
        &["64 12"],
        &["3 0 8 - - 0 0 1 0 1 0 2 1 1"],
    );
    let sheet = parse(text.as_bytes()).unwrap();
    let mut objects = Objects::new(&sheet);
    let mut recorder = Recorder::new();
    let mut odd = sheet.copies[0];
    if let Copy::TextureToBuffer { source, .. } = &mut odd {
        source.aspect = 6;
    }
    assert_eq!(
        run_copy(&mut recorder, &mut objects, &odd),
        Outcome::Panicked("an aspect is at most 5".into())
    );
    assert_eq!(
        run_copy(&mut recorder, &mut objects, &sheet.copies[0]),
        Outcome::Accepted { bytes_checked: 2 }
    );
}

/// Every thread may have its own objects and recorder.
#[test]
fn objects_and_recorders_can_be_sent() {
    fn assert_send<T: Send>() {}
    assert_send::<Objects>();
    assert_send::<Recorder>();
}
