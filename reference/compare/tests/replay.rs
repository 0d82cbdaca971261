//! The fixed list of sheets, and the text that holds it.

use copy_sheet::{parse, CopyKind, Refusal};
use sheet_compare::{reference_listing, replay_items, replay_text, Item, REACHABLE};

/// Reads the text back.
fn read(mut text: &[u8]) -> Vec<Item> {
    let mut items = Vec::new();
    loop {
        let end = text.iter().position(|byte| *byte == b'\n');
        let end = end.expect("a line has an end");
        let line = std::str::from_utf8(&text[..end]).expect("plain text");
        text = &text[end + 1..];
        if line == "end" {
            assert!(text.is_empty());
            return items;
        }
        let words: Vec<&str> = line.split(' ').collect();
        let ["sheet", sheet, listing] = words[..] else {
            panic!("{line}");
        };
        let (sheet, rest) = text.split_at(sheet.parse().expect("a number"));
        let (listing, rest) = rest.split_at(listing.parse().expect("a number"));
        text = rest;
        items.push(Item {
            sheet: sheet.into(),
            listing: listing.into(),
        });
    }
}

#[test]
fn the_text_reads_back() {
    let replay = replay_items();
    let text = replay_text(&replay.items);
    assert_eq!(read(&text), replay.items);
    assert!(text.len() < 300_000, "{} bytes", text.len());
    assert!(replay.items.len() < 400, "{} sheets", replay.items.len());
}

/// Each refusal that a kind can give is the answer to a sheet of one copy.
#[test]
fn every_refusal_has_a_sheet() {
    let replay = replay_items();
    let mut seen: Vec<(CopyKind, usize)> = Vec::new();
    for item in &replay.items {
        assert_eq!(reference_listing(&item.sheet), item.listing);
        let Ok(sheet) = parse(&item.sheet) else {
            continue;
        };
        let [copy] = sheet.copies[..] else {
            continue;
        };
        let listing = String::from_utf8(item.listing.clone()).expect("plain text");
        if let Some(numbers) = listing.strip_prefix("copy 0 refused ") {
            let number = numbers.split(' ').next().and_then(|word| word.parse().ok());
            seen.push((copy.kind(), number.expect("a number")));
        }
    }
    for (kind, numbers) in REACHABLE {
        for number in 1..=Refusal::LAST {
            let has = seen.contains(&(kind, number));
            assert_eq!(has, numbers.contains(&number), "{kind:?} {number}");
            assert_eq!(has, replay.has(kind, number), "{kind:?} {number}");
        }
    }
}
