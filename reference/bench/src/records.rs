//! Texture records that the planner refuses at their levels, over records that
//! it refuses at their size, which is the check just before.

use copy_compare::{Call, Numbered, Records, Rooms, Visitor};
use copy_planner::{CopySide, Plan, TransferError};
use copy_sheet::{parse, Sheet};

use crate::passes;
use crate::race::{Race, Side};

/// Records of a pass.
const COUNT: usize = 64;

/// The largest side of a texture, in 2D and in 3D.
const LARGEST: [u32; 2] = [8192, 2048];

/// Textures whose records are ill, and a write from memory into each.
pub struct IllRecords {
    sheet: Sheet,
    records: Records,
}

impl IllRecords {
    /// A side is larger than any may be.
    pub fn of_size() -> Self {
        Self::new(|largest, levels| (largest + 1, levels))
    }

    /// There is a level more than the side allows, for each number of levels
    /// that some side allows.
    pub fn of_levels() -> Self {
        Self::new(|_, levels| (1 << (levels - 1), levels + 1))
    }

    /// `ill` makes a side and a number of levels of the largest side and of each
    /// number of levels up to that side's.
    fn new(ill: impl Fn(u32, u32) -> (u32, u32)) -> Self {
        let textures = (0..COUNT).map(|k| {
            let largest = LARGEST[k % 2];
            let most = largest.ilog2() + 1;
            let (side, levels) = ill(largest, 1 + (k / 2) as u32 % most);
            match k % 2 {
                0 => format!("2 2 {side} 1 1 {levels} 1 3\n"),
                _ => format!("2 3 1 1 {side} {levels} 1 3\n"),
            }
        });
        let copies = (0..COUNT).map(|k| format!("5 4 0 - - {k} 0 0 0 0 0 1 1 1\n"));
        let (textures, copies) = (textures.collect::<String>(), copies.collect::<String>());
        let text = format!("1\n1 1\n{COUNT}\n{textures}0\n{COUNT}\n{copies}");
        let sheet = parse(text.as_bytes()).expect("the sheet is well formed");
        let records = Records::new(&sheet);
        Self { sheet, records }
    }

    fn calls(&self) -> Vec<Call<'_>> {
        let calls = self.sheet.copies.iter().map(|copy| self.records.call(copy));
        calls
            .map(|call| call.expect("the planner's crate has names for this format and dimension"))
            .collect()
    }

    /// The refusal does not tell at which check it was; that is read off the
    /// planner's `fields_in_bounds`.
    fn side(&self, name: &'static str) -> Side<'_> {
        let (calls, mut rooms) = (self.calls(), Rooms::default());
        let ill = TransferError::InvalidTextureRecord {
            side: CopySide::Destination,
        };
        assert!(calls.iter().all(|call| call.plan(Refused) == Some(ill)));
        Side::new(name, COUNT, move || {
            passes::planning_pass(&calls, &mut rooms)
        })
    }
}

/// The refusal of a copy.
struct Refused;

impl Visitor for Refused {
    type Output = Option<TransferError>;

    fn visit<R: Numbered>(self, planned: Result<&mut Plan<R>, TransferError>) -> Self::Output {
        planned.err()
    }
}

/// What a refusal at the levels takes beside one at the size.
pub fn race<'a>(sizes: &'a IllRecords, levels: &'a IllRecords) -> Race<'a> {
    Race {
        name: "texture_record_levels".into(),
        about: format!("writes from memory into {COUNT} textures with ill records"),
        sides: vec![
            sizes.side("refused at the size"),
            levels.side("refused at the levels"),
        ],
    }
}
