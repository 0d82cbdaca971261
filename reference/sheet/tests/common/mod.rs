//! Sheets put together line by line, and their listings.

// Each test program uses some of these.
#![allow(dead_code)]

use copy_sheet::write_listing;

/// The listing of a sheet's bytes.
pub fn listing(sheet: impl AsRef<[u8]>) -> String {
    let mut output = Vec::new();
    write_listing(sheet.as_ref(), &mut output).expect("a Vec can be written");
    String::from_utf8(output).expect("a listing is plain text")
}

/// The text of a sheet of a device with both facts.
pub fn sheet(textures: &[&str], buffers: &[&str], copies: &[&str]) -> String {
    sheet_on("1 1", textures, buffers, copies)
}

/// The text of a sheet.
pub fn sheet_on(device: &str, textures: &[&str], buffers: &[&str], copies: &[&str]) -> String {
    let mut text = String::new();
    for section in [&[device], textures, buffers, copies] {
        text += &format!("{}\n", section.len());
        for line in section {
            text += line;
            text += "\n";
        }
    }
    text
}

/// Lines, each with its newline.
pub fn lines(lines: &[&str]) -> String {
    lines.iter().map(|line| format!("{line}\n")).collect()
}
