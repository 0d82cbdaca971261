//! The program itself, through its pipes.

mod common;

use std::io::Write;
use std::process::{Command, Output, Stdio};

use common::{listing, sheet};

fn run(input: &[u8]) -> Output {
    let mut program = Command::new(env!("CARGO_BIN_EXE_reference_sheet"))
        .stdin(Stdio::piped())
        .stdout(Stdio::piped())
        .stderr(Stdio::piped())
        .spawn()
        .expect("the program starts");
    // A sheet that is too long is not read to its end.
    let _ = program.stdin.take().expect("a pipe").write_all(input);
    program.wait_with_output().expect("the program ends")
}

#[test]
fn prints_the_listing() {
    let textures = ["15 2 8 8 256 1 1 3"];
    let copies = ["2 0 0 256 8 0 0 0 0 0 0 8 8 256"; 256];
    let text = sheet(&textures, &["268435456 12"], &copies);
    let output = run(text.as_bytes());
    assert!(output.status.success());
    assert_eq!(output.stderr, b"");
    assert_eq!(String::from_utf8(output.stdout).unwrap(), listing(&text));
}

#[test]
fn ill_sheets() {
    for (input, expected) in [
        (b"".as_slice(), b"sheet 1\n".as_slice()),
        (b"\0\xff\r\n", b"sheet 1\n"),
        (b"1\n1 1\n0\n0\n0\n", b""),
        (&[b'1'; 65_536], b"sheet 1\n"),
        (&[b'1'; 65_537], b"sheet 0\n"),
        (&[b'\n'; 1_000_000], b"sheet 0\n"),
    ] {
        let output = run(input);
        assert!(output.status.success());
        assert_eq!(output.stdout, expected);
        assert_eq!(output.stderr, b"");
    }
}

/// A reader that goes away ends the program without a word.
#[test]
fn closed_output() {
    let textures = ["15 2 8 8 256 1 1 3"];
    let copies = ["2 0 0 256 8 0 0 0 0 0 0 8 8 256"; 256];
    let text = sheet(&textures, &["268435456 12"], &copies);
    let mut program = Command::new(env!("CARGO_BIN_EXE_reference_sheet"))
        .stdin(Stdio::piped())
        .stdout(Stdio::piped())
        .stderr(Stdio::piped())
        .spawn()
        .expect("the program starts");
    drop(program.stdout.take());
    let mut input = program.stdin.take().expect("a pipe");
    input.write_all(text.as_bytes()).expect("the sheet is read");
    drop(input);
    let output = program.wait_with_output().expect("the program ends");
    assert!(output.status.success());
    assert_eq!(output.stderr, b"");
}
