//! Hands the compilers' versions to the program, which prints them, and has the
//! plain C that the planner's books are timed against compiled.

use std::env;
use std::path::PathBuf;
use std::process::Command;

const SOURCE: &str = "c/book.c";

/// By itself, as the planner's library, so that no caller is compiled together with it.
/// For any processor, though the library is for those of x86-64-v2: with their
/// instructions gcc 12 makes this C slower, and the faster one is to be raced.
const FLAGS: [&str; 3] = ["-std=c11", "-O3", "-fPIC"];

fn main() {
    println!("cargo::rerun-if-changed=build.rs");
    println!("cargo::rerun-if-changed={SOURCE}");
    let rustc = env::var_os("RUSTC").expect("cargo names the compiler");
    let rustc = rustc.to_string_lossy();
    println!("cargo::rustc-env=RUSTC_VERSION={}", said(&rustc, &["-V"]));
    println!("cargo::rustc-env=CC_VERSION={}", said("cc", &["--version"]));
    println!("cargo::rustc-env=CC_FLAGS={}", FLAGS.join(" "));
    compile();
}

fn compile() {
    let folder = PathBuf::from(env::var_os("OUT_DIR").expect("cargo sets OUT_DIR"));
    let path = |name| folder.join(name).to_string_lossy().into_owned();
    let (object, archive) = (path("book.o"), path("libplain_book.a"));
    said("cc", &[&FLAGS[..], &["-c", SOURCE, "-o", &object]].concat());
    said("ar", &["crs", &archive, &object]);
    println!("cargo::rustc-link-search=native={}", folder.display());
    println!("cargo::rustc-link-lib=static=plain_book");
}

/// Runs a program, and answers with the first line that it says.
fn said(program: &str, arguments: &[&str]) -> String {
    let output = Command::new(program).args(arguments).output();
    let output = output.unwrap_or_else(|error| panic!("{program} does not run: {error}"));
    let failure = String::from_utf8_lossy(&output.stderr);
    assert!(output.status.success(), "{program} failed: {failure}");
    let text = String::from_utf8_lossy(&output.stdout);
    text.lines().next().unwrap_or_default().trim().to_owned()
}
