//! Finds the sources of wgpu-core, writes the module declarations that compile
//! them where they lie, and takes the body of one function out of its file.

#[path = "../sources.rs"]
mod sources;

use std::fs;

use sources::Module;

const MODULES: [Module; 2] = [
    ("transfer_mod.rs", "transfer", "command/transfer.rs"),
    ("texture_mod.rs", "texture", "init_tracker/texture.rs"),
];

/// The rest of this file needs more of the crate than stands in, so that only
/// the body of a function of it is compiled: source file, function, body's file.
const BODY: (&str, &str, &str) = ("device/queue.rs", "write_texture", "write_texture.rs");

fn main() {
    sources::watch();
    MODULES.into_iter().for_each(sources::declare);
    let (source, function, file) = BODY;
    let Some(source) = sources::find(source) else {
        return;
    };
    let text = fs::read_to_string(&source).expect("the file can be read");
    match body_of(&text, function) {
        Some(body) => sources::write(file, body),
        None => println!("cargo::error={} has no `{function}`", source.display()),
    }
}

/// The body of a method, with its braces, as the text has it. The text is
/// formatted, so that the first brace at the method's own depth ends the body.
fn body_of<'a>(text: &'a str, method: &str) -> Option<&'a str> {
    let (_, method) = text.split_once(&format!("\n    pub fn {method}("))?;
    let start = method.find(" {\n")? + 1;
    let last = "\n    }";
    let end = start + method[start..].find(&format!("{last}\n"))? + last.len();
    Some(&method[start..end])
}
