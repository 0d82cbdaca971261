//! Where the sources of wgpu-core lie, for the build scripts that have them
//! compiled there.

use std::path::{Path, PathBuf};
use std::{env, fs};

const VARIABLE: &str = "WGPU_CORE_SRC";
const DEFAULT: &str = "../shared/docs/src";

/// A module compiled unmodified: declaration file, module, source file.
pub type Module = (&'static str, &'static str, &'static str);

/// Tells cargo what a build script that uses this file depends on.
pub fn watch() {
    println!("cargo::rerun-if-changed=build.rs");
    println!("cargo::rerun-if-changed=../sources.rs");
    println!("cargo::rerun-if-env-changed={VARIABLE}");
}

/// Writes the declaration of a module where its source is found.
pub fn declare((declaration, module, source): Module) {
    let Some(source) = find(source) else {
        return;
    };
    let text = format!(
        "#[allow(dead_code, unused, clippy::all)]\n#[path = {:?}]\npub(crate) mod {module};\n",
        source.canonicalize().expect("the file was found"),
    );
    write(declaration, &text);
}

/// A source file; where it is missing, cargo is told so.
pub fn find(source: &str) -> Option<PathBuf> {
    let folder = source_folder();
    let source = folder.join(source);
    println!("cargo::rerun-if-changed={}", source.display());
    if source.is_file() {
        return Some(source);
    }
    println!(
        "cargo::error={} was not found: set {VARIABLE} to the `src` folder of wgpu-core \
         30.0.1 (now {}; the default is {DEFAULT} seen from the repository's root)",
        source.display(),
        folder.display(),
    );
    None
}

pub fn write(file: &str, text: &str) {
    let folder = PathBuf::from(env::var_os("OUT_DIR").expect("cargo sets OUT_DIR"));
    fs::write(folder.join(file), text).expect("OUT_DIR can be written");
}

/// The folder of the sources; a relative one is seen from the repository's root.
fn source_folder() -> PathBuf {
    let manifest = env::var_os("CARGO_MANIFEST_DIR").expect("cargo sets CARGO_MANIFEST_DIR");
    let root = Path::new(&manifest)
        .ancestors()
        .nth(2)
        .expect("the crate lies two folders below the root");
    root.join(env::var_os(VARIABLE).unwrap_or_else(|| DEFAULT.into()))
}
