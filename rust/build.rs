//! Has the planner's static library made where it is not up to date, and links it.

use std::env;
use std::fs;
use std::path::{Path, PathBuf};
use std::process::{exit, Command, Stdio};

const ARCHIVE: &str = "libcopy_planner.a";

/// What makes the archive, in the repository's root.
const SCRIPT: &str = "library";

/// Names the folder of the archive where it is kept elsewhere; a relative path is seen from the folder of this file.
const FOLDER_VARIABLE: &str = "COPY_PLANNER_LIB_DIR";

/// What the archive is made of and by, in the repository's root, beside the crates.
const SOURCES: [&str; 4] = ["crates.txt", "KIT", "building.sh", SCRIPT];

/// What a crate is made of. Beside it stands what the checks keep, which says nothing of the crate.
const PARTS: [&str; 3] = ["src", "specs", "proofs"];

fn main() {
    println!("cargo:rerun-if-env-changed={FOLDER_VARIABLE}");
    match find_archive() {
        Ok(archive) => link(&archive),
        Err(message) => {
            eprintln!("{message}");
            exit(1);
        }
    }
}

fn link(archive: &Path) {
    let folder = archive.parent().expect("an archive lies in a folder");
    println!("cargo:rerun-if-changed={}", archive.display());
    println!("cargo:rustc-link-search=native={}", folder.display());
    println!("cargo:rustc-link-lib=static=copy_planner");
}

/// The archive's absolute path: the linker may run in another folder than this program.
fn find_archive() -> Result<PathBuf, String> {
    let archive = match env::var_os(FOLDER_VARIABLE) {
        Some(folder) => Path::new(&folder).join(ARCHIVE),
        None => archive_of_the_repository()?,
    };
    fs::canonicalize(&archive).map_err(|error| {
        format!(
            "the planner's library is not at {}: {error}",
            archive.display()
        )
    })
}

fn archive_of_the_repository() -> Result<PathBuf, String> {
    let package = env::var_os("CARGO_MANIFEST_DIR").expect("cargo names the package's folder");
    let root = Path::new(&package).join("..");
    for source in SOURCES {
        println!("cargo:rerun-if-changed={}", root.join(source).display());
    }
    for part in parts_of_crates(&root.join("crates")) {
        println!("cargo:rerun-if-changed={}", part.display());
    }
    make_archive(&root)?;
    Ok(root.join("target/staticlib").join(ARCHIVE))
}

/// The folders that crates are made of; a crate that comes or goes changes `crates.txt`.
fn parts_of_crates(crates: &Path) -> Vec<PathBuf> {
    let folders = fs::read_dir(crates).into_iter().flatten().flatten();
    folders
        .flat_map(|folder| PARTS.map(|part| folder.path().join(part)))
        .filter(|part| part.is_dir())
        .collect()
}

/// Has the archive made where it is missing or older than its sources, which takes minutes: every function of the planner is proved on the
/// way. What the script says on standard error cargo shows with `-vv` at once, and else where this program fails.
fn make_archive(root: &Path) -> Result<(), String> {
    let ended = Command::new(root.join(SCRIPT))
        .current_dir(root)
        .stdin(Stdio::null())
        .stdout(Stdio::null())
        .status()
        .map_err(|error| failure(&format!("does not run: {error}")))?;
    if ended.success() {
        return Ok(());
    }
    Err(failure(&format!("failed ({ended}); why is said above.")))
}

fn failure(how: &str) -> String {
    format!(
        "The script `{SCRIPT}` in the repository's root, which makes the planner's library where it is not up to date, {how}\n\
         To link an archive as it is, name the folder of {ARCHIVE} in {FOLDER_VARIABLE}."
    )
}
