//! Finds libfuavelino.a: in the folder that FUAVELINO_LIB_DIR names, else where the repository builds it. A path that is not whole is
//! seen from where cargo was called, and an empty one counts as none.

use std::env;
use std::path::{Path, PathBuf};
use std::process::exit;

const FOLDER: &str = "FUAVELINO_LIB_DIR";
const HERE: &str = "PWD";
const LIBRARY: &str = "libfuavelino.a";

fn main() {
    println!("cargo:rerun-if-env-changed={}", FOLDER);
    let folder = folder();
    let library = folder.join(LIBRARY);
    println!("cargo:rerun-if-changed={}", library.display());
    if !library.is_file() {
        eprintln!("There is no {} in {}.", LIBRARY, folder.display());
        eprintln!("Run `bash tools/archive fuavelino` at the top of the repository, which proves and builds it,");
        eprintln!("or set {} to the folder that holds it.", FOLDER);
        exit(1);
    }
    // the folder in full, since cargo links from another place than this runs in
    let folder = folder.canonicalize().unwrap_or(folder);
    println!("cargo:rustc-link-search=native={}", folder.display());
    println!("cargo:rustc-link-lib=static=fuavelino");
}

fn folder() -> PathBuf {
    match env::var_os(FOLDER) {
        Some(named) if !named.is_empty() => whole(PathBuf::from(named)),
        _ => Path::new(env!("CARGO_MANIFEST_DIR")).join("../../target/host"),
    }
}

/// Cargo runs this in the package's own folder; where the user stood is known from PWD alone, which shells keep.
fn whole(named: PathBuf) -> PathBuf {
    if named.is_absolute() {
        return named;
    }
    println!("cargo:rerun-if-env-changed={}", HERE);
    match env::var_os(HERE).map(PathBuf::from) {
        Some(here) if here.is_absolute() => here.join(named),
        _ => {
            eprintln!(
                "{} is {}: give the whole path, since {} does not tell where from.",
                FOLDER,
                named.display(),
                HERE
            );
            exit(1)
        }
    }
}
