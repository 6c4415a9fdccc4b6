//! Links a copy of the proved library, and tells the crate its digest and the kit that proved it.
//!
//! It is the library that `RUZKEMP_LIBRARY` names, or that of the sources. Whether `rt` has to
//! prove these first, `host/library` decides: each profile of cargo runs this once, and `rt` is
//! to run only if the sources have changed.

use std::ffi::OsString;
use std::os::unix::ffi::OsStringExt;
use std::path::{Path, PathBuf};
use std::process::{Command, Stdio};
use std::{env, fs};

mod record;
mod sha256;

/// Names a library made elsewhere.
const MADE: &str = "RUZKEMP_LIBRARY";
/// What the library is made from, and by what, beside the crates.
const SOURCES: [&str; 2] = ["crates.txt", "host/library"];
/// What `rt` keeps in the folder of a crate; the rest of it is sources.
const KEPT: &str = "out";

fn main() {
    println!("cargo:rerun-if-changed=build.rs");
    println!("cargo:rerun-if-changed=record.rs");
    println!("cargo:rerun-if-changed=sha256.rs");
    println!("cargo:rerun-if-env-changed={MADE}");
    if let Err(why) = link() {
        eprintln!("{why}");
        std::process::exit(1);
    }
}

fn link() -> Result<(), String> {
    let library = library()?;
    let unread = |why| format!("{} cannot be copied: {why}", library.display());
    let bytes = fs::read(&library).map_err(unread)?;
    let folder = PathBuf::from(env::var_os("OUT_DIR").ok_or("cargo names no OUT_DIR")?);
    fs::write(folder.join("libexport.a"), &bytes).map_err(unread)?;
    println!("cargo:rustc-link-search=native={}", folder.display());
    println!("cargo:rustc-link-lib=static=export");
    let digest = sha256::sha256(&bytes);
    println!("cargo:rustc-env=RUZKEMP_SHA256={digest}");
    let record = fs::read_to_string(record_of(&library)).unwrap_or_default();
    let kit = record::kit(&record, &digest);
    println!("cargo:rustc-env=RUZKEMP_KIT={kit}");
    Ok(())
}

/// The library's path: the one that is named, or the one of the sources as they are.
fn library() -> Result<PathBuf, String> {
    let Some(made) = env::var_os(MADE).filter(|made| !made.is_empty()) else {
        return current();
    };
    let made = PathBuf::from(made);
    if made.is_relative() {
        // This runs in the package's folder, which is not where cargo was called.
        return Err(format!("{MADE} has to begin with /: {}", made.display()));
    }
    watch(&made);
    watch(&record_of(&made));
    Ok(made)
}

/// The path of the library of the sources, which `host/library` has made if need be.
fn current() -> Result<PathBuf, String> {
    let root = Path::new(env!("CARGO_MANIFEST_DIR")).join("../..");
    for source in SOURCES {
        watch(&root.join(source));
    }
    for part in parts(&root.join("crates"))? {
        watch(&part);
    }
    let asked = Command::new(root.join("host/library"))
        .stderr(Stdio::inherit())
        .output();
    let asked = asked.map_err(|why| format!("host/library cannot be run: {why}"))?;
    match asked.status.success() {
        true => Ok(OsString::from_vec(asked.stdout.trim_ascii_end().to_vec()).into()),
        false => Err("there is no proved library to link".into()),
    }
}

/// What lies in the folders of the crates, but for what `rt` keeps there.
fn parts(crates: &Path) -> Result<Vec<PathBuf>, String> {
    let mut parts = Vec::new();
    for folder in entries(crates)?.iter().filter(|folder| folder.is_dir()) {
        parts.extend(
            entries(folder)?
                .into_iter()
                .filter(|part| !part.ends_with(KEPT)),
        );
    }
    Ok(parts)
}

/// The paths of what lies in a folder.
fn entries(folder: &Path) -> Result<Vec<PathBuf>, String> {
    let unread = |why| format!("{} cannot be read: {why}", folder.display());
    let entries = fs::read_dir(folder).map_err(unread)?;
    entries
        .map(|entry| Ok(entry.map_err(unread)?.path()))
        .collect()
}

/// Has cargo run this again when a file, or one in a folder, changes. What is not there would
/// have it run always.
fn watch(path: &Path) {
    if path.exists() {
        println!("cargo:rerun-if-changed={}", path.display());
    }
}

/// The file beside a library that names the kit which proved it.
fn record_of(library: &Path) -> PathBuf {
    library.with_extension("kit")
}
