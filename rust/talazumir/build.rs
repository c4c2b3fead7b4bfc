//! Links the proved archive of the boundary. It is the one in the folder that TALAZUMIR_ARCHIVE_DIR names, taken as it
//! is; else the one in crates/boundary/out, which must not be older than a source that it is made from. Times are no
//! proof that it is made from these sources, but tests on an older one say nothing of what was changed since.

use std::collections::BTreeSet;
use std::path::{Path, PathBuf};
use std::time::SystemTime;
use std::{env, fs, io};

const FOLDER: &str = "TALAZUMIR_ARCHIVE_DIR";

fn main() {
    println!("cargo::rerun-if-env-changed={FOLDER}");
    let found = match env::var_os(FOLDER) {
        Some(folder) => named(Path::new(&folder)),
        None => own(),
    };
    match found {
        Ok(folder) => {
            println!("cargo::rustc-link-search=native={}", folder.display());
            println!("cargo::rustc-link-lib=static=boundary");
        }
        Err(words) => println!("cargo::error={words}"),
    }
}

/// The folder of the environment. A build script runs in the crate's folder, so a relative one would mean another.
fn named(folder: &Path) -> Result<PathBuf, String> {
    if !folder.is_absolute() {
        return Err(format!("{FOLDER}={} is no absolute path", folder.display()));
    }
    time_of(&folder.join("libboundary.a")).map_err(|error| format!("{FOLDER}: {error}"))?;
    Ok(folder.to_path_buf())
}

/// The repository's own folder.
fn own() -> Result<PathBuf, String> {
    let remedy = "run `rt lib` in crates/boundary, which proves the crate and writes the archive";
    let top = Path::new(env!("CARGO_MANIFEST_DIR")).join("../..");
    let top = top.canonicalize().map_err(|error| error.to_string())?;
    let folder = top.join("crates/boundary/out");
    let archive = time_of(&folder.join("libboundary.a")).map_err(|error| format!("{error}; {remedy}"))?;
    let (source, time) = youngest_source(&top).map_err(|error| format!("the archive's sources: {error}"))?;
    if time > archive {
        let source = source.strip_prefix(&top).unwrap_or(&source).display();
        return Err(format!("crates/boundary/out/libboundary.a is older than {source}; {remedy}"));
    }
    Ok(folder)
}

/// When a file was last written. Cargo runs this script again when it changes.
fn time_of(file: &Path) -> Result<SystemTime, String> {
    println!("cargo::rerun-if-changed={}", file.display());
    let time = fs::metadata(file).and_then(|about| about.modified());
    time.map_err(|error| format!("{}: {error}", file.display()))
}

/// The file that was written last of those that the archive is made from: the boundary's crate and all below it.
fn youngest_source(top: &Path) -> Result<(PathBuf, SystemTime), String> {
    let list = top.join("crates.txt");
    let mut youngest = (list.clone(), time_of(&list)?);
    let list = fs::read_to_string(list).map_err(|error| error.to_string())?;
    for name in crates_below("boundary", &list) {
        for part in ["src", "specs", "proofs"] {
            let folder = top.join("crates").join(name).join(part);
            youngest_below(&folder, &mut youngest).map_err(|error| format!("{}: {error}", folder.display()))?;
        }
    }
    Ok(youngest)
}

/// The crates that a crate is made from, itself among them, by crates.txt: a line for each, NAME: DEPENDENCIES, where
/// words on its kind may stand behind the name.
fn crates_below<'a>(name: &'a str, list: &'a str) -> BTreeSet<&'a str> {
    let mut found = BTreeSet::new();
    let mut next = vec![name];
    while let Some(name) = next.pop() {
        if found.insert(name) {
            let lines = list.lines().filter_map(|line| line.split_once(':'));
            let own = lines.filter(|line| line.0.split_whitespace().next() == Some(name));
            next.extend(own.flat_map(|line| line.1.split_whitespace()));
        }
    }
    found
}

/// Goes through the files below a folder; there may be none.
fn youngest_below(folder: &Path, youngest: &mut (PathBuf, SystemTime)) -> io::Result<()> {
    if !folder.exists() {
        return Ok(());
    }
    println!("cargo::rerun-if-changed={}", folder.display());
    for entry in fs::read_dir(folder)? {
        let entry = entry?;
        let about = entry.metadata()?;
        if about.is_dir() {
            youngest_below(&entry.path(), youngest)?;
        } else if about.modified()? > youngest.1 {
            *youngest = (entry.path(), about.modified()?);
        }
    }
    Ok(())
}
