//! Finds or builds `libtotals.a` and links it.
//!
//! `TOTALS_LIB_DIR` names a folder that holds the archive. Without it the archive is the
//! repository's own, `target/staticlib/libtotals.a`: where that is missing, or older than a file
//! of the crates that it is made of, `rt lib` proves these and makes it, as `./archive` does. A
//! packaged crate stands in no repository, and needs `TOTALS_LIB_DIR`.

use std::ffi::OsString;
use std::path::{Path, PathBuf};
use std::process::Command;
use std::time::{Instant, SystemTime};
use std::{env, fs, io};

const ARCHIVE: &str = "libtotals.a";
const OR_ELSE: &str = "or set TOTALS_LIB_DIR to a folder that holds libtotals.a";

fn main() {
    println!("cargo::rerun-if-changed=build.rs");
    println!("cargo::rerun-if-env-changed=TOTALS_LIB_DIR");
    match right_platform().and_then(|()| folder_of_archive()) {
        Ok(folder) => {
            println!("cargo::rustc-link-search=native={}", folder.display());
            println!("cargo::rustc-link-lib=static=totals");
        }
        Err(what) => println!("cargo::error={what}"),
    }
}

/// `rt` writes the archive for x86-64 Linux and for nothing else.
fn right_platform() -> Result<(), String> {
    let of_target = |name: &str| env::var(name).unwrap_or_default();
    if of_target("CARGO_CFG_TARGET_ARCH") == "x86_64" && of_target("CARGO_CFG_TARGET_OS") == "linux"
    {
        return Ok(());
    }
    Err(format!(
        "libtotals.a is made for x86-64 Linux only, and this build is for {}",
        of_target("TARGET")
    ))
}

fn folder_of_archive() -> Result<PathBuf, String> {
    match env::var_os("TOTALS_LIB_DIR") {
        Some(folder) => named_folder(folder),
        None => folder_in_repository(),
    }
}

fn named_folder(folder: OsString) -> Result<PathBuf, String> {
    let folder = PathBuf::from(folder);
    println!("cargo::rerun-if-changed={}", folder.join(ARCHIVE).display());
    if folder.join(ARCHIVE).is_file() {
        return Ok(folder);
    }
    Err(format!(
        "TOTALS_LIB_DIR is {}, and there is no libtotals.a in that folder (give an absolute path)",
        folder.display()
    ))
}

fn folder_in_repository() -> Result<PathBuf, String> {
    let package = PathBuf::from(env::var_os("CARGO_MANIFEST_DIR").unwrap_or_default());
    let top = package.join("../..");
    if !top.join("crates/totals_c").is_dir() || !top.join("crates.txt").is_file() {
        return Err(
            "this crate does not stand in its repository, so libtotals.a cannot be built: \
             set TOTALS_LIB_DIR to a folder that holds it"
                .to_string(),
        );
    }
    let folder = top.join("target/staticlib");
    let watched = sources_of_totals(&top)?;
    for path in watched.iter().chain([&folder.join(ARCHIVE)]) {
        println!("cargo::rerun-if-changed={}", path.display());
    }
    match made(&folder.join(ARCHIVE)) {
        None => build(&top, "there is no target/staticlib/libtotals.a")?,
        Some(then) => {
            if let Some(path) = watched.iter().find(|path| newer(path, then)) {
                let path = path.strip_prefix(&top).unwrap_or(path).display();
                let why =
                    format!("target/staticlib/libtotals.a is older than what stands in {path}");
                build(&top, &why)?;
            }
        }
    }
    Ok(folder)
}

/// What the archive is made of: crates.txt, and of `totals_c` and all that it depends on there what
/// is proved. The edits that must be refused are not.
fn sources_of_totals(top: &Path) -> Result<Vec<PathBuf>, String> {
    let list = top.join("crates.txt");
    let text = fs::read_to_string(&list).map_err(|error| format!("crates.txt: {error}"))?;
    let mut names = vec!["totals_c"];
    let mut next = 0;
    while let Some(name) = names.get(next) {
        let needs = text.lines().filter_map(|line| line.split_once(':'));
        let mut more: Vec<&str> = needs
            .filter(|(of, _)| of.split_whitespace().next() == Some(*name))
            .flat_map(|(_, needs)| needs.split_whitespace())
            .filter(|need| !names.contains(need))
            .collect();
        names.append(&mut more);
        next += 1;
    }
    let parts = names.iter().flat_map(|name| {
        ["src", "specs", "proofs"].map(|part| top.join("crates").join(name).join(part))
    });
    // a name without a folder is one of the toolchain's own, and not every crate has every part
    Ok([list]
        .into_iter()
        .chain(parts.filter(|path| path.is_dir()))
        .collect())
}

fn made(file: &Path) -> Option<SystemTime> {
    fs::metadata(file).and_then(|data| data.modified()).ok()
}

/// Whether the file, or the folder or a file under it, was changed after `then`. A folder changes
/// where a file is added or removed.
fn newer(path: &Path, then: SystemTime) -> bool {
    let below = fs::read_dir(path).into_iter().flatten().flatten();
    made(path).is_some_and(|time| time > then) || { below }.any(|entry| newer(&entry.path(), then))
}

/// Puts what `rt lib` has made where it is looked for.
fn keep(top: &Path, crate_of_exports: &Path) -> io::Result<u64> {
    let folder = top.join("target/staticlib");
    fs::create_dir_all(&folder)?;
    fs::copy(
        crate_of_exports.join("out/libtotals_c.a"),
        folder.join(ARCHIVE),
    )
}

fn build(top: &Path, why: &str) -> Result<(), String> {
    let started = Instant::now();
    let crate_of_exports = top.join("crates/totals_c");
    let run = Command::new("rt")
        .arg("lib")
        .current_dir(&crate_of_exports)
        .output();
    match run {
        Ok(output) if output.status.success() && keep(top, &crate_of_exports).is_ok() => {
            println!(
                "cargo::warning={why}, so `rt lib` in crates/totals_c proved and built it ({} s)",
                started.elapsed().as_secs()
            );
            Ok(())
        }
        Ok(output) => {
            // what `rt` says of each crate
            let said = String::from_utf8_lossy(&output.stdout);
            let cried = String::from_utf8_lossy(&output.stderr);
            let lines = said.lines().filter(|line| line.starts_with("rt: "));
            for line in lines.chain(cried.lines()) {
                println!("cargo::warning={line}");
            }
            Err(format!(
                "{why}, and `rt lib` did not make it ({}): run that in crates/totals_c",
                output.status
            ))
        }
        Err(error) if error.kind() == io::ErrorKind::NotFound => Err(format!(
            "{why}, and `rt`, the Rattle toolchain, which makes it, is not on the path: \
             put it there, {OR_ELSE}"
        )),
        Err(error) => Err(format!(
            "{why}, and `rt` does not start ({error}): {OR_ELSE}"
        )),
    }
}
