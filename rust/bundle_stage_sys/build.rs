//! Finds the static library of the proved stage: in the folder that STAGE_LIB names; else in
//! target/staticlib of the repository. Where it is not there, the build fails at once and says how to
//! make it; with STAGE_PROVE=1 it has `rt lib` make it, of the crate stage_c, which has the entries for
//! C; that proves every crate below it. It does so on a copy of the crates in OUT_DIR, and writes nowhere
//! else.

#![forbid(unsafe_code)]

use std::env;
use std::fs;
use std::io;
use std::path::{Path, PathBuf};
use std::process::Command;

const LIBRARY: &str = "libstage.a";
const CRATE: &str = "crates/stage_c";
const MADE: &str = "out/libstage_c.a";

fn main() {
    println!("cargo:rerun-if-env-changed=STAGE_LIB");
    println!("cargo:rerun-if-env-changed=STAGE_PROVE");
    target();
    println!("cargo:rerun-if-changed=build.rs");
    let folder = match env::var_os("STAGE_LIB").map(PathBuf::from) {
        Some(folder) => named(folder),
        None => repository_s(),
    };
    println!("cargo:rustc-link-search=native={}", folder.display());
    println!("cargo:rustc-link-lib=static=stage");
}

/// The library has machine code for one target alone.
fn target() {
    let of = |key: &str| env::var(key).unwrap_or_default();
    let (arch, os) = (of("CARGO_CFG_TARGET_ARCH"), of("CARGO_CFG_TARGET_OS"));
    if (arch.as_str(), os.as_str()) != ("x86_64", "linux") {
        fail(&format!(
            "the proved stage is made for x86-64 Linux alone, and this build is for {arch} {os}: \
             name the target x86_64-unknown-linux-gnu"
        ));
    }
}

fn named(folder: PathBuf) -> PathBuf {
    if !folder.is_absolute() {
        fail(&format!(
            "STAGE_LIB is {}: it has to be an absolute path",
            folder.display()
        ));
    }
    if !folder.join(LIBRARY).is_file() {
        fail(&format!(
            "STAGE_LIB names {}, which has no {LIBRARY}",
            folder.display()
        ));
    }
    watched(folder)
}

/// A library that is made anew is linked anew.
fn watched(folder: PathBuf) -> PathBuf {
    println!("cargo:rerun-if-changed={}", folder.join(LIBRARY).display());
    folder
}

fn repository_s() -> PathBuf {
    let here = PathBuf::from(env::var_os("CARGO_MANIFEST_DIR").expect("cargo sets it"));
    let root = here
        .ancestors()
        .nth(2)
        .expect("this crate stands in rust/ of the repository");
    let folder = root.join("target/staticlib");
    if !folder.join(LIBRARY).is_file() {
        if env::var_os("STAGE_PROVE").is_none_or(|value| value != "1") {
            fail(&format!(
                "{LIBRARY}, the proved stage, is not in {}.\nEither run `rt lib` in {} \
                 (from nothing it proves every crate below it) and copy {MADE} from there to {LIBRARY} in \
                 {}, or run `./run` in {}, which does both; or set STAGE_LIB \
                 to the absolute path of a folder that has {LIBRARY} in it; or set STAGE_PROVE=1, \
                 and this build runs `rt lib` itself, on a copy, for as long as that takes, in silence.",
                folder.display(),
                root.join(CRATE).display(),
                folder.display(),
                root.display()
            ));
        }
        return make(root);
    }
    watched(folder)
}

/// Gives the folder that the library is in.
fn make(root: &Path) -> PathBuf {
    let folder = PathBuf::from(env::var_os("OUT_DIR").expect("cargo sets it"));
    let copy = folder.join("proof");
    for name in ["crates", "crates.txt"] {
        println!("cargo:rerun-if-changed={}", root.join(name).display());
        if let Err(error) = update(&root.join(name), &copy.join(name)) {
            fail(&format!(
                "{} cannot be copied to {}: {error}",
                root.join(name).display(),
                copy.display()
            ));
        }
    }
    let place = copy.join(CRATE);
    prove(&place);
    if let Err(error) = fs::copy(place.join(MADE), folder.join(LIBRARY)) {
        fail(&format!(
            "`rt lib` ended well, but {} cannot be copied: {error}",
            place.join(MADE).display()
        ));
    }
    folder
}

/// Makes a file or folder as another one is, and leaves what is as it should be: `rt` then proves again only
/// what changed. What it made itself is in folders `out`; edits that must fail are not looked at here.
fn update(from: &Path, to: &Path) -> io::Result<()> {
    if from.is_file() {
        let due = fs::read(from)?;
        return match fs::read(to) {
            Ok(there) if there == due => Ok(()),
            _ => fs::write(to, due),
        };
    }
    fs::create_dir_all(to)?;
    for entry in fs::read_dir(to)? {
        let (name, path) = entry.map(|entry| (entry.file_name(), entry.path()))?;
        if name != "out" && !from.join(&name).exists() {
            match path.is_dir() {
                true => fs::remove_dir_all(path)?,
                false => fs::remove_file(path)?,
            }
        }
    }
    for entry in fs::read_dir(from)? {
        let name = entry?.file_name();
        if name != "out" && name != "must-fail" {
            update(&from.join(&name), &to.join(&name))?;
        }
    }
    Ok(())
}

fn prove(place: &Path) {
    match Command::new("rt").arg("lib").current_dir(place).status() {
        Ok(status) if status.success() => {}
        Ok(status) => fail(&format!(
            "`rt lib` failed ({status}): run it in {} and read what it says",
            place.display()
        )),
        Err(error) => fail(&format!(
            "{LIBRARY}, the proved stage, is not there, and the Rattle toolchain, which makes it, \
             cannot be run: rt: {error}.\nEither install the toolchain, so that `rt` is found in \
             PATH, or set STAGE_LIB to the absolute path of a folder that has {LIBRARY} in it."
        )),
    }
}

fn fail(message: &str) -> ! {
    eprintln!("{message}");
    std::process::exit(1)
}
