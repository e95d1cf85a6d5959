//! The build script, on a small repository of its own, with a program in the place of `rt`: where it finds
//! the library, what it says where there is none, and that it writes in the build's folder alone.

#![forbid(unsafe_code)]

use std::collections::BTreeMap;
use std::fs;
use std::os::unix::fs::PermissionsExt;
use std::path::{Path, PathBuf};
use std::process::Command;

/// Says where it was run and beside how many crates, and makes a library that is none; it fails where it is asked for anything else.
const RT: &str = "#!/bin/sh\n\
    [ \"$*\" = lib ] && [ -f ../../crates.txt ] && [ -f src/lib.rt ] || exit 1\n\
    [ ! -e must-fail ] || exit 1\n\
    echo \"$PWD $(ls .. | wc -l)\" >> \"$RT_RAN\"\n\
    mkdir -p out && printf '!<arch>\\n' > out/libstage_c.a\n";

struct Repository {
    root: PathBuf,
    target: PathBuf,
}

impl Repository {
    fn new(name: &str) -> Repository {
        let folder = Path::new(env!("CARGO_TARGET_TMPDIR")).join(name);
        let _ = fs::remove_dir_all(&folder);
        let repository = Repository {
            root: folder.join("repository"),
            target: folder.join("target"),
        };
        let here = Path::new(env!("CARGO_MANIFEST_DIR"));
        for file in ["Cargo.toml", "build.rs", "src/lib.rs"] {
            let text = fs::read_to_string(here.join(file)).expect("a file of this crate");
            repository.write(&format!("rust/bundle_stage_sys/{file}"), &text);
        }
        let workspace = "[workspace]\nresolver = \"3\"\nmembers = [\"bundle_stage_sys\"]\n\
            [workspace.package]\nversion = \"0.1.0\"\nedition = \"2024\"\nlicense = \"Apache-2.0\"\n\
            publish = false\nrust-version = \"1.88\"\n";
        repository.write("rust/Cargo.toml", workspace);
        repository.write("crates.txt", "stage_c staticlib:\n");
        repository.write("crates/stage_c/src/lib.rt", "");
        repository.write("crates/stage_c/must-fail/a.edit", "");
        repository.write("crates/low/src/lib.rt", "");
        fs::create_dir_all(folder.join("bin")).expect("a folder");
        let rt = folder.join("bin/rt");
        fs::write(&rt, RT).expect("a file");
        fs::set_permissions(&rt, fs::Permissions::from_mode(0o755)).expect("a program");
        repository
    }

    fn write(&self, name: &str, text: &str) {
        let path = self.root.join(name);
        fs::create_dir_all(path.parent().expect("a folder")).expect("a folder");
        fs::write(path, text).expect("a file");
    }

    /// Builds: whether that ended well, and what was said.
    fn build(&self, settings: &[(&str, &str)]) -> (bool, String) {
        let path = std::env::var("PATH").expect("a path");
        let bin = self.target.with_file_name("bin");
        let output = Command::new(env!("CARGO"))
            .args(["build", "--offline", "--lib"])
            .current_dir(self.root.join("rust"))
            .env_remove("STAGE_LIB")
            .env_remove("STAGE_PROVE")
            .env("CARGO_TARGET_DIR", &self.target)
            .env("PATH", format!("{}:{path}", bin.display()))
            .env("RT_RAN", self.target.with_file_name("ran"))
            .envs(settings.iter().copied())
            .output()
            .expect("cargo runs");
        let said = String::from_utf8_lossy(&output.stderr).into_owned();
        (output.status.success(), said)
    }

    /// In which folders rt was run, and beside how many crates.
    fn ran(&self) -> Vec<String> {
        let ran = fs::read_to_string(self.target.with_file_name("ran")).unwrap_or_default();
        ran.lines().map(str::to_string).collect()
    }

    /// All files of the repository but cargo's own list of versions.
    fn files(&self) -> BTreeMap<PathBuf, Vec<u8>> {
        let (mut files, mut folders) = (BTreeMap::new(), vec![self.root.clone()]);
        while let Some(folder) = folders.pop() {
            for entry in fs::read_dir(folder).expect("a folder") {
                let path = entry.expect("an entry").path();
                if path.is_dir() {
                    folders.push(path);
                } else if !path.ends_with("Cargo.lock") {
                    let bytes = fs::read(&path).expect("a file");
                    files.insert(path, bytes);
                }
            }
        }
        files
    }
}

#[test]
fn proves_only_where_it_is_asked_to_and_in_the_build_s_folder() {
    let repository = Repository::new("proves");
    let before = repository.files();
    let (well, said) = repository.build(&[]);
    assert!(
        !well && said.contains("libstage.a, the proved stage, is not in "),
        "{said}"
    );
    assert!(
        repository.ran().is_empty(),
        "no proof that nobody asked for"
    );
    let (well, said) = repository.build(&[("STAGE_PROVE", "1")]);
    assert!(well, "{said}");
    let ran = repository.ran();
    let folder = repository.target.display().to_string();
    assert!(ran.len() == 1 && ran[0].starts_with(&folder), "{ran:?}");
    assert_eq!(repository.files(), before);
    // Once more only where the crates changed; what is no longer there is gone from the copy.
    repository.build(&[("STAGE_PROVE", "1")]);
    assert_eq!(repository.ran().len(), 1);
    fs::remove_dir_all(repository.root.join("crates/low")).expect("a folder");
    repository.write("crates/stage_c/src/lib.rt", "// changed");
    let (well, said) = repository.build(&[("STAGE_PROVE", "1")]);
    assert!(well, "{said}");
    let ran = repository.ran();
    assert!(
        ran[0].ends_with(" 2") && ran[1].ends_with(" 1") && ran.len() == 2,
        "{ran:?}"
    );
}

#[test]
fn a_library_that_is_there() {
    let repository = Repository::new("there");
    let (well, said) = repository.build(&[("STAGE_LIB", "lib")]);
    assert!(
        !well && said.contains("STAGE_LIB is lib: it has to be an absolute path"),
        "{said}"
    );
    let folder = repository.root.join("lib");
    let name = folder.display().to_string();
    let (well, said) = repository.build(&[("STAGE_LIB", &name)]);
    let due = format!("STAGE_LIB names {name}, which has no libstage.a");
    assert!(!well && said.contains(&due), "{said}");
    repository.write("lib/libstage.a", "!<arch>\n");
    let (well, said) = repository.build(&[("STAGE_LIB", &name), ("STAGE_PROVE", "1")]);
    assert!(well, "{said}");
    repository.write("target/staticlib/libstage.a", "!<arch>\n");
    let (well, said) = repository.build(&[("STAGE_PROVE", "1")]);
    assert!(well, "{said}");
    assert!(repository.ran().is_empty());
}
