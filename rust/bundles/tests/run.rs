//! `./run`, on a small repository of its own, with programs in the places of `rt` and `cargo`: when it proves
//! and says how far that is, when a library is old, and how it ends.

#![forbid(unsafe_code)]

use std::fs;
use std::os::unix::fs::PermissionsExt;
use std::path::{Path, PathBuf};
use std::process::Command;
use std::time::{Duration, SystemTime};

/// Checks each crate that crates.txt names, and makes a library that says which source it is of.
const RT: &str = "#!/bin/sh\n\
    echo \"$PWD $*\" >> \"$RT_RAN\"\n\
    if [ \"$1 $2 $3\" = 'all check --jobs' ]; then\n\
        sed -n 's/^\\([a-z_]*\\).*:.*/== \\1/p' crates.txt\n\
        echo '== summary'\n\
    elif [ \"$*\" = lib ]; then\n\
        mkdir -p out && cat src/lib.rt > out/libstage_c.a\n\
    else\n\
        exit 1\n\
    fi\n";

struct Repository(PathBuf);

impl Repository {
    fn new(name: &str) -> Repository {
        let root = Path::new(env!("CARGO_TARGET_TMPDIR")).join(name);
        let _ = fs::remove_dir_all(&root);
        let repository = Repository(root);
        let here = Path::new(env!("CARGO_MANIFEST_DIR")).join("../..");
        for name in [
            "run",
            "examples/clock-board.txt",
            "examples/clock-board.job",
        ] {
            repository.copy(&here.join(name), name);
        }
        for name in [
            "examples/clock-board.answer",
            "examples/clock-board.page.txt",
        ] {
            repository.copy(&here.join(name), name);
        }
        let tool = Path::new(env!("CARGO_BIN_EXE_bundles"));
        repository.copy(tool, "built/release/bundles");
        repository.write(
            "crates.txt",
            "# level 0\nlow:\nother:\nstage_c staticlib: low\n",
        );
        for name in ["low", "other", "stage_c"] {
            repository.write(&format!("crates/{name}/src/lib.rt"), "one");
            repository.write(&format!("crates/{name}/must-fail/a.edit"), "one");
        }
        repository.write("rust/Cargo.toml", "");
        repository.program("rt", RT);
        repository.program("cargo", "#!/bin/sh\n");
        repository
    }

    fn at(&self, name: &str) -> PathBuf {
        let path = self.0.join(name);
        fs::create_dir_all(path.parent().expect("a folder")).expect("a folder");
        path
    }

    fn copy(&self, from: &Path, to: &str) {
        fs::copy(from, self.at(to)).expect("a copy");
    }

    fn write(&self, name: &str, text: &str) {
        fs::write(self.at(name), text).expect("a file");
    }

    fn program(&self, name: &str, text: &str) {
        let name = format!("bin/{name}");
        self.write(&name, text);
        let all = fs::Permissions::from_mode(0o755);
        fs::set_permissions(self.at(&name), all).expect("a program");
    }

    fn read(&self, name: &str) -> String {
        fs::read_to_string(self.at(name)).unwrap_or_default()
    }

    /// The time of a file, so many seconds from now.
    fn set_time(&self, name: &str, seconds: i64) {
        let by = Duration::from_secs(seconds.unsigned_abs());
        let now = SystemTime::now();
        let time = if seconds < 0 { now - by } else { now + by };
        let file = fs::File::options().append(true).open(self.at(name));
        file.and_then(|file| file.set_modified(time))
            .expect("a time");
    }

    /// The exit code, and what is said.
    fn run(&self, words: &[&str]) -> (i32, String) {
        let path = std::env::var("PATH").expect("a path");
        let output = Command::new(self.at("run"))
            .args(words)
            .env_remove("STAGE_LIB")
            .env("CARGO_TARGET_DIR", self.at("built"))
            .env("PATH", format!("{}:{path}", self.at("bin").display()))
            .env("RT_RAN", self.at("ran"))
            .output()
            .expect("./run runs");
        let said = [output.stdout, output.stderr].concat();
        let said = String::from_utf8(said).expect("text");
        (output.status.code().expect("an end"), said)
    }

    /// How often a library was made.
    fn made(&self) -> usize {
        let ran = self.read("ran");
        ran.lines().filter(|line| line.ends_with(" lib")).count()
    }
}

/// What the library needs is proved, in a copy, and how much of it is done is said.
#[test]
fn from_nothing() {
    let repository = Repository::new("run-from-nothing");
    let (code, said) = repository.run(&[]);
    assert_eq!(code, 0, "{said}");
    assert!(said.contains("rt all check: 2 crates, "), "{said}");
    assert!(
        said.contains("   1 of 2  stage_c\n   2 of 2  low\n"),
        "{said}"
    );
    assert!(
        said.contains("the answer is the Rust's, byte for byte"),
        "{said}"
    );
    let ran = repository.read("ran");
    let proof = repository.at("target/proof").display().to_string();
    assert!(ran.lines().all(|line| line.starts_with(&proof)), "{ran}");
    assert!(!repository.at("crates/stage_c/out").exists());
    assert_eq!(
        repository.read("target/proof/crates.txt"),
        "stage_c staticlib: low\nlow:\n"
    );
    let page = repository.read("target/run/clock-board.page.txt");
    let named = repository.read("target/run/clock-board.named-page.txt");
    let behind = named.strip_prefix(&page).expect("the page, and more");
    assert!(behind.starts_with("\nB1 "), "{behind}");
    let ends = [
        "html",
        "svg",
        "page.txt",
        "named-page.txt",
        "explained.txt",
        "job",
        "answer",
    ];
    for end in ends {
        let result = format!("target/run/clock-board.{end}");
        assert!(repository.at(&result).is_file(), "{end}");
        assert!(said.contains(&result), "{said}");
    }
}

/// A library is old where the crates that it needs are others than it was made of, whatever the times of
/// the files.
#[test]
fn an_old_library() {
    let repository = Repository::new("run-old");
    let old = |due: usize| {
        let (code, said) = repository.run(&[]);
        assert_eq!((code, repository.made()), (0, due), "{said}");
        said
    };
    old(1);
    assert!(old(1).contains("as it was made before"));
    repository.set_time("crates/low/src/lib.rt", 1000);
    repository.write("crates/other/src/lib.rt", "two");
    repository.write("crates/low/must-fail/a.edit", "two");
    assert!(old(1).contains("as it was made before"));
    repository.write("crates/stage_c/src/lib.rt", "two");
    repository.set_time("crates/stage_c/src/lib.rt", -100_000);
    assert!(old(2).contains("is not of the crates as they are: it is made anew"));
    assert_eq!(repository.read("target/staticlib/libstage.a"), "two");
    // What is no longer there is gone from the copy.
    repository.write("crates.txt", "stage_c staticlib:\n");
    fs::remove_file(repository.at("crates/stage_c/src/lib.rt")).expect("a file");
    repository.write("crates/stage_c/src/lib.rt", "three");
    old(3);
    assert!(!repository.at("target/proof/crates/low").exists());
    // One that was put there by hand: the time of its file is all that is known.
    repository.write("target/staticlib/libstage.a", "by hand");
    repository.set_time("crates/low/src/lib.rt", -1000);
    old(3);
    repository.set_time("target/staticlib/libstage.a", -1_000_000);
    old(4);
}

/// A proof that fails ends it, and no library is left that would pass for one.
#[test]
fn a_proof_that_fails() {
    let repository = Repository::new("run-fails");
    repository.program("rt", "#!/bin/sh\necho '== low'\necho why\nexit 1\n");
    let (code, said) = repository.run(&[]);
    assert_eq!(code, 2, "{said}");
    assert!(said.contains("rt all check failed in "), "{said}");
    assert!(!repository.at("target/staticlib/libstage.a").exists());
    assert_eq!(repository.read("target/run.rt.log"), "== low\nwhy\n");
}

/// 1 where the board is refused, 2 where it cannot be read.
#[test]
fn how_it_ends() {
    let repository = Repository::new("run-ends");
    let board = repository.read("examples/clock-board.txt");
    let refused = board.replace("\"alarms\" at 8:1", "\"alarms\" at 8:7");
    repository.write("refused.txt", &refused);
    let name = |name: &str| repository.at(name).display().to_string();
    let (code, said) = repository.run(&[&name("refused.txt")]);
    assert_eq!(code, 1, "{said}");
    assert!(said.contains("bundle 6 (alarms) names port 8:7"), "{said}");
    assert!(repository.at("target/run/refused.svg").is_file());
    let wrong = board.replace("node 5", "nod 5");
    repository.write("wrong.txt", &wrong);
    let (code, said) = repository.run(&[&name("wrong.txt")]);
    assert_eq!(code, 2, "{said}");
    assert!(said.contains("expected `node`"), "{said}");
    assert_eq!(repository.run(&[&name("not-there.txt")]).0, 2);
}

/// A route through the place of another node's port: so it is on every paper. What else there is is left.
#[test]
fn no_clear_picture() {
    let repository = Repository::new("run-unclear");
    let unclear = "port_stub 0\nroute_lane_gap 3\nedge_node_clearance 5\n\
        minimum_parallel_wire_spacing 2\nmember_endpoint_reserve 2\n\
        node 1 at 0,0 size 10,10\nnode 2 at 100,0 size 10,10\nnode 3 at 50,5 size 10,10\n\
        port 1:1 east 5\nport 2:1 west 5\nport 3:1 north 5\n\
        edge 1 from 1:1 to 2:1 via 10,5 100,5\n";
    repository.write("unclear.txt", unclear);
    let name = repository.at("unclear.txt").display().to_string();
    let (code, said) = repository.run(&[&name]);
    assert_eq!(code, 2, "{said}");
    assert!(said.contains("no picture, as it would mislead"), "{said}");
    assert!(
        said.contains("there is no picture of it that would be clear"),
        "{said}"
    );
    assert!(!repository.at("target/run/unclear.svg").exists());
    for end in ["job", "answer", "explained.txt"] {
        assert!(
            repository
                .at(&format!("target/run/unclear.{end}"))
                .is_file()
        );
    }
}
