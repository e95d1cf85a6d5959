//! The C header has the numbers and the functions that the Rust has.

#![forbid(unsafe_code)]

use std::collections::BTreeMap;

use bundle_stage::limits as most;
use bundle_stage::*;

mod common;
use common::*;

fn file(name: &str) -> String {
    let path = format!("{}/../../{name}", env!("CARGO_MANIFEST_DIR"));
    std::fs::read_to_string(path).expect("a file of the repository")
}

/// The numbers that the header defines; `STAGE_H` has none.
fn defined() -> BTreeMap<String, usize> {
    let header = file("examples/c/stage.h");
    let lines = header.lines().filter_map(|line| {
        let (name, value) = line.strip_prefix("#define ")?.split_once(' ')?;
        let value = value.trim_end_matches('u').parse();
        Some((name.to_string(), value.expect("a whole number")))
    });
    lines.collect()
}

/// A board with every count at its limit.
fn largest() -> Board {
    let point = at(0.0, 0.0);
    let edge = |place: usize| Edge {
        id: Id::from(place as u32),
        source: end(0, 0),
        target: end(0, 0),
        points: vec![point; most::POINTS / most::EDGES],
    };
    let bundle = |place: usize| Bundle {
        id: Id::from(place as u32),
        endpoint: end(0, 0),
        role: Role::Input,
        width: 0,
        members: vec![member(0, 0); most::MEMBERS / most::BUNDLES],
    };
    let port = |place: usize| Port {
        node: Id::from(0),
        id: Id::from(place as u32),
        side: Side::North,
        offset: 0.0,
    };
    let nodes = 0..most::NODES as u32;
    Board {
        nodes: nodes.map(|id| node(id, 0.0, 0.0, 0.0, 0.0)).collect(),
        ports: (0..most::PORTS).map(port).collect(),
        edges: (0..most::EDGES).map(edge).collect(),
        bundles: (0..most::BUNDLES).map(bundle).collect(),
        ..Board::default()
    }
}

/// That each number is looked at.
#[test]
fn numbers() {
    let mut defined = defined();
    let mut is = |name: &str, due: usize| {
        let found = defined.remove(&format!("STAGE_{name}"));
        assert_eq!(found, Some(due), "{name}");
    };
    sizes(&mut is);
    of_answers(&mut is);
    assert!(
        defined.is_empty(),
        "numbers that no test looks at: {defined:?}"
    );
}

fn sizes(is: &mut impl FnMut(&str, usize)) {
    is("BUFFER_SIZE", BUFFER_SIZE);
    is("PLAN_SIZE", PLAN_SIZE);
    is("PAGE_SIZE", PAGE_SIZE);
    is("PAGE_LINE_SIZE", PAGE_LINE_SIZE);
    is("CROSSINGS_SIZE", CROSSINGS_SIZE);
    is("CROSSING_SIZE", CROSSING_SIZE);
    is("PLAN_GIVEN", bundle_stage_sys::PLAN_GIVEN as usize);
    is("WANT_PAGE", bundle_stage_sys::WANT_PAGE as usize);
    is("WANT_CROSSINGS", bundle_stage_sys::WANT_CROSSINGS as usize);
    is("JOB_SIZE_MAX", largest().to_bytes().expect("small").len());
}

/// The functions' own numbers: of a notice, and of an answer with one bundle.
fn of_answers(is: &mut impl FnMut(&str, usize)) {
    let notice = answer(b"no job");
    is("NOTICE_SIZE", notice.len());
    let number = notice.len() - 1;
    is("NUMBER_AT", number);
    assert_eq!(notice[number], Refusal::LengthMismatch.number());
    let drawn = answer(&board().to_bytes().expect("small"));
    assert_eq!(drawn[number], 0);
    let at = 34;
    is("BUNDLES_AT", at);
    assert_eq!(drawn[at..at + 2], [0, 1]);
    // Said in the README too, which says how it was measured.
    let readme = file("README.md");
    for (name, words) in [
        ("ANSWER_SIZE_MAX", "at most 52,484 bytes"),
        ("STACK_SIZE", "at most 656,920 bytes of stack"),
    ] {
        assert!(readme.contains(words), "{words}");
        let digits = words.chars().filter(char::is_ascii_digit);
        is(name, digits.collect::<String>().parse().expect("a number"));
    }
}

/// The functions of a text, each with the types and names of its parameters.
fn functions(text: &str, before: &str) -> BTreeMap<String, Vec<String>> {
    let parts = text.split(before).skip(1);
    let functions = parts.filter_map(|part| {
        let (name, rest) = part.split_once('(')?;
        let (parameters, _) = rest.split_once(')')?;
        let parameters = parameters.split(',').map(|one| {
            let words = one.split_whitespace().collect::<Vec<_>>();
            words.join(" ")
        });
        let parameters = parameters.filter(|one| !one.is_empty());
        Some((name.to_string(), parameters.collect()))
    });
    functions.collect()
}

/// A parameter of the header as the Rust writes it.
fn in_rust(parameter: &str) -> String {
    for (c, rust) in [
        ("const uint8_t *", "*const u8"),
        ("uint8_t *", "*mut u8"),
        ("size_t ", "usize"),
        ("uint32_t ", "u32"),
    ] {
        if let Some(name) = parameter.strip_prefix(c) {
            return format!("{name}: {rust}");
        }
    }
    panic!("{parameter}");
}

#[test]
fn prototypes() {
    let header = functions(&file("examples/c/stage.h"), "\nsize_t ");
    let rust = file("rust/bundle_stage_sys/src/lib.rs");
    let (_, rust) = rust.split_once("unsafe extern \"C\" {").expect("a block");
    let (rust, _) = rust.split_once("\n}\n").expect("its end");
    let rust = functions(rust, "pub fn ");
    let header = header.into_iter().map(|(name, parameters)| {
        let parameters = parameters.iter().map(|one| in_rust(one));
        (name, parameters.collect::<Vec<_>>())
    });
    let header = header.collect::<BTreeMap<_, _>>();
    assert_eq!(header.len(), 4);
    assert_eq!(header, rust);
}
