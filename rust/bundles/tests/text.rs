//! Boards as text, there and back.

#![forbid(unsafe_code)]

use std::fs;

use bundle_stage::{Board, Flags, Id, Visits};
use bundles::names::Names;
use bundles::text::{number, read, read_all, write, write_named};

fn repository(name: &str) -> Vec<u8> {
    let path = format!("{}/../../{name}", env!("CARGO_MANIFEST_DIR"));
    fs::read(&path).expect(&path)
}

const SETTINGS: &str = "port_stub 10
route_lane_gap 10
edge_node_clearance 0
minimum_parallel_wire_spacing 0
member_endpoint_reserve 20
";

/// What is said of a line behind the settings: line 6.
fn wrong(line: &str) -> String {
    let text = format!("{SETTINGS}{line}\nnode 1 at 0,0 size 1,1\n");
    let error = read(text.as_bytes()).expect_err(line);
    assert_eq!(error.line, 6, "{line}");
    error.words
}

fn there_and_back(job: &[u8]) {
    let board = Board::from_bytes(job).expect("whole");
    let text = write(&board);
    let back = read(text.as_bytes()).expect("its own text");
    assert_eq!(back.to_bytes().expect("small"), job, "{text}");
}

#[test]
fn stored_jobs_come_back() {
    let mut whole = 0;
    for name in ["stored/jobs.bin", "stored/largest.bin"] {
        let bytes = repository(name);
        let mut rest = &bytes[..];
        while let Some((length, tail)) = rest.split_first_chunk() {
            let (record, tail) = tail.split_at(u32::from_be_bytes(*length) as usize);
            // Answers stand between the jobs; they are no whole jobs.
            if Board::from_bytes(record).is_ok() {
                there_and_back(record);
                whole += 1;
            }
            rest = tail;
        }
    }
    assert!(whole > 100, "{whole} jobs");
}

#[test]
fn every_number_comes_back() {
    let mut bits = vec![0, 1, 1 << 63, (1 << 63) + 1, 0x000f_ffff_ffff_ffff];
    bits.extend([0x7ff0, 0xfff0, 0x7ff8, 0xfff8].map(|high: u64| high << 48));
    bits.extend([0x7ff0_0000_0000_0001, 0xffff_ffff_ffff_ffff]);
    bits.extend([1e-7, 0.1, 1e22, 1e23, 1e300, -1073741824.0, 2.5].map(f64::to_bits));
    // A walk over all exponents.
    bits.extend(
        (0..4096).map(|high: u64| high << 52 | high.wrapping_mul(0x9e37_79b9_7f4a_7c15) >> 12),
    );
    for bits in bits {
        let value = f64::from_bits(bits);
        let text = SETTINGS.replace("port_stub 10", &format!("port_stub {}", number(value)));
        let board = read(text.as_bytes()).expect(&text);
        assert_eq!(board.options.port_stub.to_bits(), bits, "{text}");
    }
    let words = [1.0, -0.0, 0.5, 1e16, f64::INFINITY, f64::NEG_INFINITY].map(number);
    assert_eq!(words, ["1", "-0", "0.5", "1e16", "inf", "-inf"]);
}

#[test]
fn the_example_of_the_document_is_drawn() {
    let page = repository("docs/TEXT-FORM.md");
    let page = str::from_utf8(&page).expect("text");
    let example = page.split("```\n").nth(1).expect("an example");
    let sheet = read(example.as_bytes()).expect("a board").draw();
    let bundle = &sheet.expect("drawn").bundles[0];
    assert!(bundle.interior);
    assert_eq!(bundle.collector.start.x, 180.0);
}

#[test]
fn what_is_not_said() {
    let board = read(SETTINGS.as_bytes()).expect("settings alone");
    assert_eq!(board.grants, Visits::MOST);
    assert_eq!(board.flags, Flags::default());
    for line in SETTINGS.lines() {
        let text = SETTINGS.replace(&format!("{line}\n"), "");
        let error = read(text.as_bytes()).expect_err("a setting is missing");
        let key = line.split(' ').next().expect("a word");
        assert_eq!(
            error.to_string(),
            format!("line 5: expected `{key}`, found the end")
        );
    }
}

#[test]
fn spaces_comments_and_line_ends() {
    let text = format!("# a board\r\n\r\n{SETTINGS}\tnode 1   at 0,0\tsize 1,1# a node\r\n  # end");
    assert_eq!(read(text.as_bytes()).expect("a board").nodes.len(), 1);
}

#[test]
fn errors_name_the_line_and_what_was_expected() {
    for (line, words) in [
        (
            "nod 1 at 0,0 size 1,1",
            "expected `node`, `port`, `edge`, `bundle` or a setting's name, found `nod`",
        ),
        ("node", "expected the node's id, found the line's end"),
        (
            "node 7 \"open at 0,0 size 1,1",
            "expected a name's closing `\"`, found `\"open at 0,0 size 1,1`",
        ),
        (
            "node -1 at 0,0 size 1,1",
            "expected the node's id, found `-1`",
        ),
        (
            "node 4294967296 at 0,0 size 1,1",
            "expected the node's id, found `4294967296`, which is above 4294967295, the most",
        ),
        ("node 1 0,0 size 1,1", "expected `at`, found `0,0`"),
        (
            "node 1 at 0 0 size 1,1",
            "expected the node's corner as X,Y, found `0`",
        ),
        (
            "node 1 at 0,1e999 size 1,1",
            "expected the node's corner as X,Y, found `0,1e999`, which is beyond 1.7976931348623157e308, the \
             largest magnitude of a number",
        ),
        (
            "node 1 at nan,0 size 1,1",
            "expected the node's corner as X,Y, found `nan,0`",
        ),
        (
            "node 1 at 0,0 size 1,0x7ff8",
            "expected the node's size as WIDTH,HEIGHT, found `1,0x7ff8`",
        ),
        (
            "node 1 at 0,0 size 1,1 red",
            "expected the line's end, found `red`",
        ),
        ("port 1 east 5", "expected the port as NODE:PORT, found `1`"),
        (
            "port 1:1 eest 5",
            "expected the port's side: north, east, south or west, found `eest`",
        ),
        (
            "port 1:1 east",
            "expected a number, the port's offset along its side, found the line's end",
        ),
        ("edge 1 1:1", "expected `from`, found `1:1`"),
        ("edge 1 from 1:1 to 2:1 0,0", "expected `via`, found `0,0`"),
        (
            "edge 1 from 1:1 to 2:1 via 0,0 5",
            "expected a point as X,Y, found `5`",
        ),
        (
            "bundle 1 at 1:1 in width 2",
            "expected the bundle's role: input or output, found `in`",
        ),
        (
            "bundle 1 at 1:1 input width 2 members 1@65536",
            "expected a member as EDGE@LANE, lanes from 0 to 65535, found `1@65536`",
        ),
        ("port_stub 5", "`port_stub` is said a second time"),
        (
            "tap_visits many",
            "expected a whole number of visits, found `many`",
        ),
        (
            "tap_visits 99999999999999999999",
            "expected a whole number of visits, found `99999999999999999999`, which is above 4294967295, the most",
        ),
        (
            "port 1:4294967296 east 5",
            "expected the port as NODE:PORT, found `1:4294967296`, which is above 4294967295, the most",
        ),
        (
            "port 1:1 east -1e999",
            "expected a number, the port's offset along its side, found `-1e999`, which is beyond \
             1.7976931348623157e308, the largest magnitude of a number",
        ),
        (
            "node 1 at inf,infinity size 1,1",
            "expected the node's corner as X,Y, found `inf,infinity`",
        ),
        ("permit_crossings 1", "expected yes or no, found `1`"),
        ("grid on", "expected yes or no, found `on`"),
    ] {
        assert_eq!(wrong(line), words);
    }
    let error = read(b"port_stub 1\n\xff\n").expect_err("no text");
    assert_eq!(error.line, 2);
}

#[test]
fn too_many_records_name_the_line() {
    let text = format!("{SETTINGS}{}", "port 1:1 east 5\n".repeat(65_536));
    let error = read(text.as_bytes()).expect_err("too many");
    assert_eq!(
        error.to_string(),
        "line 65541: too many ports: a job can count 65535"
    );
}

#[test]
fn names_come_back() {
    let mut names = Names::default();
    assert!(names.is_empty());
    names.set_node(Id::from(5), "timestamp \"unit\" # 1");
    names.set_port(Id::from(5), Id::from(11), "time \\ code");
    names.set_edge(Id::from(3), "Zeit über alles, 時");
    names.set_bundle(Id::from(4), "");
    let text = format!(
        "{SETTINGS}node 5 at 0,0 size 1,1\nport 5:11 east 0\nport 5:12 east 1\n\
         edge 3 from 5:11 to 5:11\nedge 4 from 5:11 to 5:11\nbundle 4 at 5:11 input width 0\n"
    );
    let board = read(text.as_bytes()).expect("a board");
    let named = write_named(&board, &names);
    assert!(
        named.contains("node 5 \"timestamp \\\"unit\\\" # 1\" at 0,0"),
        "{named}"
    );
    let back = read_all(named.as_bytes()).expect("its own text");
    assert_eq!((&back.board, &back.names), (&board, &names));
    // A file of names, and a board's text as one.
    assert_eq!(Names::read(names.write().as_bytes()), Ok(names.clone()));
    assert_eq!(Names::read(named.as_bytes()), Ok(names));
}

/// What a file of names has that is no name is told, with its line; so is what is wrong in a board's text.
#[test]
fn no_names() {
    let board = format!("{SETTINGS}node 5 at 0,0 size 1,1\n");
    for (text, said) in [
        (
            "\nwire 5 \"a\"\n",
            "line 2: expected `node`, `port`, `edge` or `bundle`, found `wire`",
        ),
        (
            "node 5 \"a\"\nwire 5\n",
            "line 2: expected `node`, `port`, `edge` or `bundle`, found `wire`",
        ),
        (
            "node a \"b\"\n",
            "line 1: expected the node's id, found `a`",
        ),
        (
            "port 5 \"b\"\n",
            "line 1: expected the port as NODE:PORT, found `5`",
        ),
        (
            "node 5 timestamp\n",
            "line 1: expected a name in quotation marks, found `timestamp`",
        ),
        (
            "edge 5\n",
            "line 1: expected a name in quotation marks, found the line's end",
        ),
        (
            "bundle 5 \"a\" at\n",
            "line 1: expected the line's end, found `at`",
        ),
        (
            "node 5 \"a\"\nedge 5 \"b\"\nnode 5 \"c\"\n",
            "line 3: node 5 has a name already",
        ),
        (
            &board.replace("node 5 at", "nod 5 at"),
            "line 6: expected `node`, `port`, `edge`, `bundle` or a setting's name, found `nod`",
        ),
    ] {
        let error = Names::read(text.as_bytes()).expect_err(said);
        assert_eq!(error.to_string(), said);
    }
    assert_eq!(Names::read(b"# none\n\n"), Ok(Names::default()));
    assert_eq!(Names::read(board.as_bytes()), Ok(Names::default()));
    let twice = format!("{board}node 6 \"a\" at 0,0 size 1,1\nnode 6 \"b\" at 0,0 size 1,1\n");
    assert!(Names::read(twice.as_bytes()).is_ok());
}

/// A file of names may be that of another board.
#[test]
fn names_of_another_board() {
    let text = format!(
        "{SETTINGS}node 5 at 0,0 size 1,1\nport 5:11 east 0\nedge 3 from 5:11 to 5:11\n\
         bundle 4 at 5:11 input width 0\n"
    );
    let board = read(text.as_bytes()).expect("a board");
    let own = "node 5 \"a\"\nport 5:11 \"b\"\nedge 3 \"c\"\nbundle 4 \"d\"\n";
    let names = Names::read_for(own.as_bytes(), &board).expect("names");
    assert_eq!(names.write(), own);
    for (line, record) in [
        ("node 11 \"a\"", "node 11"),
        ("port 5:12 \"a\"", "port 5:12"),
        ("port 6:11 \"a\"", "port 6:11"),
        ("edge 4 \"a\"", "edge 4"),
        ("bundle 3 \"a\"", "bundle 3"),
    ] {
        let error = Names::read_for(format!("{own}{line}\n").as_bytes(), &board);
        let said = format!("line 5: {record} has a name, and the board has none such");
        assert_eq!(error.expect_err(record).to_string(), said);
        // So in another board's text.
        let other = format!("{text}node 6 \"a\" at 0,0 size 1,1\n");
        let error = Names::read_for(other.as_bytes(), &board).expect_err("another board");
        assert_eq!(error.line, 10);
    }
}
