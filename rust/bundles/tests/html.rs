//! Pages to follow bundles on: in a real browser, what is lifted is a thing's own way and nothing else.

#![forbid(unsafe_code)]

use std::collections::{BTreeMap, BTreeSet};
use std::fs;
use std::path::PathBuf;
use std::process::Command;

use bundle_stage::{Board, Bundle, Endpoint, Id, Refusal, Role};
use bundles::html::{html, html_refused, ways};
use bundles::names::Names;
use bundles::text;

fn file(name: &str) -> Vec<u8> {
    let path = format!("{}/../../{name}", env!("CARGO_MANIFEST_DIR"));
    fs::read(path).expect("a file of the repository")
}

fn example(name: &str) -> Board {
    text::read(&file(&format!("examples/{name}.txt"))).expect("a board")
}

/// A script that chooses each thing in turn and writes down what is not dimmed then, as the browser
/// shows it.
const ASK: &str = r#"<script>
const seen = (part) => {
  let opacity = 1;
  for (let at = part; at && at.tagName !== "svg"; at = at.parentElement) {
    opacity *= Number(getComputedStyle(at).opacity);
  }
  return opacity > 0.99;
};
// What cuts a stretch out is no thing; a bundle is its lines, not its taps.
const things = () => [...svg.querySelectorAll("[id]:not(.cut)")];
const trunk = (part) => part.querySelector(".trunk") || part;
const said = ways.map((way) => {
  choose(way.key);
  const parts = things().filter((part) => seen(trunk(part))).map((part) => part.id);
  const count = told.querySelectorAll(".way").length;
  return way.key + " " + count + " " + parts.join(" ");
});
choose("");
const all = things();
said.push("all " + all.filter(seen).length + " " + all.length);
const result = document.createElement("pre");
result.id = "result";
result.textContent = "@@" + said.join("@") + "@@";
document.body.append(result);
</script>
</body>"#;

/// What the browser shows for each thing: how many lines of words, and the ids that are not dimmed.
/// Nothing where there is no browser.
fn asked(name: &str, page: &str) -> Option<BTreeMap<String, (usize, BTreeSet<String>)>> {
    let browser = ["chromium", "chromium-browser", "google-chrome"]
        .into_iter()
        .find(|name| Command::new(name).arg("--version").output().is_ok());
    let Some(browser) = browser else {
        eprintln!("no chromium: {name} is not tried in a browser");
        return None;
    };
    let folder = PathBuf::from(env!("CARGO_TARGET_TMPDIR")).join(format!("html-{name}"));
    fs::create_dir_all(&folder).expect("a folder");
    let path = folder.join("sheet.html");
    fs::write(&path, page.replace("</body>", ASK)).expect("a page");
    let said = Command::new(browser)
        .args(["--headless", "--no-sandbox", "--disable-gpu", "--dump-dom"])
        .arg(format!(
            "--user-data-dir={}",
            folder.join("browser").display()
        ))
        .arg(format!("file://{}", path.display()))
        .output()
        .expect("the browser runs");
    let said = String::from_utf8_lossy(&said.stdout).into_owned();
    let result = said.split("id=\"result\">@@").nth(1);
    let result = result.and_then(|rest| rest.split("@@").next());
    let lines = result.expect("the script has run").split('@');
    let mut asked = BTreeMap::new();
    for line in lines {
        let mut words = line.split(' ').filter(|word| !word.is_empty());
        let key = words.next().expect("a key").to_string();
        let told = words.next().and_then(|word| word.parse::<usize>().ok());
        let parts = words.map(str::to_string).collect();
        asked.insert(key, (told.expect("a count"), parts));
    }
    let (all, of) = asked.remove("all").expect("a last line");
    assert_eq!(of, BTreeSet::from([all.to_string()]), "not all is shown");
    Some(asked)
}

fn ends(at: Endpoint) -> [String; 2] {
    [
        format!("node-{}", at.node),
        format!("port-{}-{}", at.node, at.port),
    ]
}

/// The bundles of which each edge is a member, by the board.
fn members(board: &Board) -> BTreeMap<Id, Vec<(Id, Role)>> {
    let mut members: BTreeMap<Id, Vec<(Id, Role)>> = BTreeMap::new();
    for bundle in &board.bundles {
        for member in &bundle.members {
            let of = members.entry(member.edge).or_default();
            of.push((bundle.id, bundle.role));
        }
    }
    members
}

/// What of the bundles a picture has.
enum Shown {
    All,
    /// This one as it was tried.
    Tried(Id),
    None,
}

impl Shown {
    /// The ids in the picture of a bundle and a member's tap.
    fn of(&self, bundle: Id, edge: Id) -> Vec<String> {
        let trunk = format!("bundle-{bundle}");
        match self {
            Shown::All => vec![trunk, format!("tap-{bundle}-{edge}")],
            Shown::Tried(tried) if *tried == bundle => vec![trunk],
            _ => Vec::new(),
        }
    }

    /// Whether a bundle that is on the way of something else is lifted whole: where all its taps are on that
    /// way. What was tried of a bundle is on that of no other bundle.
    fn whole(&self, bundle: &Bundle, key: &str, parts: &BTreeSet<String>) -> bool {
        let mut members = bundle.members.iter();
        match self {
            Shown::All => {
                members.all(|member| parts.contains(&format!("tap-{}-{}", bundle.id, member.edge)))
            }
            _ => !key.starts_with("bundle-"),
        }
    }
}

/// Everything that is to be lifted, from the board alone.
fn due(board: &Board, shown: &Shown) -> BTreeMap<String, (usize, BTreeSet<String>)> {
    let members = members(board);
    let mut due: BTreeMap<String, (usize, BTreeSet<String>)> = BTreeMap::new();
    for node in &board.nodes {
        let key = format!("node-{}", node.id);
        due.insert(key.clone(), (0, BTreeSet::from([key])));
    }
    for port in &board.ports {
        let [node, key] = ends(Endpoint {
            node: port.node,
            port: port.id,
        });
        let of = due.entry(key.clone()).or_default();
        of.1.extend([node.clone(), key.clone()]);
        due.entry(node).or_default().1.insert(key);
    }
    for edge in &board.edges {
        let route = format!("route-{}", edge.id);
        let parts = [edge.source, edge.target].into_iter().flat_map(ends);
        let mut parts = parts.chain([route.clone()]).collect::<BTreeSet<_>>();
        let bundles = members.get(&edge.id).cloned().unwrap_or_default();
        // The whole way of the edge, through the bundles at both of its ends.
        for (bundle, _) in &bundles {
            parts.extend(shown.of(*bundle, edge.id));
        }
        let at = [edge.source, edge.target].into_iter().flat_map(ends);
        let on = at.chain([route]);
        let on = on.chain(bundles.iter().map(|(bundle, _)| format!("bundle-{bundle}")));
        for key in on.collect::<BTreeSet<_>>() {
            let of = due.entry(key).or_default();
            of.0 += 1;
            of.1.extend(parts.clone());
        }
    }
    for (key, (_, parts)) in &mut due {
        without_parts(board, shown, key, parts);
    }
    due
}

/// Leaves out what is not lifted whole.
fn without_parts(board: &Board, shown: &Shown, key: &str, parts: &mut BTreeSet<String>) {
    for bundle in &board.bundles {
        let of = format!("bundle-{}", bundle.id);
        if *key != of && !shown.whole(bundle, key, parts) {
            parts.remove(&of);
        }
    }
}

fn followed(name: &str, board: &Board) {
    let sheet = board.draw().expect("a sheet");
    let page = html(board, &sheet, &Names::default(), name).expect("a picture");
    if let Some(asked) = asked(name, &page) {
        assert_eq!(asked, due(board, &Shown::All), "{name}");
    }
}

#[test]
fn the_clock_board() {
    followed("clock-board", &example("clock-board"));
}

/// Routes that are in two bundles, one after the other.
#[test]
fn a_chain() {
    let board = example("clock-board");
    let twice = members(&board);
    assert!(twice.values().any(|bundles| bundles.len() == 2));
    let mut chain = board.clone();
    let ends = chain.bundles.iter().filter(|bundle| {
        let mut members = bundle.members.iter();
        members.any(|member| twice[&member.edge].len() == 2)
    });
    chain.bundles = ends.cloned().collect();
    followed("chain", &chain);
}

/// The way of a bundle goes from the units' ports to its own, through the bundles that its members are in at
/// their other ends; their other members are not on it.
#[test]
fn the_whole_chain() {
    let mut board = example("clock-board");
    let whole = board.clone();
    board.bundles = vec![whole.bundles[2].clone(), whole.bundles[3].clone()];
    for board in [whole, board] {
        let sheet = board.draw().expect("a sheet");
        let ways = ways(&board, Some(&sheet), &Names::default());
        let way = |key: &str| ways.iter().find(|way| way.key == key).expect(key);
        let four = "bundle-4 node-2 node-5 node-7 port-2-1 port-5-11 port-5-12 port-7-1 route-32 \
                    route-33 route-41 route-42 tap-3-32 tap-3-33 tap-4-32 tap-4-33 tap-4-41 tap-4-42";
        assert_eq!(way("bundle-4").lifted.join(" "), four);
        let three = "bundle-3 node-2 node-4 node-5 node-7 port-2-1 port-4-5 port-5-1 port-7-1 \
                     route-31 route-32 route-33 route-34 tap-3-31 tap-3-32 tap-3-33 tap-3-34 tap-4-32 \
                     tap-4-33";
        assert_eq!(way("bundle-3").lifted.join(" "), three);
        // Of the other bundle the stretch to these taps, and it is told.
        assert_eq!(way("bundle-4").stretches, ["bundle-3"]);
        assert_eq!(way("bundle-3").stretches, ["bundle-4"]);
        let part =
            "Of bundle 3 only the stretch between port 2:1 and the taps on this way is lifted.";
        assert_eq!(way("bundle-4").parts, [part]);
        // All wires of the bundle come from its own port.
        assert_eq!(way("port-2-1").stretches, ["bundle-4"]);
        assert!(way("port-2-1").lifted.contains(&"bundle-3".to_string()));
        assert_eq!(way("route-33").stretches, ["bundle-3", "bundle-4"]);
        let words = &way("bundle-4").words;
        assert_eq!(words.len(), 4);
        let chain = "node 2 \u{2192} port 2:1 \u{2192} spine and collector of bundle 3 \u{2192} tap \u{2192} edge 33 \
                     \u{2192} tap \u{2192} collector and spine of bundle 4 \u{2192} port 7:1 \u{2192} node 7";
        assert_eq!(words[1], chain);
        assert!(way("bundle-3").words.contains(&words[1]));
    }
}

#[test]
fn crossings() {
    followed("crossings", &example("crossings"));
}

/// A refused board's bundles have the ways of their members, and the refused one what was tried of it.
#[test]
fn a_refused_board() {
    let mut board = example("clock-board");
    let names = Names::default();
    let page = html_refused(&board, Refusal::ForbiddenContact, &names, "refused");
    assert!(page.contains("refused with 11"));
    if let Some(asked) = asked("refused", &page) {
        assert_eq!(asked, due(&board, &Shown::None));
    }
    // A wire over bundle 3.
    let mut wire = board.edges[19].clone();
    wire.id = 81.into();
    for (point, y) in wire.points.iter_mut().zip([150.0, 330.0]) {
        (point.x, point.y) = (320.0, y);
    }
    board.edges.push(wire);
    let tried = board.attempt().expect("refused").refused.id;
    let page = html_refused(&board, Refusal::ForbiddenContact, &names, "tried");
    if let Some(asked) = asked("tried", &page) {
        assert_eq!(asked, due(&board, &Shown::Tried(tried)));
    }
    let ways = ways(&board, None, &names);
    let way = ways
        .iter()
        .find(|way| way.key == "bundle-4")
        .expect("a bundle");
    assert_eq!(way.notes[0], "Not drawn: a bundle at port 7:1.");
    let words = "node 5 \u{2192} port 5:11 \u{2192} edge 41 (of bundle 4, not drawn) \u{2192} port 7:1 \u{2192} \
                 node 7";
    assert_eq!(way.words[2], words);
}

/// Of a refused board too an end in a bundle is at the bundle's port, wherever its route begins: it has no
/// cross and no note. Any other end that is not at its port has both.
#[test]
fn ends_on_a_refused_board() {
    let mut board = example("clock-board");
    let mut twice = board.bundles[5].clone();
    twice.members.clear();
    board.bundles.push(twice);
    assert_eq!(board.draw(), Err(Refusal::DuplicateId));
    for edge in &mut board.edges {
        if edge.id == Id::from(11) {
            edge.points[0].x += 20.0;
        } else if edge.id == Id::from(71) {
            edge.points[1].y -= 40.0;
        }
    }
    let ways = ways(&board, None, &Names::default());
    let way = |key: &str| ways.iter().find(|way| way.key == key).expect(key);
    assert!(way("route-11").notes.is_empty());
    assert!(!way("route-11").words[0].contains('\u{d7}'));
    let note =
        "\u{d7} edge 71 ends at (480, 260), not at its port 5:20, which stands at (480, 300).";
    assert_eq!(way("route-71").notes, [note]);
    assert!(way("route-71").words[0].ends_with("edge 71 \u{d7} port 5:20 \u{2192} node 5"));
}

#[test]
fn the_stored_largest_board() {
    let bytes = file("stored/largest.bin");
    let (length, rest) = bytes.split_first_chunk().expect("a record");
    let job = &rest[..u32::from_be_bytes(*length) as usize];
    followed("stored-largest", &Board::from_bytes(job).expect("a board"));
}

/// Those of the largest jobs in the folder that PICTURE_JOBS names whose picture is clear.
#[test]
fn largest_boards_of_a_folder() {
    let Some(folder) = std::env::var_os("PICTURE_JOBS") else {
        return;
    };
    let mut count = 0;
    for entry in fs::read_dir(folder).expect("a folder") {
        let path = entry.expect("an entry").path();
        let name = path.file_stem().and_then(|name| name.to_str());
        let Some(name) = name.filter(|name| name.starts_with("largest")) else {
            continue;
        };
        let board = Board::from_bytes(&fs::read(&path).expect("a job")).expect("a board");
        let Ok(sheet) = board.draw() else {
            continue;
        };
        if bundles::svg::svg(&board, &sheet, &Names::default(), name).is_ok() {
            followed(name, &board);
            count += 1;
        }
    }
    println!("{count} largest boards followed");
}

#[test]
fn names_and_words() {
    let board = example("clock-board");
    let sheet = board.draw().expect("a sheet");
    let mut names = Names::default();
    names.set_node(Id::from(5), "time </script> & \"unit\"");
    names.set_bundle(Id::from(4), "time code");
    let page = html(&board, &sheet, &names, "a < b").expect("a picture");
    assert!(page.contains("<title>a &lt; b</title>"));
    assert_eq!(
        page.matches("</script>").count(),
        1,
        "no name ends the script"
    );
    let way = "node 5 time \\u003c/script\\u003e \\u0026 \\u0022unit\\u0022 \u{2192} port 5:11 \u{2192} \
               edge 41 \u{2192} tap \u{2192} collector and spine of bundle 4 time code \u{2192} port 7:1 \
               \u{2192} node 7";
    assert!(page.contains(way), "{way}");
    // One file: nothing is fetched, and what it points at is in it.
    let page = page.replace("url(#", "");
    let outside = ["src=", "href=", "url(", "@import", "fetch(", "XMLHttp"];
    assert!(!outside.iter().any(|word| page.contains(word)));
}
