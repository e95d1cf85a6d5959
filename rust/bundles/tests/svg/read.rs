//! A picture read back: its elements, and the lines of its paths.

/// A start tag, and how deep in the picture it stands.
pub struct Element {
    pub name: String,
    pub attributes: Vec<(String, String)>,
    pub depth: usize,
    /// The words right behind it.
    pub words: String,
}

impl Element {
    /// An attribute's value, empty where it has none of that name.
    pub fn value(&self, name: &str) -> &str {
        let found = self.attributes.iter().find(|(of, _)| of == name);
        found.map_or("", |(_, value)| value)
    }

    /// Upper left and lower right of a rectangle.
    pub fn rect(&self) -> [(f64, f64); 2] {
        let number = |name: &str| self.value(name).parse::<f64>().expect("a number");
        let (x, y) = (number("x"), number("y"));
        [(x, y), (x + number("width"), y + number("height"))]
    }
}

/// The elements of a picture in order. Panics where a tag is not closed, is closed by another, or is
/// not written as it should be.
pub fn elements(picture: &str) -> Vec<Element> {
    let mut elements = Vec::new();
    let mut open: Vec<String> = Vec::new();
    let mut rest = picture;
    while let Some((before, tail)) = rest.split_once('<') {
        entities(before);
        assert!(
            !open.is_empty() || before.trim().is_empty(),
            "words outside"
        );
        let (tag, tail) = tail.split_once('>').expect("a tag ends");
        rest = tail;
        if let Some(name) = tag.strip_prefix('/') {
            assert_eq!(open.pop().as_deref(), Some(name), "closed by another");
            continue;
        }
        assert!(!open.is_empty() || elements.is_empty(), "a second root");
        let (tag, closed) = match tag.strip_suffix('/') {
            Some(tag) => (tag, true),
            None => (tag, false),
        };
        let (name, attributes) = tag.split_once(' ').unwrap_or((tag, ""));
        assert!(
            name.chars().all(|letter| letter.is_ascii_lowercase()),
            "{name}"
        );
        elements.push(Element {
            name: name.to_string(),
            attributes: pairs(attributes),
            depth: open.len(),
            words: tail.split('<').next().unwrap_or_default().to_string(),
        });
        if !closed {
            open.push(name.to_string());
        }
    }
    assert!(open.is_empty(), "not closed: {open:?}");
    assert!(rest.trim().is_empty() && !elements.is_empty());
    elements
}

fn pairs(text: &str) -> Vec<(String, String)> {
    let mut pairs: Vec<(String, String)> = Vec::new();
    let mut rest = text.trim();
    while !rest.is_empty() {
        let (name, tail) = rest.split_once("=\"").expect("a value in quotes");
        let (value, tail) = tail.split_once('"').expect("a value ends");
        entities(value);
        assert!(pairs.iter().all(|(of, _)| of != name), "{name} twice");
        assert!(tail.is_empty() || tail.starts_with(' '), "{tail}");
        pairs.push((name.to_string(), value.to_string()));
        rest = tail.trim_start();
    }
    pairs
}

/// Every & starts one of the four that are written.
fn entities(text: &str) {
    for (at, _) in text.match_indices('&') {
        let known = ["&amp;", "&lt;", "&gt;", "&quot;"];
        assert!(
            known.iter().any(|entity| text[at..].starts_with(entity)),
            "{text}"
        );
    }
    assert!(
        !text
            .chars()
            .any(|letter| letter.is_control() && letter != '\n')
    );
}

pub type Line = [(f64, f64); 2];

/// The straight lines of a path, bends and arcs as several.
pub fn lines(d: &str) -> Vec<Line> {
    let mut lines = Vec::new();
    let mut here = (0.0, 0.0);
    let starts = d.match_indices(|letter: char| letter.is_ascii_uppercase());
    let starts = starts
        .map(|(at, _)| at)
        .chain([d.len()])
        .collect::<Vec<_>>();
    for part in starts.windows(2) {
        let (command, numbers) = d[part[0]..part[1]].split_at(1);
        let numbers = numbers.split_whitespace().map(|word| word.parse::<f64>());
        let numbers = numbers.collect::<Result<Vec<_>, _>>().expect("numbers");
        let way: Vec<(f64, f64)> = match (command, &numbers[..]) {
            ("M", [x, y]) => {
                here = (*x, *y);
                Vec::new()
            }
            ("L", [x, y]) => vec![(*x, *y)],
            ("Q", [u, v, x, y]) => steps(|t| {
                let s = 1.0 - t;
                let mix = |a: f64, b: f64, c: f64| s * s * a + 2.0 * s * t * b + t * t * c;
                (mix(here.0, *u, *x), mix(here.1, *v, *y))
            }),
            ("A", [run, rise, turn, _, sweep, x, y]) => {
                quarter(here, (*x, *y), (*run, *rise), *turn, *sweep)
            }
            _ => panic!("{command} {numbers:?}"),
        };
        for to in way {
            lines.push([here, to]);
            here = to;
        }
    }
    lines
}

fn steps(at: impl Fn(f64) -> (f64, f64)) -> Vec<(f64, f64)> {
    (1..=8).map(|step| at(f64::from(step) / 8.0)).collect()
}

/// A quarter of an ellipse, whose axes are turned.
fn quarter(
    from: (f64, f64),
    to: (f64, f64),
    (run, rise): (f64, f64),
    turn: f64,
    sweep: f64,
) -> Vec<(f64, f64)> {
    let (sin, cos) = turn.to_radians().sin_cos();
    let (x, y) = (to.0 - from.0, to.1 - from.1);
    // Along the line and to the side, as shares of the half axes: the one from 0 to 1 or back.
    let (along, side) = ((x * cos + y * sin) / run, (y * cos - x * sin) / rise);
    let up = (side < 0.0) == (sweep == 1.0);
    let angle = |t: f64| t * std::f64::consts::FRAC_PI_2;
    steps(|t| {
        let (a, b) = if up {
            (1.0 - angle(t).cos(), angle(t).sin())
        } else {
            (angle(t).sin(), 1.0 - angle(t).cos())
        };
        let (a, b) = (a * along.signum() * run, b * side.signum() * rise);
        (from.0 + a * cos - b * sin, from.1 + a * sin + b * cos)
    })
}

/// The same line so far to the side.
pub fn beside([a, b]: Line, side: f64) -> Line {
    let (x, y) = (b.0 - a.0, b.1 - a.1);
    let length = x.hypot(y).max(1e-12);
    let to = |at: (f64, f64)| (at.0 - y / length * side, at.1 + x / length * side);
    [to(a), to(b)]
}

/// How near two lists of lines come to each other, and where, but for the places left out. What is
/// further than `FAR` is not told.
pub fn nearest(one: &[Line], two: &[Line], but: impl Fn((f64, f64)) -> bool) -> (f64, (f64, f64)) {
    let mut least = (f64::INFINITY, (0.0, 0.0));
    let (Some(of_one), Some(of_two)) = (around(one), around(two)) else {
        return least;
    };
    let one = one.iter().filter(|line| far(line, &of_two) < FAR);
    let two = two.iter().filter(|line| far(line, &of_one) < FAR);
    let two = two.collect::<Vec<_>>();
    for a in one {
        for b in &two {
            if far(a, b) >= least.0 {
                continue;
            }
            let (distance, at) = apart(a, b);
            if distance < least.0 && !but(at) {
                least = (distance, at);
            }
        }
    }
    least
}

const FAR: f64 = 3.0;

/// Two corners of the box around lines.
fn around(lines: &[Line]) -> Option<Line> {
    let points = lines.iter().flatten();
    points.fold(None, |box_of: Option<Line>, at| {
        let [low, high] = box_of.unwrap_or([*at; 2]);
        Some([
            (low.0.min(at.0), low.1.min(at.1)),
            (high.0.max(at.0), high.1.max(at.1)),
        ])
    })
}

/// A distance that two lines have at least.
fn far(a: &Line, b: &Line) -> f64 {
    let gap = |a: (f64, f64), b: (f64, f64)| (b.0.min(b.1) - a.0.max(a.1)).max(0.0);
    let both = |a: (f64, f64), b: (f64, f64)| gap(a, b).max(gap(b, a));
    let x = both((a[0].0, a[1].0), (b[0].0, b[1].0));
    x.max(both((a[0].1, a[1].1), (b[0].1, b[1].1)))
}

/// The distance of two lines, and a place on the first or the second where it is.
fn apart(a: &Line, b: &Line) -> (f64, (f64, f64)) {
    let cross = |o: (f64, f64), p: (f64, f64), q: (f64, f64)| {
        (p.0 - o.0) * (q.1 - o.1) - (p.1 - o.1) * (q.0 - o.0)
    };
    let (c, d) = (cross(a[0], a[1], b[0]), cross(a[0], a[1], b[1]));
    let (e, f) = (cross(b[0], b[1], a[0]), cross(b[0], b[1], a[1]));
    if c * d < 0.0 && e * f < 0.0 {
        let part = e / (e - f);
        let at = |i: f64, j: f64| i + part * (j - i);
        return (0.0, (at(a[0].0, a[1].0), at(a[0].1, a[1].1)));
    }
    let ends = [(a[0], b), (a[1], b), (b[0], a), (b[1], a)];
    let near = ends.map(|(end, line)| {
        let (x, y) = (line[1].0 - line[0].0, line[1].1 - line[0].1);
        let (u, v) = (end.0 - line[0].0, end.1 - line[0].1);
        let part = (u * x + v * y) / (x * x + y * y).max(1e-12);
        let part = part.clamp(0.0, 1.0);
        ((u - part * x).hypot(v - part * y), end)
    });
    let least = near.into_iter().min_by(|a, b| a.0.total_cmp(&b.0));
    least.expect("four of them")
}
