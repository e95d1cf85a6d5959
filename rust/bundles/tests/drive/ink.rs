//! Each route is pointed at where another is near: on its ink, and beside it where no other ink is as near.

use super::page::Page;

/// Looks at a place of a route from near. `null` where it is not on top, by what the browser itself finds
/// there; else `near`, whether another route's ink is within a millimetre, and the points of the screen that
/// are to lift it: its ink there, and the white on either side where nothing else is as near to that.
const INK: &str = r#"(key, share) => {
  const paths = [...document.getElementById(key).querySelectorAll("path")];
  const lengths = paths.map((path) => path.getTotalLength());
  let along = share * lengths.reduce((sum, length) => sum + length, 0);
  const turn = lengths.findIndex((length) => (along -= length) <= 0);
  const [path, from] = [paths[turn], along + lengths[turn]];
  const [at, next] = [from, from + 0.01].map((from) => path.getPointAtLength(from));
  const far = Math.hypot(next.x - at.x, next.y - at.y) || 1;
  const [x, y] = [-(next.y - at.y) / far, (next.x - at.x) / far];
  const half = parseFloat(getComputedStyle(path).strokeWidth) / 2;
  // So near that a line is some pixels wide, and so far that others are within the pointer's reach.
  view = [at.x - 30, at.y - 30 * full[3] / full[2], 60, 60 * full[3] / full[2]];
  look();
  const screen = (x, y) => new DOMPoint(at.x + x, at.y + y).matrixTransform(svg.getScreenCTM());
  const on = (x, y) => {
    const point = screen(x, y);
    const top = document.elementFromPoint(point.x, point.y);
    const of = top && top.closest("[data-way], [data-of]");
    return of ? of.dataset.of || of.id : "";
  };
  if (on(0, 0) !== key) return null;
  const around = (radius, count = 32) => Array.from({ length: count }, (_, turn) => {
    const angle = 2 * Math.PI * turn / count;
    return on(radius * Math.cos(angle), radius * Math.sin(angle));
  });
  const points = [screen(0, 0)];
  // The white between two lines is at least 0.2 mm wide, so a point 0.09 mm beside one is its own.
  const clear = (radius) => around(half + radius).every((of) => of === key || !of);
  if ([0.05, 0.1, 0.15, 0.2].every(clear)) {
    const beside = half + 0.09;
    points.push(screen(x * beside, y * beside), screen(-x * beside, -y * beside));
  }
  const close = [0.25, 0.5, 0.75, 1].flatMap((radius) => around(half + radius, 12));
  const near = close.some((of) => of.startsWith("route-") && of !== key);
  return { near, points: points.map((point) => point.x + " " + point.y) };
}"#;

/// The points of the first place along a route where another is near, behind the word `near`; else those of
/// one where none is, behind `far`. Of a route that is shorter than the square of its port and the dot of its
/// tap nothing may be on top: `under`.
const PLACE: &str = r#"(key) => {
  // All shares of its length, no two that follow each other near together.
  const shares = Array.from({ length: 16 }, (_, turn) => (0.5 + turn * 0.618034) % 1);
  const places = (function* () { for (const share of shares) yield [share, ink(key, share)]; })();
  let other = null;
  for (const [share, place] of places) {
    if (place && place.near && place.points.length > 1) return ["near", ...place.points].join();
    if (place && !(other && other[1].near >= place.near)) other = [share, place];
  }
  // The last look was at another place.
  const place = other && ink(key, other[0]);
  if (place) return [place.near ? "near" : "far", ...place.points].join();
  const paths = [...document.getElementById(key).querySelectorAll("path")];
  return paths.reduce((sum, path) => sum + path.getTotalLength(), 0) < 2 ? "under" : "none";
}"#;

impl Page {
    /// Points at every route, with the mouse.
    pub fn every_route(&mut self) {
        self.browser
            .value(&format!("(globalThis.ink = {INK}) + ''"));
        let routes = self.keys.iter().filter(|key| key.starts_with("route-"));
        let routes = routes.cloned().collect::<Vec<_>>();
        let (mut near, mut beside, mut under) = (0, 0, 0);
        for key in &routes {
            let said = self.browser.value(&format!("({PLACE})('{key}')"));
            let mut words = said.split(',');
            match words.next() {
                Some("near") => near += 1,
                Some("under") => under += 1,
                said => assert_eq!(said, Some("far"), "{key} is nowhere on top"),
            }
            for (turn, point) in words.enumerate() {
                self.lifts(key, point);
                beside += usize::from(turn > 0);
            }
        }
        let all = routes.len();
        println!("{all} routes, {near} near another, {under} under, {beside} points beside a line");
        assert!(10 * under < all, "{under} routes are nowhere on top");
        assert!(3 * near > all, "the routes lie far apart");
        assert!(beside > all, "few points beside a line");
    }

    /// The mouse at a point of the screen lifts this way.
    fn lifts(&mut self, key: &str, point: &str) {
        let (x, y) = point.split_once(' ').expect("a point");
        let at = [x, y].map(|number| number.parse::<f64>().expect("a number"));
        self.browser.mouse("mouseMoved", (at[0], at[1]), "");
        let told = format!("byKey.get('{key}').name + '|' + told.querySelector('p')?.textContent");
        let told = self.browser.value(&told);
        let (due, told) = told.split_once('|').expect("a name");
        assert_eq!(told, due, "at {point}");
    }

    /// The mouse lifts what has this name so many pixels below the middle of a box: at the middle itself,
    /// or with a part of 0.5 or -0.5 a little outside its side.
    pub fn beside(&mut self, key: &str, (part, down): (f64, f64), name: &str) {
        let said = self.browser.value(&format!(
            "(() => {{ const box = document.getElementById('{key}').getBoundingClientRect(); \
             return (box.x + box.width * (0.5 + {part}) + 4 * Math.sign({part})) + ' ' + \
             (box.y + box.height / 2 + {down}); }})()"
        ));
        let (x, y) = said.split_once(' ').expect("a point");
        let at = [x, y].map(|number| number.parse::<f64>().expect("a number"));
        self.browser.mouse("mouseMoved", (at[0], at[1]), "");
        let told = self
            .browser
            .value("told.querySelector('p')?.textContent + ''");
        assert_eq!(told, name, "{key} {part} {down}");
    }
}
