//! A small plot as SVG: panels side by side, both axes logarithmic.

use std::fmt::Write;

pub struct Series {
    pub name: String,
    /// Visits and microseconds, rising.
    pub points: Vec<(f64, f64)>,
}

pub struct Panel {
    pub name: String,
    pub series: Vec<Series>,
}

const WIDTH: f64 = 340.0;
const HEIGHT: f64 = 260.0;
const LEFT: f64 = 60.0;
const RIGHT: f64 = 20.0;
const TOP: f64 = 24.0;
const BOTTOM: f64 = 44.0;
const COLOURS: [&str; 2] = ["#0b5fa5", "#b5471b"];

/// An axis over whole powers of ten.
struct Axis {
    low: i32,
    high: i32,
    from: f64,
    to: f64,
}

impl Axis {
    fn new(values: impl Iterator<Item = f64> + Clone, from: f64, to: f64) -> Axis {
        let low = values.clone().fold(f64::INFINITY, f64::min).log10().floor() as i32;
        let high = values.fold(0.0, f64::max).log10().ceil() as i32;
        Axis {
            low,
            high: high.max(low + 1),
            from,
            to,
        }
    }

    fn at(&self, value: f64) -> f64 {
        let part = (value.log10() - f64::from(self.low)) / f64::from(self.high - self.low);
        self.from + part * (self.to - self.from)
    }

    fn powers(&self) -> impl Iterator<Item = (i32, f64)> {
        (self.low..=self.high).map(|power| (power, self.at(10_f64.powi(power))))
    }
}

/// The whole picture.
pub fn plot(panels: &[Panel]) -> String {
    let width = WIDTH * panels.len() as f64;
    let mut svg = format!(
        "<svg xmlns=\"http://www.w3.org/2000/svg\" width=\"{width}\" height=\"{HEIGHT}\" \
         font-family=\"sans-serif\" font-size=\"11\">\n\
         <rect width=\"{width}\" height=\"{HEIGHT}\" fill=\"white\"/>\n"
    );
    for (place, panel) in panels.iter().enumerate() {
        draw(&mut svg, panel, WIDTH * place as f64).expect("a string takes every text");
    }
    svg + "</svg>\n"
}

fn draw(svg: &mut String, panel: &Panel, shift: f64) -> std::fmt::Result {
    let points = panel.series.iter().flat_map(|series| &series.points);
    let (left, right) = (shift + LEFT, shift + WIDTH - RIGHT);
    let (top, bottom) = (TOP, HEIGHT - BOTTOM);
    let across = Axis::new(points.clone().map(|point| point.0), left, right);
    let up = Axis::new(points.map(|point| point.1), bottom, top);
    for (power, x) in across.powers() {
        line(svg, (x, top), (x, bottom))?;
        text(svg, (x, bottom + 15.0), "middle", &tenth(power))?;
    }
    for (power, y) in up.powers() {
        line(svg, (left, y), (right, y))?;
        text(svg, (left - 6.0, y + 4.0), "end", &tenth(power))?;
    }
    let middle = (left + right) / 2.0;
    text(svg, (middle, HEIGHT - 10.0), "middle", &panel.name)?;
    text(svg, (left, TOP - 8.0), "middle", "µs a job")?;
    for (place, series) in panel.series.iter().enumerate() {
        let colour = COLOURS[place % COLOURS.len()];
        let at = |&(visits, time): &(f64, f64)| (across.at(visits), up.at(time));
        let path = series.points.iter().map(at);
        let joined = path.clone().map(|(x, y)| format!("{x:.1},{y:.1}"));
        let joined = joined.collect::<Vec<_>>().join(" ");
        writeln!(
            svg,
            "<polyline points=\"{joined}\" fill=\"none\" stroke=\"{colour}\"/>"
        )?;
        for (x, y) in path {
            writeln!(
                svg,
                "<circle cx=\"{x:.1}\" cy=\"{y:.1}\" r=\"2.5\" fill=\"{colour}\"/>"
            )?;
        }
        let y = top + 14.0 + 14.0 * place as f64;
        writeln!(
            svg,
            "<text x=\"{:.1}\" y=\"{y:.1}\" fill=\"{colour}\">{}</text>",
            left + 8.0,
            series.name
        )?;
    }
    Ok(())
}

/// A power of ten in words that a plot has room for.
fn tenth(power: i32) -> String {
    match power {
        6.. => format!("{}M", 10_u64.pow(power as u32 - 6)),
        3.. => format!("{}k", 10_u64.pow(power as u32 - 3)),
        0.. => format!("{}", 10_u64.pow(power as u32)),
        _ => format!("{}", 10_f64.powi(power)),
    }
}

fn line(svg: &mut String, from: (f64, f64), to: (f64, f64)) -> std::fmt::Result {
    writeln!(
        svg,
        "<line x1=\"{:.1}\" y1=\"{:.1}\" x2=\"{:.1}\" y2=\"{:.1}\" stroke=\"#dddddd\"/>",
        from.0, from.1, to.0, to.1
    )
}

fn text(svg: &mut String, at: (f64, f64), anchor: &str, words: &str) -> std::fmt::Result {
    writeln!(
        svg,
        "<text x=\"{:.1}\" y=\"{:.1}\" text-anchor=\"{anchor}\">{words}</text>",
        at.0, at.1
    )
}
