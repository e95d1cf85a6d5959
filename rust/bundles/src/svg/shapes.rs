//! Nodes, ports, routes and bundles as SVG: a group with a title for each.

use bundle_stage::{Endpoint, Item, Node};

use super::field::{Rect, moved};
use super::palette::{WARNING, colour, mark};
use super::paths::{line, marked, path};
use super::pens::Pens;
use super::scene::{MARK, Port, Route, Scene, Tap};
use super::stroke::{Stroke, halves};
use super::xml::{BOLD, escaped, mm, wide_bold, words};

fn name(endpoint: Endpoint) -> String {
    format!("{}:{}", endpoint.node, endpoint.port)
}

/// A name behind an id, where there is one.
fn called(scene: &Scene, item: Item) -> String {
    let name = scene.names.said(item);
    name.map(|name| format!(" {}", escaped(&name)))
        .unwrap_or_default()
}

pub fn nodes(scene: &Scene, pens: &Pens, ink: &str) -> String {
    let mut svg = format!(
        "<g class=\"nodes\" stroke=\"{ink}\" stroke-width=\"{}\" fill=\"#eeeeee\" \
         fill-opacity=\"0.6\">\n",
        mm(pens.node)
    );
    for (node, record) in scene.nodes.iter().zip(&scene.records.nodes) {
        let Node {
            id,
            x,
            y,
            width,
            height,
        } = node;
        svg.push_str(&format!(
            "<g class=\"node\" id=\"{}\"><title>node {id}{}</title><rect x=\"{}\" y=\"{}\" \
             width=\"{}\" height=\"{}\"/></g>\n",
            record.key,
            called(scene, record.item),
            mm(*x),
            mm(*y),
            mm(*width),
            mm(*height)
        ));
    }
    svg + "</g>\n"
}

/// Squares over the lines that end there.
pub fn ports(scene: &Scene, ink: &str) -> String {
    let mut svg = format!("<g class=\"ports\" stroke=\"{ink}\" fill=\"white\">\n");
    for (port, record) in scene.ports.iter().zip(&scene.records.ports) {
        let half = port.size / 2.0;
        svg.push_str(&format!(
            "<rect class=\"port\" id=\"{}\" x=\"{}\" y=\"{}\" width=\"{}\" height=\"{}\" \
             stroke-width=\"{}\"><title>port {}{}</title></rect>\n",
            record.key,
            mm(port.low.x - half),
            mm(port.low.y - half),
            mm(port.high.x - port.low.x + port.size),
            mm(port.high.y - port.low.y + port.size),
            mm(port.size / 4.0),
            name(port.name),
            called(scene, record.item),
        ));
    }
    svg + "</g>\n"
}

/// The square of a port with its frame.
pub fn square(port: &Port) -> Rect {
    Rect::of(port.low, port.high, 0.625 * port.size)
}

/// Routes, and bundles over them. No mark of a bundle is partly covered by what is drawn over it.
pub fn lines(
    scene: &Scene,
    (strokes, pens): (&[Stroke], &Pens),
    covered: &[Rect],
    ink: &str,
) -> String {
    let mut routes = String::new();
    let mut bundles = String::new();
    let (of_routes, of_trunks) = strokes.split_at(scene.routes.len());
    for (place, (route, stroke)) in scene.routes.iter().zip(of_routes).enumerate() {
        routes.push_str(&format!(
            "<g class=\"route\" id=\"{}\"><title>{}</title>\n{}</g>\n",
            scene.records.routes[place].key,
            about_route(scene, place),
            coloured(route, stroke, ink)
        ));
    }
    for (place, strokes) in of_trunks.chunks(2).enumerate() {
        bundles.push_str(&bundle(scene, place, (strokes, pens), covered));
    }
    format!(
        "<g class=\"routes\" fill=\"none\" stroke-width=\"{}\">\n{routes}</g>\n\
         <g class=\"bundles\" fill=\"none\">\n{bundles}</g>\n",
        mm(pens.route)
    )
}

/// A bundle with its dots, which cover its marks too.
fn bundle(
    scene: &Scene,
    place: usize,
    (strokes, pens): (&[Stroke], &Pens),
    covered: &[Rect],
) -> String {
    let (trunk, record) = (&scene.trunks[place], &scene.records.trunks[place]);
    let taps = trunk.taps.iter();
    let dots = taps.clone().map(|tap| Rect::of(tap.at, tap.at, tap.radius));
    let covered = covered.iter().copied().chain(dots).collect::<Vec<_>>();
    let taps = taps.map(|tap| dot(tap, pens, colour(place)));
    format!(
        "<g class=\"bundle\" id=\"{}\" data-joint=\"{} {}\"><title>bundle {}{} at {}</title>\n{}{}</g>\n",
        record.key,
        mm(trunk.collector.start.x),
        mm(trunk.spine.end.y),
        trunk.id,
        called(scene, record.item),
        name(trunk.endpoint),
        marked(
            strokes,
            trunk.weight,
            (colour(place), mark(place)),
            &covered
        ),
        taps.collect::<String>()
    )
}

/// A route in the colour of its bundle; in two bundles, half in the one and half in the other.
fn coloured(route: &Route, stroke: &Stroke, ink: &str) -> String {
    let part = |stroke: &Stroke, ink: &str| path(&line(stroke), &format!("stroke=\"{ink}\""));
    match (route.input, route.output) {
        (Some(from), Some(to)) => {
            let (first, rest) = halves(stroke);
            part(&first, colour(from)) + &part(&rest, colour(to))
        }
        (Some(one), None) | (None, Some(one)) => part(stroke, colour(one)),
        (None, None) => part(stroke, ink),
    }
}

fn about_route(scene: &Scene, place: usize) -> String {
    let route = &scene.routes[place];
    let bundles = [route.input, route.output].into_iter().flatten();
    let bundles = bundles.map(|place| format!(", bundle {}", scene.trunks[place].id));
    let loose = scene.records.loose_of(place);
    let loose = loose.map(|one| format!("; {}", escaped(&one.words(&scene.names))));
    format!(
        "edge {}{} from {} to {}{}{}",
        route.id,
        called(scene, scene.records.routes[place].item),
        name(route.source),
        name(route.target),
        bundles.collect::<String>(),
        loose.collect::<String>()
    )
}

/// A tap's dot, an open one where it is not on its collector.
fn dot(tap: &Tap, pens: &Pens, colour: &str) -> String {
    let (fill, more) = if tap.held {
        (colour, String::new())
    } else {
        let width = mm(pens.route);
        (
            "white",
            format!(" stroke=\"{colour}\" stroke-width=\"{width}\""),
        )
    };
    format!(
        "<circle class=\"tap\" id=\"{}\" cx=\"{}\" cy=\"{}\" r=\"{}\" fill=\"{fill}\"{more}/>\n",
        tap.key,
        mm(tap.at.x),
        mm(tap.at.y),
        mm(tap.radius)
    )
}

/// A ring around each false joint, over everything else, and words beside it, inside the page. Where
/// words would lie over others, the ring stands alone.
pub fn marks(scene: &Scene, width: f64) -> String {
    let size = 2.6;
    let mut svg = String::new();
    let mut taken: Vec<Rect> = Vec::new();
    for mark in &scene.marks {
        let long = wide_bold(mark.name, size);
        let (side, anchor) = if mark.at.x + MARK + long < width {
            (1.0, "start")
        } else {
            (-1.0, "end")
        };
        let beside = moved(mark.at, 0.8 * side * MARK, -0.8 * MARK);
        let more = format!(
            "text-anchor=\"{anchor}\" {BOLD} fill=\"{WARNING}\" stroke=\"white\" \
             stroke-width=\"0.6\" paint-order=\"stroke\""
        );
        let rect = Rect::of(beside, moved(beside, side * long, -size), 0.0);
        let mut inside = ring(mark.at.x, mark.at.y, MARK);
        if !taken.iter().any(|other| other.meets(&rect)) {
            inside.push_str(&words(beside, size, &more, mark.name));
            taken.push(rect);
        }
        let title = escaped(&mark.words);
        svg.push_str(&format!(
            "<g class=\"false-joint\"><title>{title}</title>\n{inside}</g>\n"
        ));
    }
    svg
}

pub fn ring(x: f64, y: f64, radius: f64) -> String {
    format!(
        "<circle cx=\"{}\" cy=\"{}\" r=\"{}\" fill=\"none\" stroke=\"{WARNING}\" \
         stroke-width=\"0.5\"/>\n",
        mm(x),
        mm(y),
        mm(radius)
    )
}
