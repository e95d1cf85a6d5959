//! Lines beside the frames of nodes at which they do not end: one that lies too near would melt into the frame.

use super::facts::{is_beside, is_of, line_of};
use super::paths::flat;
use super::pens::Pens;
use super::scene::{Scene, corners};
use super::stroke::Stroke;
use super::white::{NEARLY, WHITE, name_of_line};

/// A line too near to a frame, in words. What lies on the frame on the sheet itself is not meant: no paper shows
/// the two apart.
pub fn framed(scene: &Scene, strokes: &[Stroke], pens: &Pens) -> Option<String> {
    strokes.iter().enumerate().find_map(|(place, stroke)| {
        let line = line_of(scene, place);
        let half = (stroke.width + pens.node) / 2.0 + WHITE - NEARLY;
        let pieces = flat(stroke);
        let nodes = scene.nodes.iter().enumerate();
        let mut beside = nodes.filter(|(_, node)| {
            let [low, high] = corners(node);
            let mut pieces = pieces.iter();
            pieces.any(|piece| is_beside((piece.start, piece.end), [low, high], half))
        });
        let foreign = |(node, of): &(usize, &bundle_stage::Node)| {
            !is_of(scene, line, of.id) && !scene.facts.on_sides.contains(&(line, *node))
        };
        let (_, node) = beside.find(foreign)?;
        let name = name_of_line(scene, place);
        Some(format!(
            "{name} would melt into the frame of node {}",
            node.id
        ))
    })
}
