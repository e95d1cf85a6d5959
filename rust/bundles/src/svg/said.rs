//! Words below the title: what is wrong, and where.

use crate::joints::{Joints, name, words};

use super::scene::Scene;

/// No more of a kind are named. The line below the legend counts all false joints.
const MOST_NAMED: usize = 6;

/// The false joints.
pub fn warnings(joints: &Joints) -> Vec<String> {
    let named = joints.found().iter().take(MOST_NAMED);
    let named = named.map(|joint| format!("{}: {}.", name(joint), words(joint)));
    named.map(capital).collect()
}

/// The ends of routes that are not at their ports.
pub fn not_joined(scene: &Scene) -> Vec<String> {
    let loose = scene.records.loose.iter();
    first(loose.map(|one| one.words(&scene.names)).collect())
}

/// The lines that lie on the frames of nodes at which they do not end: there they are hard to see.
pub fn on_frames(scene: &Scene) -> Vec<String> {
    let records = &scene.records;
    let lines = records.routes.iter().chain(&records.trunks);
    let lines = lines.collect::<Vec<_>>();
    let said = scene.facts.on_sides.iter().map(|(line, node)| {
        let [line, node] = [lines[*line], &records.nodes[*node]].map(|of| of.item);
        let [line, node] = [line, node].map(|item| scene.names.item(item));
        format!("{line} lies on the frame of {node}")
    });
    first(said.collect())
}

pub fn capital(line: String) -> String {
    let mut letters = line.chars();
    let first = letters.next().map(char::to_uppercase);
    first.into_iter().flatten().chain(letters).collect()
}

/// The first of several words as sentences, and how many more there are.
pub fn first(all: Vec<String>) -> Vec<String> {
    let more = all.len().saturating_sub(MOST_NAMED);
    let named = all.into_iter().take(MOST_NAMED);
    let named = named.map(|words| capital(format!("{words}.")));
    let more = (more > 0).then(|| format!("And {more} more."));
    named.chain(more).collect()
}
