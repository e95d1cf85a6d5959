//! What the reader makes of a job in nine bytes: its number and a digest of what was read, as
//! crates/reader_replay prints it. Ids are resolved to places, as the board has them.

use std::collections::HashMap;

use crate::job::{self, Job};

/// The digest with one number more: turned by five bits, and the number added.
struct Digest(u64);

impl Digest {
    fn mix(&mut self, value: u64) {
        self.0 = self.0.rotate_left(5).wrapping_add(value);
    }

    fn mix_number(&mut self, value: f64) {
        self.mix(value.to_bits());
    }

    fn mix_place(&mut self, place: usize) {
        self.mix(place as u64);
    }
}

/// The number of the refusal u8, 0 if the job is accepted; the digest u64, 0 if it is refused.
pub fn digest(bytes: &[u8]) -> Vec<u8> {
    let (number, digest) = match job::read(bytes) {
        Err(number) => (number, 0),
        Ok(job) => (0, digest_of(&job)),
    };
    let mut made = vec![number];
    made.extend(digest.to_be_bytes());
    made
}

fn digest_of(job: &Job) -> u64 {
    let mut digest = Digest(u64::from(job.separate));
    digest.mix(u64::from(job.crossings) | u64::from(job.on_grid) << 1);
    for option in job.options() {
        digest.mix_number(option);
    }
    digest.mix(u64::from(job.tap_visits));
    digest.mix(u64::from(job.geometry_visits));
    mix_nodes(&mut digest, job);
    mix_ports(&mut digest, job);
    mix_edges(&mut digest, job);
    mix_bundles(&mut digest, job);
    digest.0
}

fn mix_nodes(digest: &mut Digest, job: &Job) {
    digest.mix_place(job.nodes.len());
    for node in &job.nodes {
        digest.mix(u64::from(node.id));
        for number in [node.x, node.y, node.width, node.height] {
            digest.mix_number(number);
        }
    }
}

fn mix_ports(digest: &mut Digest, job: &Job) {
    let node_place = places(job.nodes.iter().map(|node| node.id));
    digest.mix_place(job.ports.len());
    for port in &job.ports {
        digest.mix_place(node_place[&port.node]);
        digest.mix(u64::from(port.id));
        digest.mix(u64::from(port.side));
        digest.mix_number(port.offset);
    }
}

fn mix_edges(digest: &mut Digest, job: &Job) {
    let node_place = places(job.nodes.iter().map(|node| node.id));
    let mut first = 0;
    digest.mix_place(job.edges.len());
    for edge in &job.edges {
        digest.mix(u64::from(edge.id));
        digest.mix_place(node_place[&edge.source_node]);
        digest.mix_place(node_place[&edge.target_node]);
        digest.mix_place(first);
        digest.mix_place(edge.points.len());
        first += edge.points.len();
    }
    digest.mix_place(first);
    for &(x, y) in job.edges.iter().flat_map(|edge| &edge.points) {
        digest.mix_number(x);
        digest.mix_number(y);
    }
}

fn mix_bundles(digest: &mut Digest, job: &Job) {
    let port_place = places(job.ports.iter().map(|port| (port.node, port.id)));
    let edge_place = places(job.edges.iter().map(|edge| edge.id));
    let mut first = 0;
    digest.mix_place(job.bundles.len());
    for bundle in &job.bundles {
        digest.mix(u64::from(bundle.id));
        digest.mix_place(port_place[&(bundle.node, bundle.port)]);
        digest.mix(u64::from(bundle.role));
        digest.mix(u64::from(bundle.width));
        digest.mix_place(first);
        digest.mix_place(bundle.members.len());
        first += bundle.members.len();
    }
    digest.mix_place(first);
    for member in job.bundles.iter().flat_map(|bundle| &bundle.members) {
        digest.mix_place(edge_place[&member.edge]);
        digest.mix(u64::from(member.lane));
    }
}

fn places<K: std::hash::Hash + Eq>(ids: impl Iterator<Item = K>) -> HashMap<K, usize> {
    ids.enumerate().map(|(place, id)| (id, place)).collect()
}
