//! Boards in whole numbers: realistic ones, random ones, degenerate ones and the largest.

use crate::draft::{Draft, DraftBundle, EAST, INPUT, NORTH, OUTPUT, SOUTH, WEST};
use crate::rng::Rng;

/// A board as a placing and routing program hands it over: inputs at the left, outputs at the
/// right, level and upright routes between. Each bundle has its own band of rows.
pub fn realistic(rng: &mut Rng, bands: usize, most_members: usize) -> Draft {
    let mut board = Banded::new(rng, bands, most_members);
    for _ in 0..bands {
        match rng.below(12) {
            0..=2 => board.one_role(rng, INPUT),
            3..=5 => board.one_role(rng, OUTPUT),
            6 | 7 => board.chain(rng, 1),
            8 | 9 => board.chain(rng, 2),
            10 => board.fan(rng, 2),
            _ => board.plain(rng),
        }
    }
    if rng.chance(1, 8) {
        board.crosser(rng);
    }
    if rng.chance(1, 10) {
        board.obstacle(rng);
    }
    board.draft.shuffle(rng);
    board.draft
}

/// One component: two or three bundles of one role that share edges with one of the other.
pub fn fans(rng: &mut Rng) -> Draft {
    let mut board = Banded::new(rng, 2, 3);
    let bundles = 2 + rng.below(2);
    board.fan(rng, bundles);
    rng.shuffle(&mut board.draft.bundles);
    board.draft
}

struct Banded {
    draft: Draft,
    /// East side of the left nodes and west side of the right ones.
    left: i64,
    right: i64,
    /// Top of the next band.
    top: i64,
    most_members: usize,
    last_left: Option<usize>,
    last_right: Option<usize>,
}

impl Banded {
    fn new(rng: &mut Rng, bands: usize, most_members: usize) -> Banded {
        let gap = rng.pick(&[4, 4, 6, 8, 10, 12]);
        let clearance = rng.pick(&[0, 0, 0, 8, 20]);
        let stub = rng.pick(&[0, 5, 10, 10, 12]);
        let spacing = match rng.below(10) {
            0..=6 => 0,
            7 => gap,
            8 => gap / 2,
            _ => gap + 3,
        };
        let draft = Draft {
            separate: rng.chance(2, 5),
            crossings: rng.chance(2, 5),
            stub,
            gap,
            clearance,
            spacing,
            reserve: match rng.below(4) {
                0 => rng.between(0, 30),
                _ => stub.max(clearance),
            },
            ..Draft::default()
        };
        let lanes = (bands * most_members) as i64;
        let depth = 2 * draft.rail() + draft.pitch() * (2 + lanes);
        let width = match rng.below(6) {
            0 => depth / 2 + rng.between(0, 60),
            1 => depth + rng.between(0, 100),
            _ => 2 * depth + rng.between(50, 800),
        };
        let left = rng.between(-60, 120);
        Banded {
            draft,
            left,
            right: left + width,
            top: rng.between(-40, 40),
            most_members,
            last_left: None,
            last_right: None,
        }
    }

    fn row_gap(&self, rng: &mut Rng) -> i64 {
        self.draft.pitch().max(4) + rng.between(0, 6)
    }

    fn members(&self, rng: &mut Rng) -> usize {
        if rng.chance(1, 10) {
            return 1;
        }
        2 + rng.below(self.most_members.max(2) - 1)
    }

    /// Room for the rows of a band and for taps at the rail around its middle.
    fn open_band(&mut self, rng: &mut Rng, members: usize) -> (i64, i64) {
        let row = self.row_gap(rng);
        let half = self.draft.pitch() * (members as i64 + 1);
        let first = self.top + half + self.draft.pitch().max(self.draft.spacing) + 4;
        (first, row)
    }

    fn close_band(&mut self, last: i64, members: usize) {
        let half = self.draft.pitch() * (members as i64 + 1);
        self.top = last + half + self.draft.pitch().max(self.draft.spacing) + 4;
    }

    /// A port of a boundary node at `y`, on a new node or on the last one made taller.
    fn boundary_port(&mut self, rng: &mut Rng, role: u8, y: i64) -> usize {
        let last = if role == INPUT {
            self.last_left
        } else {
            self.last_right
        };
        let side = if role == INPUT { EAST } else { WEST };
        let node = match last {
            Some(node) if rng.chance(1, 3) => {
                let top = self.draft.nodes[node].y;
                self.draft.nodes[node].height = y + 6 - top;
                node
            }
            _ => {
                let width = rng.pick(&[20, 20, 30, 40, 26]);
                let x = if role == INPUT {
                    self.left - width
                } else {
                    self.right
                };
                self.draft.node(x, y - 6, width, 12)
            }
        };
        if role == INPUT {
            self.last_left = Some(node);
        } else {
            self.last_right = Some(node);
        }
        self.draft.port_at(node, side, y)
    }

    fn bundle(&mut self, rng: &mut Rng, port: usize, role: u8, edges: &[usize]) {
        let mut lanes = (0..edges.len() as u16).collect::<Vec<_>>();
        match rng.below(12) {
            0 => rng.shuffle(&mut lanes),
            1 => lanes.iter_mut().for_each(|lane| *lane /= 2),
            2 => lanes.iter_mut().for_each(|lane| *lane *= 2),
            _ => {}
        }
        self.draft.bundles.push(DraftBundle {
            port,
            role,
            width: match rng.below(16) {
                0 => rng.below(2) as u32,
                _ => edges.len() as u32 + rng.below(3) as u32,
            },
            members: edges.iter().copied().zip(lanes).collect(),
        });
    }

    /// A bundle of one role whose members start or end at nodes inside the sheet.
    fn one_role(&mut self, rng: &mut Rng, role: u8) {
        let members = self.members(rng);
        let (first, row) = self.open_band(rng, members);
        let rows = rows(first, row, members);
        let at = rng.pick(&rows) + if rng.chance(1, 2) { 0 } else { 1 };
        let port = self.boundary_port(rng, role, at);
        let span = self.right - self.left;
        let near = self.draft.rail() + self.draft.pitch();
        let together = rng.chance(1, 2);
        let mut far = span - rng.between(0, span / 3 + 1);
        let mut edges = Vec::new();
        for &y in &rows {
            if !together {
                far = span - rng.between(0, span / 3 + 1);
            }
            // Distances from the boundary: the bend, and the end at a node inside.
            let bend = rng.between(1, near + span / 4);
            let end = far.max(bend + 1);
            let mut route = vec![(0, at)];
            if y != at {
                route.push((bend, at));
                route.push((bend, y));
            }
            if rng.chance(1, 5) && bend + 4 < end {
                let jog = rng.between(bend + 1, end - 2);
                route.extend([(jog, y), (jog, y + 1), (jog + 1, y + 1), (jog + 1, y)]);
            }
            route.push((end, y));
            edges.push(self.inner_edge(rng, role, port, route));
        }
        self.bundle(rng, port, role, &edges);
        self.close_band(*rows.last().expect("a member"), members);
    }

    /// An edge between a boundary port and a new node inside; the route is given by distances
    /// from the boundary.
    fn inner_edge(
        &mut self,
        rng: &mut Rng,
        role: u8,
        port: usize,
        route: Vec<(i64, i64)>,
    ) -> usize {
        let &(end, y) = route.last().expect("a point");
        let size = rng.pick(&[8, 10, 20]);
        let mut points = route
            .iter()
            .map(|&(distance, y)| match role {
                INPUT => (self.left + distance, y),
                _ => (self.right - distance, y),
            })
            .collect::<Vec<_>>();
        if role == INPUT {
            let node = self.draft.node(self.left + end, y - 1, size, 2);
            let inner = self.draft.port_at(node, WEST, y);
            self.draft.edge(port, inner, points)
        } else {
            points.reverse();
            let node = self.draft.node(self.right - end - size, y - 1, size, 2);
            let inner = self.draft.port_at(node, EAST, y);
            self.draft.edge(inner, port, points)
        }
    }

    /// Edges from a left port to a right port by one or two rows each.
    fn through(
        &mut self,
        rng: &mut Rng,
        source: (usize, i64),
        target: (usize, i64),
        near: &[i64],
        far: &[i64],
    ) -> Vec<usize> {
        let span = self.right - self.left;
        let third = (span / 3).max(1);
        near.iter()
            .zip(far)
            .map(|(&y, &z)| {
                let a = rng.between(1, third);
                let b = rng.between(a, a.max(2 * third));
                let c = match rng.below(3) {
                    0 => span - rng.between(1, 2 * self.draft.rail() + 4),
                    _ => rng.between(b, b.max(span - 1)),
                };
                let mut points = vec![(self.left, source.1)];
                if y != source.1 {
                    points.extend([(self.left + a, source.1), (self.left + a, y)]);
                }
                if z != y {
                    points.extend([(self.left + b, y), (self.left + b, z)]);
                }
                if z != target.1 {
                    points.extend([(self.left + c, z), (self.left + c, target.1)]);
                }
                points.push((self.right, target.1));
                self.draft.edge(source.0, target.0, points)
            })
            .collect()
    }

    /// Edges that are members of an Input and of an Output bundle.
    fn chain(&mut self, rng: &mut Rng, row_sets: usize) {
        let members = self.members(rng);
        let (first, row) = self.open_band(rng, members * row_sets);
        let near = rows(first, row, members);
        let far = if row_sets == 2 {
            rows(near[members - 1] + row, row, members)
        } else {
            near.clone()
        };
        let from_y = rng.pick(&near);
        let to_y = rng.pick(&far);
        let source = self.boundary_port(rng, INPUT, from_y);
        let target = self.boundary_port(rng, OUTPUT, to_y);
        let edges = self.through(rng, (source, from_y), (target, to_y), &near, &far);
        self.bundle(rng, source, INPUT, &edges);
        self.bundle(rng, target, OUTPUT, &edges);
        self.close_band(far[members - 1], members * row_sets);
    }

    /// Some bundles of one role against one of the other.
    fn fan(&mut self, rng: &mut Rng, bundles: usize) {
        let parts = (0..bundles).map(|_| self.members(rng)).collect::<Vec<_>>();
        let members = parts.iter().sum::<usize>();
        let (first, row) = self.open_band(rng, 2 * members);
        let near = rows(first, row, members);
        let far = rows(near[members - 1] + row, row, members);
        let wide_role = if rng.chance(1, 2) { INPUT } else { OUTPUT };
        let narrow_role = 1 - wide_role;
        let (wide_rows, narrow_rows) = if wide_role == INPUT {
            (&near, &far)
        } else {
            (&far, &near)
        };
        let wide_y = rng.pick(wide_rows);
        let wide = self.boundary_port(rng, wide_role, wide_y);
        let mut all = Vec::new();
        let mut first = 0;
        for count in parts {
            let range = first..first + count;
            first += count;
            let narrow_y = narrow_rows[range.start + rng.below(count)];
            let narrow = self.boundary_port(rng, narrow_role, narrow_y);
            let (source, target) = if wide_role == INPUT {
                ((wide, wide_y), (narrow, narrow_y))
            } else {
                ((narrow, narrow_y), (wide, wide_y))
            };
            let edges = self.through(
                rng,
                source,
                target,
                &near[range.clone()],
                &far[range.clone()],
            );
            self.bundle(rng, narrow, narrow_role, &edges);
            all.extend(edges);
        }
        self.bundle(rng, wide, wide_role, &all);
        self.close_band(far[members - 1], 2 * members);
    }

    /// Edges that no bundle has.
    fn plain(&mut self, rng: &mut Rng) {
        let members = self.members(rng);
        let (first, row) = self.open_band(rng, members);
        let near = rows(first, row, members);
        let source = self.boundary_port(rng, INPUT, first);
        let target = self.boundary_port(rng, OUTPUT, first);
        self.through(rng, (source, first), (target, first), &near, &near);
        self.close_band(near[members - 1], members);
    }

    /// An edge from above the sheet to below it.
    fn crosser(&mut self, rng: &mut Rng) {
        let x = rng.between(self.left, self.right);
        let upper = self.draft.node(x - 5, -400, 10, 10);
        let lower = self.draft.node(x - 5, self.top + 100, 10, 10);
        self.draft.ports.push(crate::draft::DraftPort {
            node: upper,
            side: SOUTH,
            offset: 5,
        });
        self.draft.ports.push(crate::draft::DraftPort {
            node: lower,
            side: NORTH,
            offset: 5,
        });
        let ports = self.draft.ports.len();
        let points = vec![(x, -390), (x, self.top + 100)];
        self.draft.edge(ports - 2, ports - 1, points);
    }

    /// A node somewhere among the rows.
    fn obstacle(&mut self, rng: &mut Rng) {
        let x = rng.between(self.left, self.right);
        let y = rng.between(0, self.top.max(1));
        let (width, height) = (rng.between(0, 20), rng.between(0, 12));
        self.draft.node(x, y, width, height);
    }
}

fn rows(first: i64, row: i64, count: usize) -> Vec<i64> {
    (0..count as i64).map(|place| first + row * place).collect()
}

/// A small board with no plan behind it: level and upright walks over few coordinates.
pub fn random(rng: &mut Rng) -> Draft {
    let size = rng.pick(&[12, 24, 64]);
    let mut draft = Draft {
        separate: rng.chance(1, 2),
        crossings: rng.chance(1, 2),
        stub: rng.between(0, 3),
        gap: rng.between(0, 4),
        clearance: rng.pick(&[0, 0, 2, 5]),
        spacing: rng.pick(&[0, 0, 0, 2, 4]),
        reserve: rng.between(0, 6),
        ..Draft::default()
    };
    for _ in 0..1 + rng.below(4) {
        let (x, y) = (rng.between(-4, size), rng.between(-4, size));
        draft.node(x, y, rng.between(0, 6), rng.between(0, 6));
    }
    for _ in 0..1 + rng.below(5) {
        let node = rng.below(draft.nodes.len());
        let side = rng.pick(&[NORTH, EAST, EAST, SOUTH, WEST, WEST]);
        let offset = rng.between(0, 6);
        draft
            .ports
            .push(crate::draft::DraftPort { node, side, offset });
    }
    for _ in 0..rng.below(6) {
        let ports = draft.ports.len();
        let (source, target) = (rng.below(ports), rng.below(ports));
        let points = walk(rng, size);
        draft.edge(source, target, points);
    }
    random_bundles(rng, &mut draft);
    draft
}

/// A walk that mostly goes to the right, level and upright by turns.
fn walk(rng: &mut Rng, size: i64) -> Vec<(i64, i64)> {
    let mut at = (rng.between(-4, size / 2), rng.between(0, size));
    let mut points = vec![at];
    for _ in 0..1 + rng.below(4) {
        match rng.below(8) {
            0 => at.1 = rng.between(0, size),
            1 => at.0 = rng.between(-4, size),
            2..=5 => at.0 += rng.between(1, size),
            _ => at.1 += rng.between(-3, 3),
        }
        points.push(at);
    }
    points
}

/// Bundles over the edges at hand; no edge twice in one role.
pub fn random_bundles(rng: &mut Rng, draft: &mut Draft) {
    for role in [INPUT, OUTPUT] {
        let mut free = (0..draft.edges.len()).collect::<Vec<_>>();
        rng.shuffle(&mut free);
        for _ in 0..rng.below(3) {
            let count = rng.below(4).min(free.len());
            let members = free.split_off(free.len() - count);
            draft.bundles.push(DraftBundle {
                port: rng.below(draft.ports.len()),
                role,
                width: rng.below(5) as u32,
                members: members
                    .into_iter()
                    .enumerate()
                    .map(|(lane, edge)| {
                        let lane = if rng.chance(1, 5) { rng.below(6) } else { lane };
                        (edge, lane as u16)
                    })
                    .collect(),
            });
        }
    }
    rng.shuffle(&mut draft.bundles);
}

/// Boards at every limit of document 01: 128 nodes, 256 ports, 256 edges, 2,048 points, 32
/// bundles, 256 members.
pub fn largest(rng: &mut Rng) -> Draft {
    let stub = rng.pick(&[0, 10]);
    let kind = rng.pick(&[Large::Interior, Large::Rail, Large::Chain]);
    let mut draft = Draft {
        separate: rng.chance(1, 3),
        crossings: rng.chance(1, 2),
        stub,
        gap: rng.pick(&[4, 6, 8]),
        reserve: stub,
        ..Draft::default()
    };
    for band in 0..32 {
        large_band(rng, &mut draft, kind, band);
    }
    draft.shuffle(rng);
    draft
}

#[derive(Clone, Copy, PartialEq)]
enum Large {
    Interior,
    Rail,
    Chain,
}

/// Eight edges of eight points, four nodes, eight ports; one bundle of eight members, or for
/// chains two in every other band.
fn large_band(rng: &mut Rng, draft: &mut Draft, kind: Large, band: i64) {
    let right = 6_000;
    let pitch = draft.gap;
    let top = band * pitch * 24;
    let first = top + pitch * 10;
    let at = first + 1;
    let left_node = draft.node(-20, top + 1, 20, pitch * 23);
    let right_node = draft.node(right, top + 1, 20, pitch * 23);
    let inner = draft.node(right / 2, top, 20, 2);
    draft.node(right / 2 + 40, top, 20, 2);
    let source = draft.port_at(left_node, EAST, at);
    let target = draft.port_at(right_node, WEST, at);
    for _ in 0..6 {
        draft.port_at(inner, EAST, top + 1);
    }
    let from_left = band % 2 == 0;
    let mut edges = Vec::new();
    for place in 0..8 {
        let y = first + 2 + pitch * place;
        let a = rng.between(20, 400);
        let b = rng.between(2_000, 2_400);
        let c = rng.between(3_200, 3_600);
        let end = rng.between(5_000, right - 100);
        let points = match kind {
            Large::Chain => [
                (0, at),
                (a, at),
                (a, y),
                (b, y),
                (b, y + 1),
                (end, y + 1),
                (end, at),
                (right, at),
            ],
            _ => [
                (0, at),
                (a, at),
                (a, y),
                (b, y),
                (b, y + 1),
                (c, y + 1),
                (c, y),
                (end, y),
            ],
        };
        let mut points = points.to_vec();
        if kind != Large::Chain && !from_left {
            points = points.iter().rev().map(|&(x, y)| (right - x, y)).collect();
        }
        edges.push(draft.edge(source, target, points));
    }
    let roles: &[u8] = match kind {
        Large::Chain if from_left => &[INPUT, OUTPUT],
        Large::Chain => &[],
        _ if from_left => &[INPUT],
        _ => &[OUTPUT],
    };
    for &role in roles {
        draft.bundles.push(DraftBundle {
            port: if role == INPUT { source } else { target },
            role,
            width: if kind == Large::Rail { 1 } else { 8 },
            members: edges.iter().copied().zip(0..).collect(),
        });
    }
}

/// A board in which something is missing or of no size.
pub fn degenerate(rng: &mut Rng) -> Draft {
    let mut draft = if rng.chance(1, 3) {
        random(rng)
    } else {
        let bands = 1 + rng.below(2);
        realistic(rng, bands, 3)
    };
    for _ in 0..1 + rng.below(3) {
        spoil(rng, &mut draft);
    }
    draft
}

fn spoil(rng: &mut Rng, draft: &mut Draft) {
    let bundles = draft.bundles.len();
    let edges = draft.edges.len();
    match rng.below(12) {
        0 => {
            draft.gap = 0;
            draft.spacing = 0;
        }
        1 => {
            draft.gap = 0;
            draft.spacing = 0;
            draft.stub = 0;
            draft.clearance = 0;
            draft.reserve = 0;
        }
        2 if bundles > 0 => draft.bundles[rng.below(bundles)].width = rng.below(2) as u32,
        3 if bundles > 0 => draft.bundles[rng.below(bundles)].members.clear(),
        4 if bundles > 0 => draft.bundles[rng.below(bundles)].members.truncate(1),
        5 if edges > 0 => draft.edges[rng.below(edges)].points.truncate(rng.below(2)),
        6 if edges > 0 => {
            // A run of no length.
            let points = &mut draft.edges[rng.below(edges)].points;
            if let Some(&again) = points.last() {
                let place = rng.below(points.len());
                let again = if rng.chance(1, 3) {
                    again
                } else {
                    points[place]
                };
                points.insert(place, again);
            }
        }
        7 => {
            let nodes = draft.nodes.len();
            let node = &mut draft.nodes[rng.below(nodes)];
            if rng.chance(1, 2) {
                node.width = 0;
            } else {
                node.height = 0;
            }
        }
        8 => {
            let ports = draft.ports.len();
            draft.ports[rng.below(ports)].side = rng.below(4) as u8;
        }
        9 => draft.bundles.clear(),
        10 => {
            // A bundle with nothing to draw but itself.
            let port = rng.below(draft.ports.len());
            draft.bundles.push(DraftBundle {
                port,
                role: rng.below(2) as u8,
                width: rng.below(3) as u32,
                members: Vec::new(),
            });
        }
        _ => {
            // All edges on one route.
            if let Some(points) = draft.edges.first().map(|edge| edge.points.clone()) {
                for edge in &mut draft.edges {
                    edge.points = points.clone();
                }
            }
        }
    }
}

/// One bundle whose members have no x in common: the level runs of one of them are shorter than
/// the pitch.
pub fn nothing_common(rng: &mut Rng) -> Draft {
    let mut draft = Draft {
        separate: rng.chance(1, 2),
        crossings: rng.chance(1, 2),
        stub: rng.between(0, 6),
        gap: rng.between(4, 9),
        reserve: rng.between(0, 3),
        ..Draft::default()
    };
    let (pitch, rail) = (draft.gap, draft.rail());
    let members = 2 + rng.below(2) as i64;
    let role = rng.pick(&[INPUT, OUTPUT]);
    let end = rail + pitch * (members + 2) + 4;
    let short = rng.below(members as usize) as i64;
    let boundary = draft.node(-10, -10, 10, 20);
    let side = if role == INPUT { EAST } else { WEST };
    let port = draft.port_at(boundary, side, 0);
    if role == OUTPUT {
        draft.nodes[boundary].x = 0;
    }
    let inner = draft.node(end + 20, 200, 10, 10);
    let other = draft.port_at(inner, side, 200);
    let mut edges = Vec::new();
    for member in 0..members {
        let y = (member + 1) * (pitch + 3);
        let mut points = vec![(0, 0), (1, 0), (1, y)];
        if member == short {
            let (mut x, mut up) = (1, false);
            while x < end {
                x += pitch - 1;
                points.push((x, y + i64::from(up)));
                up = !up;
                points.push((x, y + i64::from(up)));
            }
            points.pop();
        } else {
            points.push((end + 5, y));
        }
        if role == OUTPUT {
            points = points.iter().rev().map(|&(x, y)| (-x, y)).collect();
        }
        edges.push(match role {
            INPUT => draft.edge(port, other, points),
            _ => draft.edge(other, port, points),
        });
    }
    draft.bundles.push(DraftBundle {
        port,
        role,
        width: members as u32,
        members: edges.iter().copied().zip(0..).collect(),
    });
    draft
}

/// One chain on a board hardly wide enough for it; most lanes are 0.
pub fn narrow(rng: &mut Rng) -> Draft {
    let mut draft = Draft {
        separate: rng.chance(1, 2),
        crossings: rng.chance(1, 2),
        stub: rng.between(0, 4),
        gap: rng.between(1, 6),
        clearance: rng.pick(&[0, 0, 3]),
        reserve: rng.between(0, 4),
        ..Draft::default()
    };
    let (pitch, rail) = (draft.pitch(), draft.rail());
    let members = 2 + rng.below(2) as i64;
    let span = 2 * rail + rng.between(pitch, 6 * pitch);
    let left = draft.node(-10, -10, 10, 20);
    let right = draft.node(span, -10, 10, 20);
    let source = draft.port_at(left, EAST, 0);
    let to_y = rng.between(-3, 3);
    let target = draft.port_at(right, WEST, to_y);
    let mut edges = Vec::new();
    for member in 0..members {
        let y = member * (pitch + 2);
        let z = rng.pick(&[y, y, y + 1]);
        let a = rng.between(0, span / 3);
        let b = rng.between(a, span);
        let c = rng.between(b, span);
        let points = vec![
            (0, 0),
            (a, 0),
            (a, y),
            (b, y),
            (b, z),
            (c, z),
            (c, to_y),
            (span, to_y),
        ];
        edges.push(draft.edge(source, target, points));
    }
    let even = rng.chance(2, 3);
    for (port, role) in [(source, INPUT), (target, OUTPUT)] {
        draft.bundles.push(DraftBundle {
            port,
            role,
            width: members as u32,
            members: edges
                .iter()
                .enumerate()
                .map(|(lane, &edge)| (edge, if even { 0 } else { lane as u16 }))
                .collect(),
        });
    }
    draft.shuffle(rng);
    draft
}
