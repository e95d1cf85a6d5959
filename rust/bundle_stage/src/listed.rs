//! Where bundles and routes cross, by the stage's list, or by those of parts of the board.
//!
//! A list has at most 1,024 crossings. Of a sheet with more the board is drawn in parts: each has all nodes,
//! ports and bundles with their members, and some of the edges that are in no bundle, and is drawn from the
//! whole board's plan. So its bundles and routes stand where they do on the whole sheet, which is looked at,
//! number by number. Whether a bundle and a route cross hangs on these two alone: the lists of the parts
//! together are that of the whole.

use std::collections::HashSet;

use crate::board::{Board, Point};
use crate::id::Id;
use crate::outputs::{Crossing, Wanted};
use crate::refusal::Refusal;
use crate::sheet::Sheet;

impl Board {
    /// The crossings of the board's sheet, drawn from the bytes of a plan if they are given: also where they
    /// are more than the stage lists, [`limits::CROSSINGS`](crate::limits::CROSSINGS). Then the board is drawn
    /// in parts, and the list is that of the first part, then that of the next, and so on. None where not
    /// even a part has a list, or where the board is refused.
    ///
    /// `sheet` is what the board is drawn as: a part is to stand where it stands on that.
    ///
    /// ```
    /// # use bundle_stage::*;
    /// let board = Board::default();
    /// assert_eq!(board.crossings(&board.draw()?, None), Some(Vec::new()));
    /// # Ok::<(), Refusal>(())
    /// ```
    pub fn crossings(&self, sheet: &Sheet, plan: Option<&[u8]>) -> Option<Vec<Crossing>> {
        let mut wanted = Wanted::default().with_crossings();
        wanted.plan = plan;
        match self.draw_with(&wanted) {
            Ok(drawn) => drawn.crossings,
            Err(Refusal::TooManyCrossings) => match plan {
                Some(plan) => in_parts(self, sheet, plan),
                None => in_parts(self, sheet, &self.plan().ok()?.to_bytes().ok()?),
            },
            Err(_) => None,
        }
    }
}

fn in_parts(board: &Board, sheet: &Sheet, plan: &[u8]) -> Option<Vec<Crossing>> {
    let members = board.bundles.iter().flat_map(|bundle| &bundle.members);
    let members = members.map(|member| member.edge);
    let whole = Whole {
        board,
        sheet,
        plan,
        always: members.chain(outermost(board)).collect(),
    };
    let others = board.edges.iter().map(|edge| edge.id);
    let others = others.filter(|id| !whole.always.contains(id));
    let others = others.collect::<Vec<_>>();
    let mut all = whole.part(&[])?;
    all.extend(whole.parts(&others)?);
    Some(all)
}

/// The edges with the least coordinates, by which the last shift goes.
fn outermost(board: &Board) -> impl Iterator<Item = Id> {
    let least = |of: fn(&Point) -> f64| {
        let all = board.edges.iter().flat_map(|edge| {
            let points = edge.points.iter();
            points.map(move |point| (of(point), edge.id))
        });
        all.min_by(|a, b| a.0.total_cmp(&b.0)).map(|(_, id)| id)
    };
    let both = [least(|point| point.x), least(|point| point.y)];
    both.into_iter().flatten()
}

struct Whole<'a> {
    board: &'a Board,
    sheet: &'a Sheet,
    plan: &'a [u8],
    /// The edges of every part.
    always: HashSet<Id>,
}

impl Whole<'_> {
    /// The crossings of these edges, in as many parts as are needed.
    fn parts(&self, others: &[Id]) -> Option<Vec<Crossing>> {
        if let Some(mut list) = self.part(others) {
            list.retain(|one| !self.always.contains(&one.edge));
            return Some(list);
        }
        if others.len() < 2 {
            return None;
        }
        let (one, two) = others.split_at(others.len() / 2);
        let mut list = self.parts(one)?;
        list.extend(self.parts(two)?);
        Some(list)
    }

    /// The list of a part, if it has one and is as it stands on the whole sheet.
    fn part(&self, others: &[Id]) -> Option<Vec<Crossing>> {
        let mut part = self.board.clone();
        let in_part = |id: &Id| self.always.contains(id) || others.contains(id);
        part.edges.retain(|edge| in_part(&edge.id));
        let wanted = Wanted::default().with_plan(self.plan).with_crossings();
        let drawn = part.draw_with(&wanted).ok()?;
        let Sheet {
            nodes,
            routes,
            bundles,
            ..
        } = &drawn.sheet;
        let there = self.sheet.routes.iter().filter(|route| in_part(&route.id));
        let same =
            *nodes == self.sheet.nodes && *bundles == self.sheet.bundles && there.eq(routes.iter());
        drawn.crossings.filter(|_| same)
    }
}
