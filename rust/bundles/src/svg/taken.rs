//! The page that a picture is drawn on.

use std::collections::BTreeSet;

use super::bodies;
use super::drawn::strokes;
use super::head::Head;
use super::legend::{Legend, Room};
use super::loose;
use super::page::{MARGIN, Page};
use super::page_of;
use super::pens::Pens;
use super::scene::Scene;
use super::tries::{Pages, Try, larger, tries};
use super::unnamed::{Unnamed, lines_on};
use super::white::unclear;
use super::{Labels, Unclear};

/// On the smallest paper on which all that does not join is drawn apart. `ink` is for what has no
/// colour of its own; `said` stands below the legend.
pub fn picture(
    scene: Scene,
    head: &Head,
    ink: &str,
    said: Option<String>,
) -> Result<String, Unclear> {
    let all = All {
        pages: Pages::of(&scene, head),
        ink,
        said,
    };
    let mut what = String::new();
    for one in tries() {
        match all.settled(one, usize::MAX) {
            Some(Ok(first)) => return Ok(all.with_names(all.with_crosses(first)).svg),
            Some(Err(words)) => what = words,
            None => {}
        }
    }
    Err(Unclear::on_paper(&what))
}

/// All that a picture is made of.
struct All<'a> {
    pages: Pages<'a>,
    ink: &'a str,
    said: Option<String>,
}

/// A page that is clear.
struct Drawn {
    one: Try,
    page: Page,
    svg: String,
    /// The routes that have their ids, by their places; and those that have them where the legend has no names.
    routes: BTreeSet<usize>,
    without_names: BTreeSet<usize>,
    /// What has a name for which there is no room on the sheet.
    unnamed: Vec<Unnamed>,
    /// How many of these have no room in the legend either.
    unlisted: usize,
    /// How many ends that are not at their ports have no room for their crosses.
    uncrossed: usize,
}

impl Drawn {
    /// How many routes of these have no id, and how many names stand nowhere.
    fn lost(&self, routes: &BTreeSet<usize>) -> usize {
        routes.difference(&self.routes).count() + self.unlisted
    }
}

impl All<'_> {
    /// An end without its cross could be taken for joined: where a page has no room for all of them, the first of
    /// those that have more is taken that has room for most.
    fn with_crosses(&self, first: Drawn) -> Drawn {
        let mut others = larger(first.one.paper());
        let mut best = first;
        while best.uncrossed > 0
            && let Some(one) = others.next()
        {
            if let Some(Ok(better)) = self.settled(one, best.uncrossed) {
                best = better;
            }
        }
        best
    }

    /// Names in the legend take the sheet's room: where routes lose their ids by it, or names have no room, the
    /// first of the pages with more room is taken on which that is so of fewest.
    fn with_names(&self, first: Drawn) -> Drawn {
        let routes = first.without_names.clone();
        let mut others = larger(first.one.paper());
        let mut best = first;
        while best.lost(&routes) > 0
            && let Some(one) = others.next()
        {
            if let Some(Ok(other)) = self.settled(one, best.uncrossed.saturating_add(1))
                && other.lost(&routes) < best.lost(&routes)
            {
                best = other;
            }
        }
        best
    }

    /// A page with what has no room on the sheet in its legend, which then takes room itself.
    fn settled(&self, one: Try, most: usize) -> Option<Result<Drawn, String>> {
        let mut named = BTreeSet::new();
        let mut legend = self.legend(&named, Room::default());
        let mut drawn = match self.drawn(one, &legend, most)? {
            Ok(drawn) => drawn,
            unclear => return Some(unclear),
        };
        let without_names = drawn.routes.clone();
        let mut lines = lines_on(drawn.page.paper()[1]);
        loop {
            let before = named.len();
            named.extend(drawn.unnamed.iter().copied());
            let most_lines = lines_on(drawn.page.height);
            let is_high = legend.lines_of_names(inner(&drawn.page)) > most_lines;
            if named.len() == before && !is_high {
                drawn.without_names = without_names;
                return Some(Ok(drawn));
            }
            if is_high {
                lines = most_lines.min(lines.saturating_sub(1));
            }
            let width = inner(&drawn.page);
            legend = self.legend(&named, Room { width, lines });
            drawn = match self.drawn(one, &legend, most)? {
                Ok(drawn) => drawn,
                unclear => return Some(unclear),
            };
        }
    }

    fn legend(&self, named: &BTreeSet<Unnamed>, room: Room) -> Legend {
        Legend::of(self.pages.scene, (named, room), self.said.clone())
    }

    /// A page with fewer uncrossed ends than so many, or why it is not clear; none where the sheet cannot lie on it.
    fn drawn(&self, one: Try, legend: &Legend, most: usize) -> Option<Result<Drawn, String>> {
        let page = self.pages.page(one, legend)?;
        let mut scene = self.pages.scene.clone().moved(|point| page.at(point));
        let mut pens = Pens::of(&scene);
        let (strokes, miscounted) = strokes(&mut scene, &mut pens, one.tunnels());
        // Where others are to be better than one that is clear, few are.
        let is_better = || loose::left_out(&scene, &strokes) < most;
        if most < usize::MAX && !is_better() {
            return None;
        }
        if let Some(words) = miscounted.or_else(|| unclear(&scene, &strokes, &pens)) {
            return Some(Err(words));
        }
        let uncrossed = loose::left_out(&scene, &strokes);
        bodies::widen(&mut scene, &strokes, &pens);
        let around = (self.pages.head, legend);
        let (svg, labels) = page_of(&scene, (&strokes, &pens), around, &page, self.ink);
        // A bundle that is not named is followed by its colour alone.
        if let Some(id) = labels.bundles.first() {
            return Some(Err(format!("there is no room for the id of bundle {id}")));
        }
        let Labels {
            routes, unnamed, ..
        } = labels;
        Some(Ok(Drawn {
            one,
            page,
            svg,
            routes,
            without_names: BTreeSet::new(),
            unlisted: legend.unlisted(&unnamed).len(),
            unnamed,
            uncrossed,
        }))
    }
}

fn inner(page: &Page) -> f64 {
    page.width - 2.0 * MARGIN
}
