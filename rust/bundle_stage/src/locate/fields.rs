//! The first field of a job that is refused: 1, 3, and 4 to 7 and 15 by place.

use crate::board::{Options, Visits};
use crate::grid::is_on_grid;
use crate::id::Id;
use crate::limits;
use crate::place::{Item, Part, Place, place};
use crate::refusal::Refusal;
use crate::wire::next;

use super::nth;

/// What is refused first, and where.
pub(super) struct Found {
    pub(super) refusal: Refusal,
    pub(super) place: Place,
}

type Step<T> = Result<T, Found>;

/// Nothing where no field is refused.
pub(super) fn first(job: &[u8]) -> Option<Found> {
    Walk {
        job,
        at: 0,
        on_grid: false,
    }
    .job()
    .err()
}

/// The range of a number, in words.
#[derive(Clone, Copy)]
struct Range {
    low: f64,
    high: f64,
    words: &'static str,
}

const COORDINATE: Range = Range {
    low: -limits::COORDINATE,
    high: limits::COORDINATE,
    words: "coordinates and offsets are -2^30 to 2^30",
};
const SIZE: Range = Range {
    low: 0.0,
    high: limits::COORDINATE,
    words: "sizes are 0 to 2^30",
};
const OPTION: Range = Range {
    low: 0.0,
    high: limits::OPTION,
    words: "options are 0 to 2^20",
};

/// A field's name: words, and mostly the record that it is of.
type Field = Vec<Part>;

fn of(name: impl Into<String>, item: Item) -> Field {
    vec![Part::Text(name.into()), item.into()]
}

fn named(name: impl Into<String>) -> Field {
    vec![Part::Text(name.into())]
}

struct Walk<'a> {
    job: &'a [u8],
    at: usize,
    on_grid: bool,
}

impl Walk<'_> {
    fn job(mut self) -> Step<()> {
        let follow = self.job.len().saturating_sub(4);
        let said = self
            .job
            .first_chunk()
            .map(|bytes| u32::from_be_bytes(*bytes));
        if self.job.len() < 5 || said.map(|said| said as usize) != Some(follow) {
            return Err(Found {
                refusal: Refusal::LengthMismatch,
                place: match said {
                    Some(said) => place!(format!(
                        "byte 0: the length says that {said} bytes follow it, and {follow} do"
                    )),
                    None => place!(format!("there are {} bytes in all", self.job.len())),
                },
            });
        }
        self.at = 4;
        let [version] = self.bytes(named("the version"))?;
        if version != 1 {
            let said = format!("byte 4: the version is {version}");
            return self.fail(Refusal::UnknownVersion, place!(said));
        }
        self.head().and_then(|counts| self.tables(counts))
    }

    fn head(&mut self) -> Step<[usize; 4]> {
        let flags = self.listed((named("the flags"), "are"), 7)?;
        self.on_grid = flags & 4 != 0;
        for name in Options::NAMES {
            self.number(of("", Item::Setting { name }), OPTION)?;
        }
        let most = [Visits::MOST.tap, Visits::MOST.geometry];
        for (name, most) in Visits::NAMES.into_iter().zip(most) {
            let grant = self.bytes(of("", Item::Setting { name }))?;
            let field = of("", Item::Setting { name });
            self.at_most(4, field, u32::from_be_bytes(grant), most)?;
        }
        Ok([
            self.count(named("the count of nodes"), limits::NODES)?,
            self.count(named("the count of ports"), limits::PORTS)?,
            self.count(named("the count of edges"), limits::EDGES)?,
            self.count(named("the count of bundles"), limits::BUNDLES)?,
        ])
    }

    fn tables(&mut self, [nodes, ports, edges, bundles]: [usize; 4]) -> Step<()> {
        (0..nodes).try_for_each(|place| self.node(place))?;
        (0..ports).try_for_each(|place| self.port(place))?;
        let mut points = 0;
        (0..edges).try_for_each(|place| self.edge(place, &mut points))?;
        let mut members = 0;
        (0..bundles).try_for_each(|place| self.bundle(place, &mut members))?;
        match self.job.len() - self.at {
            0 => Ok(()),
            rest => {
                let said = format!(
                    "byte {}: the records end here, and {rest} bytes follow",
                    self.at
                );
                self.fail(Refusal::FieldsMismatch, place!(said))
            }
        }
    }

    fn node(&mut self, place: usize) -> Step<()> {
        let id = self.id(named(format!("the id of {} node", nth(place))))?;
        let node = Item::Node { place, id };
        self.number(of("the x of ", node), COORDINATE)?;
        self.number(of("the y of ", node), COORDINATE)?;
        self.number(of("the width of ", node), SIZE)?;
        self.number(of("the height of ", node), SIZE)
    }

    fn port(&mut self, place: usize) -> Step<()> {
        let node = self.id(named(format!("the node of {} port", nth(place))))?;
        let id = self.id(named(format!("the id of {} port", nth(place))))?;
        let port = Item::Port { place, node, id };
        self.listed((of("the side of ", port), "is"), 3)?;
        self.number(of("the offset of ", port), COORDINATE)
    }

    fn edge(&mut self, place: usize, total: &mut usize) -> Step<()> {
        let id = self.id(named(format!("the id of {} edge", nth(place))))?;
        let edge = Item::Edge { place, id };
        for end in ["source node", "source port", "target node", "target port"] {
            self.id(of(format!("the {end} of "), edge))?;
        }
        let field = of("the count of points of ", edge);
        let count = self.count(field, limits::ROUTE_POINTS)?;
        *total += count;
        let field = of("the count of points of all edges up to ", edge);
        self.at_most(2, field, *total as u32, limits::POINTS as u32)?;
        for point in 1..=count {
            self.number(of(format!("the x of point {point} of "), edge), COORDINATE)?;
            self.number(of(format!("the y of point {point} of "), edge), COORDINATE)?;
        }
        Ok(())
    }

    fn bundle(&mut self, place: usize, total: &mut usize) -> Step<()> {
        let id = self.id(named(format!("the id of {} bundle", nth(place))))?;
        let bundle = Item::Bundle { place, id };
        self.id(of("the node of ", bundle))?;
        self.id(of("the port of ", bundle))?;
        self.listed((of("the role of ", bundle), "is"), 1)?;
        // Any number.
        self.bytes::<4>(of("the width of ", bundle))?;
        let field = of("the count of members of ", bundle);
        let count = self.count(field, limits::BUNDLE_MEMBERS)?;
        *total += count;
        let field = of("the count of members of all bundles up to ", bundle);
        self.at_most(2, field, *total as u32, limits::MEMBERS as u32)?;
        for member in 1..=count {
            let edge = self.id(of(format!("the edge of member {member} of "), bundle))?;
            let field = || of(format!("the lane of edge {edge} in "), bundle);
            let lane = self.bytes(field()).map(u16::from_be_bytes)?;
            self.at_most(2, field(), lane.into(), limits::LANE.into())?;
        }
        Ok(())
    }

    // ---- fields

    fn bytes<const N: usize>(&mut self, field: Field) -> Step<[u8; N]> {
        if let Some(bytes) = next(self.job, &mut self.at) {
            return Ok(bytes);
        }
        let said = format!("byte {}: the job ends before the end of ", self.at);
        self.fail(Refusal::FieldsMismatch, said_of(&said, field, ""))
    }

    /// Any number.
    fn id(&mut self, field: Field) -> Step<Id> {
        self.bytes(field)
            .map(|bytes| Id::from(u32::from_be_bytes(bytes)))
    }

    fn count(&mut self, field: Field, most: usize) -> Step<usize> {
        let count = self.bytes(field.clone()).map(u16::from_be_bytes)?;
        self.at_most(2, field, count.into(), most as u32)?;
        Ok(count.into())
    }

    /// A value whose field of so many bytes was read just now.
    fn at_most(&mut self, size: usize, field: Field, value: u32, most: u32) -> Step<()> {
        if value <= most {
            return Ok(());
        }
        let at = format!("byte {}: ", self.at - size);
        let said = said_of(
            &at,
            field,
            &format!(" is {value}, and at most {most} is allowed"),
        );
        self.fail(Refusal::LimitExceeded, said)
    }

    /// Of a field with the verb that goes with its name.
    fn listed(&mut self, (field, is): (Field, &str), most: u8) -> Step<u8> {
        let [value] = self.bytes(field.clone())?;
        if value <= most {
            return Ok(value);
        }
        let at = format!("byte {}: ", self.at - 1);
        let said = said_of(
            &at,
            field,
            &format!(" {is} {value}, and 0 to {most} are listed"),
        );
        self.fail(Refusal::ValueNotListed, said)
    }

    fn number(&mut self, field: Field, range: Range) -> Step<()> {
        let value = self.bytes(field.clone()).map(f64::from_be_bytes)?;
        let at = format!("byte {}: ", self.at - 8);
        // A NaN is in no range.
        if !(range.low..=range.high).contains(&value) {
            let said = format!(" is {value:?}; {}", range.words);
            return self.fail(Refusal::NumberOutOfRange, said_of(&at, field, &said));
        }
        if self.on_grid && !is_on_grid(value) {
            let said = format!(" is {value:?}, off the drafting grid");
            return self.fail(Refusal::OffGrid, said_of(&at, field, &said));
        }
        Ok(())
    }

    fn fail<T>(&self, refusal: Refusal, place: Place) -> Step<T> {
        Err(Found { refusal, place })
    }
}

fn said_of(before: &str, field: Field, after: &str) -> Place {
    let mut parts = vec![Part::from(before)];
    parts.extend(field);
    parts.push(Part::from(after));
    Place {
        parts,
        also: Vec::new(),
    }
}
