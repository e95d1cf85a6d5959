//! Numbers that are awkward for binary64: near coincidences, subnormals, large ones, sums that
//! round.

use oracle::job::plus;

use crate::rng::Rng;

pub const LARGEST: f64 = 1_073_741_824.0; // 2^30
const TOLERANCE: f64 = 1e-7;
const SUBNORMAL: f64 = 5e-324;

/// The next number up or down, by its bits.
pub fn step(value: f64, steps: i64) -> f64 {
    let bits = value.to_bits() as i64;
    let key = if bits < 0 { i64::MIN - bits } else { bits };
    let moved = key + steps;
    let bits = if moved < 0 { i64::MIN - moved } else { moved };
    f64::from_bits(bits as u64)
}

/// A power of two, exactly.
pub fn power(exponent: i64) -> f64 {
    let mut value = 1.0;
    for _ in 0..exponent.unsigned_abs() {
        value *= if exponent < 0 { 0.5 } else { 2.0 };
    }
    value
}

/// A number not far from another one: at, just inside and just outside the tolerance, a step or
/// two away, or some subnormals away.
pub fn near(rng: &mut Rng, value: f64) -> f64 {
    let by = match rng.below(8) {
        0 => TOLERANCE,
        1 => step(TOLERANCE, 1),
        2 => step(TOLERANCE, -1),
        3 => TOLERANCE / 2.0,
        4 => TOLERANCE * 2.0,
        5 => SUBNORMAL * rng.between(1, 3) as f64,
        _ => return clean(step(value, rng.between(-2, 2))),
    };
    let sign = if rng.chance(1, 2) { 1.0 } else { -1.0 };
    clean(value + sign * by)
}

/// Within a coordinate's range, and no minus zero.
pub fn clean(value: f64) -> f64 {
    plus(value.clamp(-LARGEST, LARGEST))
}

/// The numbers that one case draws its coordinates from.
#[derive(Clone, Debug)]
pub struct Palette {
    numbers: Vec<f64>,
}

impl Palette {
    pub fn new(rng: &mut Rng) -> Palette {
        let style = rng.below(10);
        let count = 3 + rng.below(5);
        let mut numbers = (0..count)
            .map(|_| clean(base(rng, style)))
            .collect::<Vec<_>>();
        for _ in 0..rng.below(4) {
            let value = rng.pick(&numbers);
            numbers.push(near(rng, value));
        }
        if rng.chance(1, 3) {
            let (left, right) = (rng.pick(&numbers), rng.pick(&numbers));
            numbers.push(clean(left + right));
            numbers.push(clean(left - right));
        }
        Palette { numbers }
    }

    pub fn any(&self, rng: &mut Rng) -> f64 {
        rng.pick(&self.numbers)
    }

    /// A number from 0 on, at most an option's limit.
    pub fn length(&self, rng: &mut Rng) -> f64 {
        match rng.below(6) {
            0 => 0.0,
            1 => plus((self.any(rng) - self.any(rng)).abs().min(power(20))),
            2 => rng.pick(&[TOLERANCE, 1.0, 4.0, 0.5, SUBNORMAL, power(20)]),
            _ => plus(self.any(rng).abs().min(power(20))),
        }
    }

    pub fn point(&self, rng: &mut Rng) -> (f64, f64) {
        (self.any(rng), self.any(rng))
    }

    /// The end of a run from `start`: mostly level or upright.
    pub fn next(&self, rng: &mut Rng, (x, y): (f64, f64)) -> (f64, f64) {
        match rng.below(20) {
            0 => (x, y),
            1 => self.point(rng),
            2 => (self.any(rng), near(rng, y)),
            3 => (near(rng, x), self.any(rng)),
            4..=12 => (self.any(rng), y),
            _ => (x, self.any(rng)),
        }
    }

    pub fn run(&self, rng: &mut Rng) -> ((f64, f64), (f64, f64)) {
        let start = self.point(rng);
        (start, self.next(rng, start))
    }

    /// A route that goes to the right by level and upright runs in turn.
    pub fn staircase(&self, rng: &mut Rng, count: usize) -> Vec<(f64, f64)> {
        let mut xs = (0..count).map(|_| self.any(rng)).collect::<Vec<_>>();
        xs.sort_by(f64::total_cmp);
        let mut y = self.any(rng);
        let mut points = Vec::with_capacity(count);
        for (place, &x) in xs.iter().enumerate() {
            match points.last() {
                Some(&(before, _)) if place % 2 == 0 => {
                    y = self.any(rng);
                    points.push((before, y));
                }
                _ => points.push((x, y)),
            }
        }
        points
    }

    /// A level run to the right from a low number to a high one.
    pub fn wide(&self, rng: &mut Rng) -> ((f64, f64), (f64, f64)) {
        let draw = |rng: &mut Rng| (self.any(rng), self.any(rng));
        let ((a, b), (c, d)) = (draw(rng), draw(rng));
        let y = self.any(rng);
        ((a.min(b), y), (c.max(d), y))
    }

    /// The distance of two numbers, or one near it.
    pub fn distance(&self, rng: &mut Rng) -> f64 {
        let between = (self.any(rng) - self.any(rng)).abs();
        match rng.below(3) {
            0 => near(rng, between).abs(),
            _ => plus(between.min(LARGEST)),
        }
    }

    /// A route of up to `most` points, of one kind or the other.
    pub fn some_route(&self, rng: &mut Rng, most: usize) -> Vec<(f64, f64)> {
        let count = match rng.below(10) {
            0 => rng.below(3),
            _ => 2 + rng.below(most - 1),
        };
        if rng.chance(1, 2) {
            self.staircase(rng, count)
        } else {
            self.route(rng, count)
        }
    }

    /// A route of that many points.
    pub fn route(&self, rng: &mut Rng, count: usize) -> Vec<(f64, f64)> {
        let mut points = Vec::with_capacity(count);
        for _ in 0..count {
            let next = match points.last() {
                Some(&last) => self.next(rng, last),
                None => self.point(rng),
            };
            points.push(next);
        }
        points
    }
}

fn base(rng: &mut Rng, style: usize) -> f64 {
    let small = rng.between(-4, 20) as f64;
    match style {
        0..=3 => small,
        4 => rng.between(-128, 640) as f64 / 64.0,
        5 => small * 0.1,
        6 => small * SUBNORMAL,
        7 => match rng.below(3) {
            0 => LARGEST - rng.between(0, 3) as f64,
            1 => -LARGEST + rng.between(0, 3) as f64,
            _ => small * power(26),
        },
        8 => power(29) + small * power(-23),
        _ => match rng.below(5) {
            0 => small * SUBNORMAL,
            1 => small * power(25),
            2 => small * TOLERANCE,
            3 => small / 3.0,
            _ => small,
        },
    }
}
