//! The bundle page: document 02, F-4. It is printed from the answer's bytes, in whole numbers worked out
//! from the bits of the answer's numbers; no float is formatted, and nothing is known of a grid.

use crate::wire::{Reader, Short};

/// The bytes of a line.
pub const LINE: usize = 76;
/// The columns of an id, and of a number.
const ID_COLUMNS: usize = 10;
const NUMBER_COLUMNS: usize = 20;
const DECIMALS: usize = 7;
/// 10 to the power of the decimals.
const TO_A_UNIT: u128 = 10_000_000;

/// A bundle as the answer has it, the numbers of its collector by their bits: start x, y, end x, y.
pub struct Row {
    pub id: u32,
    pub interior: bool,
    pub collector: [u64; 4],
}

/// The bundles of an accepted job's answer.
pub fn rows(answer: &[u8]) -> Vec<Row> {
    read_rows(&mut Reader::new(answer)).expect("a whole answer")
}

fn read_rows(from: &mut Reader<'_>) -> Result<Vec<Row>, Short> {
    // Length, version, number, visits left, width and height.
    from.take(4 + 1 + 1 + 4 + 4 + 8 + 8)?;
    let (nodes, routes, bundles) = (from.u16()?, from.u16()?, from.u16()?);
    from.take(usize::from(nodes) * (4 + 16))?;
    for _ in 0..routes {
        from.take(4)?;
        let points = from.u16()?;
        from.take(usize::from(points) * 16)?;
    }
    (0..bundles).map(|_| row(from)).collect()
}

fn row(from: &mut Reader<'_>) -> Result<Row, Short> {
    let id = from.u32()?;
    let interior = from.u8()? == 1;
    let mut collector = [0; 4];
    for number in &mut collector {
        *number = from.f64()?.to_bits();
    }
    // The spine, then the taps.
    from.take(32)?;
    let taps = from.u16()?;
    from.take(usize::from(taps) * (4 + 16))?;
    Ok(Row {
        id,
        interior,
        collector,
    })
}

/// How many ten-millionths a number is: none where that is no whole number, or above 2^120.
pub fn ten_millionths(bits: u64) -> Option<i128> {
    let fraction = u128::from(bits & ((1 << 52) - 1));
    let (mantissa, power) = match bits >> 52 & 0x7ff {
        0x7ff => return None,
        0 => (fraction, -1_074),
        exponent => (fraction | 1 << 52, exponent as i32 - 1_075),
    };
    let product = mantissa * TO_A_UNIT;
    let count = match power {
        _ if product == 0 => 0,
        0..=40 => product << power,
        41.. => return None,
        _ if product.trailing_zeros() < power.unsigned_abs() => return None,
        _ => product >> power.unsigned_abs(),
    };
    let count = count as i128;
    Some(if bits >> 63 == 1 { -count } else { count })
}

/// The digits of a count, with a point before the last seven if it has decimals.
fn digits(count: u128, decimals: usize) -> Vec<u8> {
    let (mut rest, mut from_the_right) = (count, Vec::new());
    while rest > 0 || from_the_right.len() <= decimals {
        if decimals > 0 && from_the_right.len() == decimals {
            from_the_right.push(b'.');
        }
        from_the_right.push(b'0' + (rest % 10) as u8);
        rest /= 10;
    }
    from_the_right.reverse();
    from_the_right
}

fn aligned(word: &[u8], columns: usize) -> Vec<u8> {
    let spaces = columns
        .checked_sub(word.len())
        .expect("it fits its columns");
    [vec![b' '; spaces], word.to_vec()].concat()
}

fn number(count: i128) -> Vec<u8> {
    let sign: &[u8] = if count < 0 { b"-" } else { b"" };
    let word = [sign, &digits(count.unsigned_abs(), DECIMALS)].concat();
    aligned(&word, NUMBER_COLUMNS)
}

/// One line: id, I or R, collector x, smaller y, larger y.
fn line(row: &Row) -> Vec<u8> {
    let exact = |bits: u64| ten_millionths(bits).expect("seven decimals are enough");
    let [x, one, end, other] = row.collector.map(exact);
    assert_eq!(x, end, "a collector is upright");
    let mark: &[u8] = if row.interior { b"I" } else { b"R" };
    let line = [
        &aligned(&digits(u128::from(row.id), 0), ID_COLUMNS)[..],
        mark,
        &number(x),
        &number(one.min(other)),
        &number(one.max(other)),
    ]
    .join(&b' ');
    [&line[..], b"\n"].concat()
}

/// The page of an accepted job's answer.
pub fn page(answer: &[u8]) -> Vec<u8> {
    rows(answer).iter().flat_map(line).collect()
}

#[cfg(test)]
mod tests {
    use super::*;

    fn shown(value: f64) -> Option<String> {
        let count = ten_millionths(value.to_bits())?;
        Some(String::from_utf8(number(count)).expect("text"))
    }

    #[test]
    fn numbers_by_their_bits() {
        let is = |value: f64, due: &str| assert_eq!(shown(value).expect("exact").trim(), due);
        is(0.0, "0.0000000");
        is(1.0 / 128.0, "0.0078125");
        is(127.0 / 128.0, "0.9921875");
        is(1_048_576.0, "1048576.0000000");
        is(3_145_727.9921875, "3145727.9921875");
        is(-0.5, "-0.5000000");
        is(99_999_999_999.0, "99999999999.0000000");
        for inexact in [1.0 / 256.0, 0.1, 5e-324, f64::NAN, f64::INFINITY] {
            assert_eq!(shown(inexact), None, "{inexact}");
        }
    }

    /// Rust's own printing of floats is exact as well; here it is the one that is held to ours.
    #[test]
    fn as_rust_prints_them() {
        for place in 0..200_000_i64 {
            let value = (place * 6_364_136_223 % 1_000_000_007 - 500_000_000) as f64 / 128.0;
            assert_eq!(shown(value).expect("exact"), format!("{value:20.7}"));
        }
    }

    #[test]
    fn a_line() {
        let bits = |value: f64| value.to_bits();
        let row = Row {
            id: u32::MAX,
            interior: false,
            collector: [bits(3.5), bits(8.0), bits(3.5), bits(0.0078125)],
        };
        let text = line(&row);
        assert_eq!(text.len(), LINE);
        assert_eq!(
            String::from_utf8(text).expect("text"),
            "4294967295 R            3.5000000            0.0078125            8.0000000\n"
        );
    }
}
