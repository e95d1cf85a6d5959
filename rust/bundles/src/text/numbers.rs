//! Numbers of the form.

use std::str::FromStr;

/// A number of the form: the shortest decimals that read back to the same bits; the bits of a NaN.
pub fn number(value: f64) -> String {
    if value.is_nan() {
        return format!("0x{:016x}", value.to_bits());
    }
    let word = format!("{value:?}");
    match word.strip_suffix(".0") {
        Some(whole) => whole.to_string(),
        None => word,
    }
}

/// A whole number in decimal digits.
pub(super) fn whole<T: FromStr>(word: &str) -> Option<T> {
    // `parse` would take a plus sign too.
    let digits = word.bytes().all(|byte| byte.is_ascii_digit());
    if digits { word.parse().ok() } else { None }
}

/// What a whole number is above that is none for its size.
pub(super) fn above_whole(word: &str) -> Option<&'static str> {
    let digits = !word.is_empty() && word.bytes().all(|byte| byte.is_ascii_digit());
    (digits && word.parse::<u32>().is_err()).then_some("above 4294967295, the most")
}

/// The same of decimals.
pub(super) fn above_float(word: &str) -> Option<&'static str> {
    let value = word.parse::<f64>().ok()?;
    let said = value.is_finite() || !word.contains(|letter: char| letter.is_ascii_digit());
    (!said).then_some("beyond 1.7976931348623157e308, the largest magnitude of a number")
}

/// A number: decimals, inf, -inf, or the bits after 0x. Decimals that are above every number are
/// none.
pub(super) fn float(word: &str) -> Option<f64> {
    if let Some(bits) = word.strip_prefix("0x") {
        let whole = bits.len() == 16 && bits.bytes().all(|byte| byte.is_ascii_hexdigit());
        let bits = u64::from_str_radix(bits, 16).ok().filter(|_| whole)?;
        return Some(f64::from_bits(bits));
    }
    let value = word.parse::<f64>().ok()?;
    let said = value.is_finite() || ["inf", "-inf"].contains(&word);
    said.then_some(value)
}
