//! Numbers and words as they stand in an SVG file.

use bundle_stage::Point;

use crate::signs::reopened;

/// A length, to a hundredth of a millimetre.
pub fn mm(length: f64) -> String {
    let text = format!("{length:.2}");
    let text = text.trim_end_matches('0').trim_end_matches('.');
    if text == "-0" { "0" } else { text }.to_string()
}

pub fn place(at: Point) -> String {
    format!("{} {}", mm(at.x), mm(at.y))
}

pub fn escaped(text: &str) -> String {
    let mut to = String::new();
    for letter in text.chars() {
        match letter {
            '&' => to.push_str("&amp;"),
            '<' => to.push_str("&lt;"),
            '>' => to.push_str("&gt;"),
            '"' => to.push_str("&quot;"),
            // XML has no place for these, not even escaped.
            _ if letter.is_control() || matches!(letter, '\u{fffe}' | '\u{ffff}') => to.push(' '),
            _ => to.push(letter),
        }
    }
    to
}

/// What makes letters bold, as an attribute.
pub const BOLD: &str = "font-weight=\"bold\"";

/// Words on a line at this height of letters, `y` being where the letters stand. Letters of which no width is
/// known are drawn as wide as they are taken to be, so that the words keep to their place.
pub fn words(at: Point, size: f64, more: &str, text: &str) -> String {
    let wide = if more.contains(BOLD) { wide_bold } else { wide };
    let length = if text.chars().all(is_known) {
        String::new()
    } else {
        let length = mm(wide(text, size));
        format!(" textLength=\"{length}\" lengthAdjust=\"spacingAndGlyphs\"")
    };
    let (x, y, size) = (mm(at.x), mm(at.y), mm(size));
    let gap = if more.is_empty() { "" } else { " " };
    let text = escaped(text);
    format!("<text x=\"{x}\" y=\"{y}\" font-size=\"{size}\"{length}{gap}{more}>{text}</text>\n")
}

/// How wide words are at most in the fonts that the picture names: no font is at hand to measure them.
pub fn wide(text: &str, size: f64) -> f64 {
    size * text.chars().map(em).sum::<f64>()
}

/// The same of bold letters.
pub fn wide_bold(text: &str, size: f64) -> f64 {
    let bolder = |letter: char| if em(letter) > 0.0 { 0.085 } else { 0.0 };
    wide(text, size) + size * text.chars().map(bolder).sum::<f64>()
}

/// Bold words that are no wider than there is room: cut, with an ellipsis, where they would be.
pub fn cut(text: &str, size: f64, room: f64) -> String {
    let mut cut = text.to_string();
    let mut letters = text.chars().collect::<Vec<_>>();
    while wide_bold(&cut, size) > room && letters.pop().is_some() {
        cut = letters.iter().chain(['\u{2026}'].iter()).collect();
    }
    // A name that is kept apart may have lost its end.
    reopened(std::slice::from_mut(&mut cut));
    cut
}

/// Whether a letter is one of those whose widths are known, being in the fonts that are named.
fn is_known(letter: char) -> bool {
    let latin = matches!(letter, ' '..='~' | '\u{a0}'..='\u{24f}' | '\u{1e00}'..='\u{1eff}');
    // Greek and Cyrillic, and what stands between words.
    latin
        || matches!(letter, '\u{370}'..='\u{52f}' | '\u{2010}'..='\u{2026}' | '\u{2190}'..='\u{2193}')
}

/// How wide a letter is, in heights of letters: of DejaVu Sans or Liberation Sans, whichever is wider. 0 for what
/// is drawn over the letter before, or not at all.
fn em(letter: char) -> f64 {
    match letter {
        ' ' | '\'' | ',' | '.' | ':' | ';' | '/' | '\\' | '|' | 'i' | 'j' | 'l' | 'I' => 0.34,
        'f' | 'r' | 't' | '-' | '(' | ')' | '[' | ']' | '!' => 0.42,
        'm' | 'M' | 'W' | '@' | '%' => 1.02,
        'w' | '+' | '<' | '=' | '>' | '^' | '~' | '#' => 0.84,
        'A'..='Z' | '&' => 0.8,
        ' '..='~' => 0.64,
        '\u{300}'..='\u{36f}' | '\u{200b}'..='\u{200f}' | '\u{202a}'..='\u{202e}' => 0.0,
        '\u{2060}'..='\u{206f}' | '\u{fe00}'..='\u{fe0f}' => 0.0,
        '\u{a0}'..='\u{17f}' | '\u{1ea0}'..='\u{1ef9}' => of_latin(letter),
        '\u{370}'..='\u{3e1}' | '\u{400}'..='\u{45f}' => of_greek_or_cyrillic(letter),
        '\u{1c4}'..='\u{1cc}' | '\u{1f1}'..='\u{1f3}' => 1.48,
        // Rarer ones of these alphabets.
        '\u{180}'..='\u{52f}' | '\u{1e00}'..='\u{1fff}' => 1.35,
        // Written from right to left, and the scripts of southern Asia.
        '\u{590}'..='\u{109f}' => 1.0,
        '‘'..='”' | '–' => 0.58,
        // Dashes, dots and arrows.
        '\u{2010}'..='\u{2026}' | '\u{2190}'..='\u{2193}' => 1.0,
        // Of East Asia: as wide as they are high.
        '\u{1100}'..='\u{11ff}' | '\u{2e80}'..='\u{d7ff}' | '\u{f900}'..='\u{faff}' => 1.0,
        '\u{fe30}'..='\u{fe6f}' | '\u{ff00}'..='\u{ffef}' | '\u{20000}'..='\u{3ffff}' => 1.0,
        // Signs and pictures.
        _ => 1.45,
    }
}

fn of_latin(letter: char) -> f64 {
    match letter {
        'æ' | 'œ' | 'ŵ' | 'ŉ' => 1.05,
        'Æ' | 'Œ' | 'Ŵ' => 1.25,
        _ if letter.is_lowercase() => 0.72,
        _ if letter.is_uppercase() => 0.95,
        _ => 1.05,
    }
}

fn of_greek_or_cyrillic(letter: char) -> f64 {
    match letter {
        'ж' | 'ш' | 'щ' | 'ф' | 'ю' | 'ы' | 'њ' | 'љ' => 1.05,
        'Ж' | 'Ш' | 'Щ' | 'Ю' | 'Ф' | 'Ы' | 'Љ' | 'Њ' => 1.25,
        _ if letter.is_lowercase() => 0.84,
        _ => 1.0,
    }
}

#[cfg(test)]
mod tests {
    use super::*;

    /// Widths of plain and bold letters in DejaVu Sans and Liberation Sans, whichever is wider, in thousandths.
    const WIDTHS: [(&str, usize, usize); 12] = [
        ("W", 989, 1_103),
        ("M", 863, 995),
        ("m", 974, 1_042),
        ("w", 818, 924),
        ("@", 1_015, 1_000),
        ("O", 787, 850),
        ("n", 634, 712),
        ("0", 636, 696),
        ("i", 278, 343),
        ("t", 392, 478),
        ("Щ", 1_090, 1_330),
        ("時", 1_000, 1_000),
    ];

    #[test]
    fn no_letter_is_wider_than_it_is_taken_to_be() {
        for (letter, plain, bold) in WIDTHS {
            let widths = [wide(letter, 1_000.0), wide_bold(letter, 1_000.0)];
            assert!(widths[0] >= plain as f64, "{letter}: {}", widths[0]);
            assert!(widths[1] >= bold as f64, "{letter}, bold: {}", widths[1]);
        }
    }

    #[test]
    fn a_name_that_is_cut_stays_apart() {
        let said = "B5 \u{2068}\u{5d0}\u{5d1}\u{5d2}\u{5d3}\u{2069}: refused";
        assert_eq!(cut(said, 2.0, 100.0), said);
        let cut = cut(said, 2.0, 9.0);
        assert!(cut.ends_with("\u{2026}\u{2069}"), "{cut:?}");
        assert!(wide_bold(&cut, 2.0) <= 9.0, "{cut:?}");
    }

    #[test]
    fn letters_of_unknown_width_get_their_length() {
        let at = Point { x: 0.0, y: 0.0 };
        let plain = words(at, 2.0, "", "clock");
        assert!(!plain.contains("textLength"), "{plain}");
        let wide = words(at, 2.0, "", "\u{6642}\u{523b}");
        assert!(wide.contains(" textLength=\"4\" "), "{wide}");
        assert!(words(at, 2.0, BOLD, "\u{1f552}").contains("textLength=\"3.07\""));
    }
}
