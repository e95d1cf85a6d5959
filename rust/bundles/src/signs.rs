//! Signs of names that turn or hide what stands beside them: no name has those that order letters, and a
//! name that is read from right to left stands apart from its sentence.

/// The signs that begin and end a part whose direction is its own: FIRST STRONG ISOLATE and POP
/// DIRECTIONAL ISOLATE.
const ISOLATE: char = '\u{2068}';
const END: char = '\u{2069}';

/// Whether a sign stands for no letter, but for an order to whoever shows it: control characters, ends of
/// lines and paragraphs, and embeddings, overrides and isolates.
fn orders(sign: char) -> bool {
    sign.is_control()
        || matches!(sign, '\u{2028}'..='\u{202e}' | '\u{2066}'..='\u{206f}' | '\u{fff9}'..='\u{fffb}')
}

/// Whether a letter is written from right to left, or may turn what stands beside it.
fn turns(letter: char) -> bool {
    matches!(
        letter,
        '\u{590}'..='\u{8ff}'
            | '\u{200f}'
            | '\u{fb1d}'..='\u{fdff}'
            | '\u{fe70}'..='\u{fefc}'
            | '\u{10800}'..='\u{10fff}'
            | '\u{1e800}'..='\u{1efff}'
    )
}

pub(crate) fn is_isolate(sign: char) -> bool {
    matches!(sign, ISOLATE | END)
}

/// A name as it stands in a sentence: where it has letters that are written from right to left, with the
/// signs around it that keep it apart; else as it is.
pub fn isolated(name: &str) -> String {
    match name.chars().any(turns) {
        true => format!("{ISOLATE}{name}{END}"),
        false => name.to_string(),
    }
}

/// A name that was read, or what is wrong with it.
pub(crate) fn checked(name: String) -> Result<String, String> {
    match name.chars().find(|sign| orders(*sign)) {
        None => Ok(name),
        Some(sign) => Err(format!(
            "expected a name without control characters, found U+{:04X} in {}",
            u32::from(sign),
            quoted(&name)
        )),
    }
}

/// A name that a program gives: line ends become spaces, other signs that order letters are dropped.
pub(crate) fn cleaned(name: &str) -> String {
    let line_end = |sign: char| matches!(sign, '\n' | '\r' | '\u{2028}' | '\u{2029}');
    let signs = name.chars();
    let signs = signs.map(|sign| if line_end(sign) { ' ' } else { sign });
    signs.filter(|sign| !orders(*sign)).collect()
}

/// Words of a file as they are said to somebody: signs that would order the letters by their numbers.
pub(crate) fn quoted(words: &str) -> String {
    let mut said = String::new();
    for sign in words.chars() {
        match orders(sign) {
            true => said.extend(sign.escape_unicode()),
            false => said.push(sign),
        }
    }
    format!("`{}`", isolated(&said))
}

/// Lines that were one: a part that is kept apart and goes on in the next line is so in both.
pub(crate) fn reopened(lines: &mut [String]) {
    let mut open = false;
    for line in lines {
        if open {
            line.insert(0, ISOLATE);
        }
        let last = line.chars().rev().find(|sign| is_isolate(*sign));
        open = last == Some(ISOLATE);
        if open {
            line.push(END);
        }
    }
}

#[cfg(test)]
mod tests {
    use super::{checked, cleaned, isolated, quoted, reopened};

    #[test]
    fn names_apart() {
        for plain in ["time code", "Zeitcode \u{e4}", "\u{65f6}\u{949f}", ""] {
            assert_eq!(isolated(plain), plain);
            assert_eq!(checked(plain.to_string()), Ok(plain.to_string()));
        }
        for turned in ["\u{5d0}\u{5d1}", "B \u{627}", "1 \u{200f}", "\u{1e900}"] {
            assert_eq!(isolated(turned), format!("\u{2068}{turned}\u{2069}"));
            assert_eq!(checked(turned.to_string()), Ok(turned.to_string()));
        }
    }

    #[test]
    fn signs_that_no_name_has() {
        let signs = [
            '\0', '\t', '\u{1b}', '\u{7f}', '\u{85}', '\u{2028}', '\u{202a}', '\u{202e}',
            '\u{2066}', '\u{2069}', '\u{206f}', '\u{fffb}',
        ];
        for sign in signs {
            let number = format!("U+{:04X}", u32::from(sign));
            let wrong = checked(format!("a{sign}b")).expect_err("no name");
            assert!(wrong.contains(&number), "{wrong}");
            assert!(!wrong.contains(sign), "{number}");
            assert!(!cleaned(&format!("a{sign}b")).contains(sign), "{number}");
        }
        assert_eq!(cleaned("a\nb\u{202e}c"), "a bc");
        assert_eq!(quoted("\u{202e}x"), "`\\u{202e}x`");
    }

    #[test]
    fn lines_of_one_sentence() {
        let mut lines = ["a \u{2068}b", "c", "d\u{2069} e", "f"].map(str::to_string);
        reopened(&mut lines);
        let due = [
            "a \u{2068}b\u{2069}",
            "\u{2068}c\u{2069}",
            "\u{2068}d\u{2069} e",
            "f",
        ];
        assert_eq!(lines, due);
    }
}
