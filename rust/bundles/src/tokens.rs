//! The words of a line, and names in quotation marks.

use crate::signs::quoted;

/// The words up to the line's end or a comment. A word that begins with a quotation mark goes on to the
/// next one that no backslash stands before.
pub(crate) fn split(line: &str) -> Result<Vec<&str>, String> {
    let mut words = Vec::new();
    let mut rest = line.trim_start();
    while !rest.is_empty() && !rest.starts_with('#') {
        let end = if rest.starts_with('"') {
            closing(rest)
                .ok_or_else(|| format!("expected a name's closing `\"`, found {}", quoted(rest)))?
        } else {
            rest.find(|sign: char| sign.is_whitespace() || sign == '#')
                .unwrap_or(rest.len())
        };
        words.push(&rest[..end]);
        rest = rest[end..].trim_start();
    }
    Ok(words)
}

/// Where a name in quotation marks ends.
fn closing(word: &str) -> Option<usize> {
    let mut escaped = false;
    for (at, sign) in word.char_indices().skip(1) {
        match sign {
            _ if escaped => escaped = false,
            '\\' => escaped = true,
            '"' => return Some(at + 1),
            _ => {}
        }
    }
    None
}

/// A name as it stands in a text.
pub(crate) fn quote(name: &str) -> String {
    let mut word = String::from('"');
    for sign in name.chars() {
        match sign {
            '"' | '\\' => word.extend(['\\', sign]),
            _ => word.push(sign),
        }
    }
    word.push('"');
    word
}

/// The name that a word in quotation marks says; nothing for other words.
pub(crate) fn unquote(word: &str) -> Option<String> {
    let inner = word.strip_prefix('"')?.strip_suffix('"')?;
    let mut name = String::new();
    let mut signs = inner.chars();
    while let Some(sign) = signs.next() {
        name.push(match sign {
            '\\' => signs.next()?,
            _ => sign,
        });
    }
    Some(name)
}
