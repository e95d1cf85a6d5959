//! The words of a command: its flags, and what is said of words that do not fit.

use crate::help;

/// What stands behind a command's `--title`, `--names` and `--plan`, and whether it has `--with-names`.
#[derive(Clone, Copy, Default)]
pub struct Settings<'a> {
    pub title: Option<&'a str>,
    pub names: Option<&'a str>,
    pub plan: Option<&'a str>,
    pub with_names: bool,
}

/// The help that is asked for by a flag, wherever it stands: of the first word that is a command, or of
/// all.
pub fn help(words: &[&str]) -> Option<String> {
    let asked = words.iter().any(|word| matches!(*word, "--help" | "-h"));
    let one = words.iter().find_map(|word| help::one(word));
    asked.then(|| one.unwrap_or_else(help::all))
}

pub fn wrong(name: &str) -> String {
    match help::usage(name) {
        Some(usage) => format!("wrong words; it is: {usage}"),
        None => format!("no command `{name}`; see `bundles help`"),
    }
}

/// The words without the flags, and what these say. A file whose name begins with `-` can be named with a
/// folder before it, as `./-x`.
pub fn settings<'a>(words: &[&'a str]) -> Result<(Vec<&'a str>, Settings<'a>), String> {
    // It stands for the command `version`.
    if let ["--version" | "-V"] = *words {
        return Ok((words.to_vec(), Settings::default()));
    }
    let mut settings = Settings::default();
    let mut others = Vec::new();
    let mut flags = Vec::new();
    let mut words = words.iter().copied();
    while let Some(word) = words.next() {
        if word == "-" || !word.starts_with('-') {
            others.push(word);
            continue;
        }
        flags.push(word);
        let place = match word {
            "--title" => &mut settings.title,
            "--names" => &mut settings.names,
            "--plan" => &mut settings.plan,
            "--with-names" => {
                settings.with_names = true;
                continue;
            }
            // Refused below.
            _ => continue,
        };
        let value = words.next();
        *place = Some(value.ok_or_else(|| wrong(others.first().unwrap_or(&word)))?);
    }
    match flags.iter().find(|flag| !takes(&others, flag)) {
        None => Ok((others, settings)),
        Some(flag) => Err(refused(&others, flag)),
    }
}

fn takes(words: &[&str], flag: &str) -> bool {
    let usage = words.first().and_then(|name| help::usage(name));
    usage.is_some_and(|usage| {
        let mut words =
            usage.split(|letter: char| letter.is_whitespace() || "[]|".contains(letter));
        words.any(|word| word == flag)
    })
}

fn refused(words: &[&str], flag: &str) -> String {
    match words.first() {
        Some(name) if help::usage(name).is_some() => {
            let usage = help::usage(name).unwrap_or_default();
            format!("no flag `{flag}`; it is: {usage}")
        }
        Some(name) => wrong(name),
        None => format!("no command before the flag `{flag}`; see `bundles help`"),
    }
}
