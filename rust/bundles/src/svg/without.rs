//! Where there is no picture: why, and what it would say.

use std::fmt;

use super::head::Head;
use super::page::PAPERS;

/// Why there is no picture: on no paper could all that does not join be drawn apart.
#[derive(Clone, Debug, Eq, PartialEq)]
pub struct Unclear {
    what: String,
    /// What the picture would have below its title: what is said of the sheet, and then what is wrong with it.
    about: Option<String>,
    warnings: Vec<String>,
}

impl Unclear {
    /// What is still so on the largest paper.
    pub(super) fn on_paper(what: &str) -> Unclear {
        let (long, short) = PAPERS[PAPERS.len() - 1];
        Unclear::of(format!("on paper of {long} by {short} mm still {what}"))
    }

    pub(super) fn of(what: String) -> Unclear {
        Unclear {
            what,
            about: None,
            warnings: Vec::new(),
        }
    }

    /// With what would stand below the title of the picture.
    pub(super) fn below(self, head: &Head) -> Unclear {
        Unclear {
            what: self.what,
            about: head.about.clone(),
            warnings: head.warnings.clone(),
        }
    }

    /// What the picture would have below its title of the sheet, if anything.
    pub fn about(&self) -> Option<&str> {
        self.about.as_deref()
    }

    /// What the picture would have there of what is wrong.
    pub fn warnings(&self) -> &[String] {
        &self.warnings
    }
}

impl fmt::Display for Unclear {
    fn fmt(&self, to: &mut fmt::Formatter<'_>) -> fmt::Result {
        write!(to, "no picture, as it would mislead: {}", self.what)
    }
}

impl std::error::Error for Unclear {}
