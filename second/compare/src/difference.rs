//! A case put to both programs, and how their outcomes differ.

use crate::calls::{Called, Jointrise};
use crate::case::{Case, ENTRIES, Entry};
use crate::expected::Second;
use crate::outcome::Outcome;
use std::fmt;
use std::path::PathBuf;

/// How jointrise is called.
#[derive(Clone, Debug, Default)]
pub struct Way {
    /// Where the listing program is.
    pub program: Option<PathBuf>,
    /// One number of this entry's outcome is flipped before it is compared: a comparison that still passes is worth nothing.
    pub broken: Option<String>,
}

#[derive(Clone, Debug, PartialEq, Eq)]
pub struct Difference {
    pub jointrise: Called,
    pub plain: Outcome,
}

impl Way {
    /// The entries that can be called so: all but the program if none is named.
    pub fn entries(&self) -> impl Iterator<Item = &'static Entry> {
        let program = self.program.is_some();
        ENTRIES
            .iter()
            .filter(move |entry| program || entry.name != "program")
    }

    /// Whether cases of this entry can tell anything: where one is broken, only its own can.
    pub fn tells(&self, entry: &Entry) -> bool {
        self.broken.as_deref().is_none_or(|name| name == entry.name)
    }

    /// The outcome that both have, or the two that differ.
    pub fn compare(&self, case: &Case) -> Result<Outcome, Box<Difference>> {
        let program = self.program.as_deref();
        let mut jointrise = case.put_to(&Jointrise { program });
        let plain = case.put_to(&Second);
        if self.broken.as_deref() == Some(case.entry().name)
            && let Ok(outcome) = &mut jointrise
        {
            outcome.flip();
        }
        if jointrise.as_ref() == Ok(&plain) {
            Ok(plain)
        } else {
            Err(Box::new(Difference { jointrise, plain }))
        }
    }
}

impl fmt::Display for Difference {
    fn fmt(&self, f: &mut fmt::Formatter<'_>) -> fmt::Result {
        match &self.jointrise {
            Ok(outcome) => writeln!(f, "jointrise {outcome}")?,
            Err(fault) => writeln!(f, "jointrise: {fault}")?,
        }
        write!(f, "the second program {}", self.plain)
    }
}
