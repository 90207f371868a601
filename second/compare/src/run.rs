//! A run over many cases: it counts them, and stops with the smallest differing one.

use crate::case::{Case, Entry};
use crate::difference::{Difference, Way};
use crate::outcome::{Memory, Outcome};
use crate::shrink::smallest;
use std::collections::BTreeMap;
use std::fmt;

/// The smallest differing case that was found, with what differs.
pub struct Stop {
    pub kind: &'static str,
    pub case: Case,
    pub difference: Box<Difference>,
}

pub struct Run {
    pub way: Way,
    kind: &'static str,
    cases: Vec<(&'static str, u64)>,
    reasons: BTreeMap<(&'static str, u64), u64>,
    verdicts: BTreeMap<u64, u64>,
}

impl Run {
    pub fn new(way: Way) -> Run {
        Run {
            way,
            kind: "",
            cases: Vec::new(),
            reasons: BTreeMap::new(),
            verdicts: BTreeMap::new(),
        }
    }

    /// The cases from here on are of this kind.
    pub fn kind(&mut self, kind: &'static str) {
        self.kind = kind;
        if !self.cases.iter().any(|(k, _)| *k == kind) {
            self.cases.push((kind, 0));
        }
    }

    /// Compares one case, if it can tell anything.
    pub fn case(&mut self, case: Case) -> Result<(), Box<Stop>> {
        if !self.way.tells(case.entry()) {
            return Ok(());
        }
        let kind = self.kind;
        if let Some((_, count)) = self.cases.iter_mut().find(|(k, _)| *k == kind) {
            *count += 1;
        }
        match self.way.compare(&case) {
            Ok(outcome) => {
                self.note(case.entry(), &outcome);
                Ok(())
            }
            Err(_) => {
                let case = smallest(case, |case| self.way.compare(case).is_err());
                let difference = self.way.compare(&case).expect_err("it was seen to differ");
                Err(Box::new(Stop {
                    kind,
                    case,
                    difference,
                }))
            }
        }
    }

    fn note(&mut self, entry: &'static Entry, outcome: &Outcome) {
        let [refused, _, answer, _, _] = outcome.reply;
        let reason = match &outcome.memory {
            Memory::Text(text) => refused_in(text.as_bytes()),
            Memory::Bytes(bytes) if entry.name == "listing" => {
                refused_in(&bytes[..answer as usize])
            }
            _ => refused,
        };
        *self.reasons.entry((entry.name, reason)).or_default() += 1;
        if entry.name == "ask" && reason == 0 {
            *self.verdicts.entry(answer).or_default() += 1;
        }
    }

    pub fn cases(&self) -> u64 {
        self.cases.iter().map(|(_, count)| count).sum()
    }

    /// The replies that document 01 knows and that no case had, entry by entry.
    pub fn unseen(&self) -> Vec<String> {
        let mut unseen = Vec::new();
        for entry in self.way.entries().filter(|entry| self.way.tells(entry)) {
            for &reason in [0].iter().chain(entry.reasons) {
                if !self.reasons.contains_key(&(entry.name, reason)) {
                    unseen.push(format!("{}: reason {reason}", entry.name));
                }
            }
            for verdict in 1..=5 {
                if entry.name == "ask" && !self.verdicts.contains_key(&verdict) {
                    unseen.push(format!("ask: verdict {verdict}"));
                }
            }
        }
        unseen
    }
}

/// The reason that a listing refuses with, or 0.
fn refused_in(text: &[u8]) -> u64 {
    std::str::from_utf8(text)
        .ok()
        .and_then(|text| text.strip_prefix("refused "))
        .and_then(|rest| rest.split(' ').next())
        .and_then(|number| number.parse().ok())
        .unwrap_or(0)
}

impl fmt::Display for Run {
    fn fmt(&self, f: &mut fmt::Formatter<'_>) -> fmt::Result {
        for (kind, count) in &self.cases {
            writeln!(f, "{count:>10}  {kind}")?;
        }
        let mut entry = "";
        for ((of, reason), count) in &self.reasons {
            if *of != entry {
                entry = of;
                write!(f, "\n{entry:>10}  ")?;
            }
            match reason {
                0 => write!(f, "answered {count}")?,
                _ => write!(f, ", {reason}: {count}")?,
            }
        }
        let verdicts: Vec<String> = self
            .verdicts
            .iter()
            .map(|(verdict, count)| format!("{verdict}: {count}"))
            .collect();
        write!(f, "\n{:>10}  {}", "verdicts", verdicts.join(", "))
    }
}

impl fmt::Display for Stop {
    fn fmt(&self, f: &mut fmt::Formatter<'_>) -> fmt::Result {
        writeln!(f, "DIFFERENT, among: {}", self.kind)?;
        writeln!(f, "The smallest case found:\n")?;
        writeln!(f, "    {}\n", self.case.paste())?;
        writeln!(f, "{}", self.difference)?;
        write!(
            f,
            "Paste the line with `agree` into a test of second/compare/tests/pasted.rs."
        )
    }
}
