//! The counts of a run over many files.

use crate::json::Object;
use crate::tell::Outcome;
use notebook::Reason;
use std::collections::BTreeMap;
use std::fmt::Write;

#[derive(Default)]
pub struct Summary {
    accepted: u64,
    failed: u64,
    skipped: u64,
    refusals: BTreeMap<Reason, u64>,
}

impl Summary {
    pub fn count(&mut self, outcome: Outcome) {
        match outcome {
            Outcome::Accepted => self.accepted += 1,
            Outcome::Refused(reason) => *self.refusals.entry(reason).or_default() += 1,
            Outcome::Failed => self.failed += 1,
            Outcome::Skipped => self.skipped += 1,
        }
    }

    pub fn told(&self, json: bool) -> Vec<u8> {
        let refused: u64 = self.refusals.values().sum();
        let files = self.accepted + refused + self.failed;
        if json {
            let refusals = self
                .refusals
                .iter()
                .fold(Object::new(), |object, (reason, &count)| object.number(&reason.number().to_string(), count));
            let counts = Object::new().number("files", files).number("accepted", self.accepted).number("refused", refused);
            let counts = counts.number("failed", self.failed).number("skipped", self.skipped).object("refusals", refusals);
            return Object::new().object("summary", counts).line();
        }
        let noun = if files == 1 { "file" } else { "files" };
        let mut text = format!("{files} {noun}: {} accepted, {refused} refused, {} failed", self.accepted, self.failed);
        if self.skipped > 0 {
            let _ = write!(text, "; {} skipped", self.skipped);
        }
        text.push('\n');
        for (reason, count) in &self.refusals {
            let _ = writeln!(text, "no {}: {}: {count}", reason.number(), reason.word());
        }
        text.into_bytes()
    }
}
