//! The ledger of a run: it has both sides answer each call, keeps the first difference, and
//! counts the outcomes.

use std::collections::BTreeMap;
use std::fmt::Debug;

use crate::calls::Call;

/// What a run has seen so far.
#[derive(Default)]
pub struct Ledger {
    /// The round under way, from which it can be run again.
    pub seed: u64,
    /// How many calls were compared, for each thing tested.
    compared: BTreeMap<&'static str, u64>,
    pub difference: Option<String>,
    pub seen: BTreeMap<String, u64>,
}

impl Ledger {
    /// Counts an outcome.
    pub fn note(&mut self, outcome: impl Into<String>) {
        *self.seen.entry(outcome.into()).or_insert(0) += 1;
    }

    /// How many calls of the thing tested were compared.
    pub fn compared(&self, tested: &str) -> u64 {
        self.compared.get(tested).copied().unwrap_or(0)
    }

    /// Has both sides answer, compares all of both answers, and gives the answer.
    pub fn compare<C: Call>(&mut self, kind: &str, call: &C) -> C::Answer {
        let count = self.compared.entry(C::TESTED).or_insert(0);
        *count += 1;
        let patient = count.is_multiple_of(8);
        let answer = call.by_reference();
        let (given, damage) = call.under_test();
        if given != answer {
            self.differ(
                kind,
                call,
                "the answers differ",
                (C::TESTED, &given),
                &answer,
            );
        }
        if !damage.is_empty() {
            let what = format!("changed: {damage:?}");
            self.differ(kind, call, &what, (C::TESTED, &given), &answer);
        }
        if let Some(searched) = call.second_way(patient) {
            if searched != answer {
                let searched = ("search", &searched);
                self.differ(kind, call, "the search differs", searched, &answer);
            }
            if C::number(&answer) == Some(0) {
                self.note(format!("{}: done, compared with the search too", C::NAME));
            }
        }
        if let Some(number) = C::number(&answer) {
            self.note(format!("{}: {}", C::NAME, number));
        }
        answer
    }

    /// Keeps a difference if the condition fails. It is about the answer of both sides, since
    /// another answer of the tested one is a difference already.
    pub fn demand<C: Call>(
        &mut self,
        holds: bool,
        kind: &str,
        call: &C,
        what: &str,
        answer: &C::Answer,
    ) {
        if !holds {
            let given = call.under_test().0;
            self.differ(kind, call, what, (C::TESTED, &given), answer);
        }
    }

    fn differ<C: Debug, A: Debug>(
        &mut self,
        kind: &str,
        call: &C,
        what: &str,
        other: (&str, &A),
        answer: &A,
    ) {
        let seed = self.seed;
        let (name, given) = other;
        self.difference.get_or_insert_with(|| {
            format!(
                "DIFFERENCE in round {seed}, {kind}: {what}\ncall: {call:?}\n\
                 {name}: {given:?}\nreference: {answer:?}"
            )
        });
    }
}
