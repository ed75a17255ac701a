//! Counts of calls by their outcome.
use std::collections::BTreeMap;

use crate::check::by_definition;
use crate::record::{Answer, Call};

/// The call's word, its number, and whether a message was built.
type Outcome = (&'static str, u8, bool);

#[derive(Default)]
pub struct Counts {
    /// What the Rust answered.
    answered: BTreeMap<Outcome, u64>,
    /// What is refused before the Rust is asked, which has no such refusal: by 9, and by 2 to 6 at creation.
    defined: BTreeMap<Outcome, u64>,
}

impl Counts {
    pub fn add(&mut self, call: &Call, answer: &Answer) {
        let built = matches!(answer, Answer::Polled(polled) if polled.length > 0);
        let counts = if by_definition(call, answer) { &mut self.defined } else { &mut self.answered };
        *counts.entry((call.word(), answer.number(), built)).or_default() += 1;
    }

    pub fn merge(&mut self, other: Counts) {
        for (to, from) in [(&mut self.answered, other.answered), (&mut self.defined, other.defined)] {
            for (outcome, count) in from {
                *to.entry(outcome).or_default() += count;
            }
        }
    }

    pub fn print(&self) {
        print("calls by outcome, as the Rust answered:", &self.answered);
        print("refused by definition, 9 of any call and 2 to 6 of `new`, which the Rust does not have:", &self.defined);
    }
}

fn print(title: &str, counts: &BTreeMap<Outcome, u64>) {
    if counts.is_empty() {
        return;
    }
    println!("{title}");
    for ((word, number, built), count) in counts {
        let message = match (*word, *number) {
            ("poll", 0) if *built => ", a message",
            ("poll", 0) => ", no message",
            _ => "",
        };
        println!("  {word} {number}{message}: {count}");
    }
    println!("  {} in all", counts.values().sum::<u64>());
}
