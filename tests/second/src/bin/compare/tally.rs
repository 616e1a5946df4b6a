//! Inputs given to both, counted, and their differences.
use crate::calls::{library, second};
use crate::draft::Sort;
use crate::input::{Input, Seen, CALLS};

const MOST_SHOWN: usize = 10;

/// Why a number was given, where it has other reasons too (document 02, sections 6 and 7).
#[derive(Clone, Copy, PartialEq)]
pub enum Reason {
    Step,
    StepText,
    RangeBeforeStep,
    ActionOffStep,
    SheetRead,
    SheetWritten,
    /// A step code of 12 to 15 in a type 1 property of this sort.
    Code(Sort),
    /// 15 for a request of this op.
    NoNode(u8),
    /// 15 that tells this length.
    Missing(u8),
    /// 16 for a request of this op.
    NoProperty(u8),
    /// 16 for a reading.
    NoPlace,
    /// 11 for data of no shape whose path no node has.
    ShapeFirst,
}

/// Those that are not counted by op or by length.
const REASONS: [(Reason, &str); 13] = [
    (Reason::Step, "13 for the step, op 4"),
    (Reason::StepText, "13 with the text Step, op 5"),
    (Reason::RangeBeforeStep, "13 with the text Range, off the step too"),
    (Reason::ActionOffStep, "0 for an action, off the step"),
    (Reason::SheetRead, "18 for the step, a sheet read"),
    (Reason::SheetWritten, "18 for the step, a sheet written"),
    (Reason::Code(Sort::Live), "1 for the step code of a live property"),
    (Reason::Code(Sort::Setting), "1 for the step code of a setting"),
    (Reason::Code(Sort::Action), "1 for the step code of an action"),
    (Reason::Code(Sort::ReadOnly), "1 for the step code of a property with read alone"),
    (Reason::Code(Sort::Neither), "1 for the step code of a property without read and write"),
    (Reason::NoPlace, "16 for a reading of no property"),
    (Reason::ShapeFirst, "11 for the shape, a path that no node has"),
];

/// Every reason that must have been met, with what is told of it.
fn reasons() -> Vec<(Reason, String)> {
    let mut reasons: Vec<(Reason, String)> = REASONS.map(|(reason, what)| (reason, what.to_string())).to_vec();
    reasons.extend((1..=5).map(|op| (Reason::NoNode(op), format!("15 by op {op}"))));
    reasons.extend((2..=5).map(|op| (Reason::NoProperty(op), format!("16 by op {op}"))));
    reasons.extend((1..=16).map(|len| (Reason::Missing(len), format!("15 with length {len}"))));
    reasons
}

pub struct Tally {
    /// How often each number was met, for each call.
    met: Vec<[u64; 256]>,
    /// The reasons that must be met, and how often each one was.
    reasons: Vec<(Reason, String)>,
    counts: Vec<u64>,
    differences: usize,
    /// Sentences that did not hold, apart from the comparison.
    broken: usize,
}

impl Tally {
    pub fn new() -> Tally {
        let reasons = reasons();
        let counts = vec![0; reasons.len()];
        Tally { met: vec![[0; 256]; CALLS.len()], reasons, counts, differences: 0, broken: 0 }
    }

    /// Gives an input to both and compares all they made of it; the library's is handed back.
    pub fn compare(&mut self, input: &Input) -> Seen {
        let ours = library(input);
        let seconds = second(input);
        self.met[input.call as usize][usize::from(seconds.number)] += 1;
        if ours != seconds {
            self.differences += 1;
            if self.differences <= MOST_SHOWN {
                println!("DIFFERENCE {}", input.show());
                println!("  library / second: {}", ours.differs(&seconds));
            }
        }
        ours
    }

    /// A sentence that must hold whatever the comparison says.
    pub fn expect(&mut self, holds: bool, what: &str, input: &Input) {
        if !holds {
            self.broken += 1;
            if self.broken <= MOST_SHOWN {
                println!("NOT SO: {what}: {}", input.show());
            }
        }
    }

    /// An input whose number was given for this reason.
    pub fn meet(&mut self, reason: Option<Reason>) {
        let place = self.reasons.iter().position(|(other, _)| Some(*other) == reason);
        place.into_iter().for_each(|place| self.counts[place] += 1);
    }

    /// Prints the counts of the reasons; how many were never met.
    fn report_reasons(&self) -> usize {
        for ((_, what), count) in self.reasons.iter().zip(&self.counts) {
            println!("{what}: {count} inputs{}", if *count == 0 { ", which was never met" } else { "" });
        }
        self.counts.iter().filter(|count| **count == 0).count()
    }

    /// Prints the counts; whether all was well.
    pub fn report(&self) -> bool {
        let mut inputs = 0;
        let mut unmet = 0;
        for (call, name, numbers) in CALLS {
            let met = &self.met[call as usize];
            let total: u64 = met.iter().sum();
            inputs += total;
            let counts: Vec<String> =
                (0..256).filter(|number| met[*number] > 0).map(|number| format!("{number}:{}", met[number])).collect();
            println!("{name}: {total} inputs; {}", counts.join(" "));
            for number in numbers.iter().filter(|number| met[usize::from(**number)] == 0) {
                println!("  number {number} was never met");
                unmet += 1;
            }
        }
        unmet += self.report_reasons();
        if unmet > 0 || self.broken > 0 {
            println!("{unmet} numbers or reasons never met, {} sentences that do not hold", self.broken);
        }
        println!("compare: {inputs} inputs, {} differences", self.differences);
        self.differences == 0 && unmet == 0 && self.broken == 0
    }
}
