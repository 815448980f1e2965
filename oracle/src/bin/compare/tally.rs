//! What came of the inputs of one operation, stage by stage.

use std::collections::BTreeMap;
use std::fmt::Display;

#[derive(Debug)]
pub enum Verdict {
    /// Both accept, with equal answers.
    Accepted,
    /// Both refuse, ours with this number, which is document 01's for what the Rust says.
    Refused(u32),
    /// The documents do not ask the two to meet here, for this reason; ours does as they say.
    Outside(&'static str),
    /// They differ, or ours differs from the documents where the Rust is no judge: what each says.
    Different(String),
}

pub struct Tally {
    pub operation: &'static str,
    /// What the inputs are made of.
    pub seed: u64,
    stages: Vec<Stage>,
    /// Those that both refuse, by their number.
    pub refused: BTreeMap<u32, u64>,
    /// Those outside the meeting, by their reason.
    pub outside: BTreeMap<&'static str, u64>,
    pub different: u64,
}

/// How many inputs of a stage have to come out so: a comparison of nothing is none.
pub struct Asked {
    pub accepted: u64,
    pub refused: u64,
    pub outside: u64,
}

struct Stage {
    name: &'static str,
    asked: Asked,
    accepted: u64,
    refused: u64,
    outside: u64,
}

/// Further differences are counted and not printed.
const DIFFERENCES_SHOWN: u64 = 20;

impl Tally {
    pub fn new(operation: &'static str, seed: u64) -> Self {
        let (refused, outside) = (BTreeMap::new(), BTreeMap::new());
        Self { operation, seed, stages: Vec::new(), refused, outside, different: 0 }
    }

    /// What is counted from here on is of this stage, in which both have to accept `required` inputs and to refuse as
    /// many.
    pub fn stage(&mut self, name: &'static str, required: u64) {
        self.stage_asking(name, Asked { accepted: required, refused: required, outside: 0 });
    }

    pub fn stage_asking(&mut self, name: &'static str, asked: Asked) {
        self.stages.push(Stage { name, asked, accepted: 0, refused: 0, outside: 0 });
    }

    pub fn count(&mut self, input: &impl Display, verdict: Verdict) {
        let stage = self.stages.last_mut().expect("a stage comes first");
        match verdict {
            Verdict::Accepted => stage.accepted += 1,
            Verdict::Refused(number) => {
                stage.refused += 1;
                *self.refused.entry(number).or_default() += 1;
            }
            Verdict::Outside(reason) => {
                stage.outside += 1;
                *self.outside.entry(reason).or_default() += 1;
            }
            Verdict::Different(what) => {
                self.different += 1;
                if self.different <= DIFFERENCES_SHOWN {
                    println!("DIFFERENT: compare {input}\n  {what}");
                }
            }
        }
    }

    /// Those that both accept.
    pub fn accepted(&self) -> u64 {
        self.stages.iter().map(|stage| stage.accepted).sum()
    }

    /// Prints the table, and answers whether all is well.
    pub fn report(&self) -> bool {
        println!("{:<32}{:>12}{:>12}{:>12}", self.operation, "accepted", "refused", "outside");
        let mut enough = true;
        for stage in &self.stages {
            let Stage { name, asked, accepted, refused, outside } = stage;
            println!("  {name:<30}{accepted:>12}{refused:>12}{outside:>12}");
            if *accepted < asked.accepted || *refused < asked.refused || *outside < asked.outside {
                let Asked { accepted, refused, outside } = asked;
                println!("  TOO FEW: {accepted} accepted, {refused} refused and {outside} outside are asked for");
                enough = false;
            }
        }
        for (number, count) in &self.refused {
            println!("  refused with {number}: {count}");
        }
        for (reason, count) in &self.outside {
            println!("  outside, {reason}: {count}");
        }
        println!("  different: {}", self.different);
        enough && self.different == 0
    }
}
