//! Runs of the replay program: a table counted by hand, and generated texts held against the model.

mod generated;
mod process;
mod table;

use std::collections::BTreeMap;
use std::io;

use crate::calls::Counts;
use crate::program::{self, five_lines};
use crate::random::Random;

/// The seed when none is given.
const DEFAULT_SEED: u64 = 20_261_115;

/// The generated texts when no number is given.
const DEFAULT_TEXTS: usize = 3_000;

/// In how many pieces a text of the table comes to the program: whole, and as through a slow pipe.
const PIECES: [usize; 2] = [1, 3];

/// How many differences are told in full.
const TOLD: usize = 20;

/// How many bytes of a text are told.
const SHOWN: usize = 200;

/// What the arguments ask for.
pub struct Plan {
    pub program: String,
    texts: usize,
    seed: u64,
}

impl Plan {
    /// The plan that the arguments name, if they name one.
    pub fn from_arguments(arguments: &[String]) -> Option<Plan> {
        let (program, options) = arguments.split_first()?;
        let mut plan = Plan {
            program: program.clone(),
            texts: DEFAULT_TEXTS,
            seed: DEFAULT_SEED,
        };
        let mut rest = options.iter();
        while let Some(name) = rest.next() {
            match name.as_str() {
                "--texts" => plan.texts = rest.next()?.parse().ok()?,
                "--seed" => plan.seed = rest.next()?.parse().ok()?,
                _ => return None,
            }
        }
        Some(plan)
    }
}

/// The runs made and the differences found.
#[derive(Default)]
struct Tally {
    runs: u64,
    differences: usize,
    /// How often the program wrote which first line.
    first_lines: BTreeMap<String, u64>,
}

impl Tally {
    /// Counts a run and tells where what the program wrote differs from what is expected.
    fn compare(&mut self, what: &str, text: &[u8], written: &[u8], expected: &str) {
        let written = String::from_utf8_lossy(written).into_owned();
        let first = written.lines().next().unwrap_or("nothing").to_string();
        self.runs += 1;
        *self.first_lines.entry(first).or_default() += 1;
        if written != expected {
            self.differences += 1;
            if self.differences <= TOLD {
                println!("  {what}: saw {written:?}, expected {expected:?}");
                println!("    on {:?}", shown(text));
            }
        }
    }

    /// Prints how often the program wrote which first line, and the verdict.
    fn print(&self) {
        for (line, runs) in &self.first_lines {
            println!("{line}: {runs} runs");
        }
        println!(
            "{} program runs, {} differences",
            self.runs, self.differences
        );
    }
}

/// The beginning of a text.
fn shown(text: &[u8]) -> String {
    let beginning = String::from_utf8_lossy(&text[..text.len().min(SHOWN)]);
    if text.len() > SHOWN {
        format!("{beginning}.. ({} bytes)", text.len())
    } else {
        beginning.into_owned()
    }
}

/// Makes all runs, prints each difference and the verdict, and says whether there was none.
pub fn run(plan: &Plan) -> io::Result<bool> {
    let mut tally = Tally::default();
    run_table(plan, &mut tally)?;
    println!("{} runs counted by hand", tally.runs);
    run_generated(plan, &mut tally)?;
    tally.print();
    Ok(tally.differences == 0)
}

/// Runs the program on every text of the table.
fn run_table(plan: &Plan, tally: &mut Tally) -> io::Result<()> {
    for row in table::rows() {
        let [refused, line, hits, loads, swaps] = row.numbers;
        let expected = five_lines(refused, line, Counts { hits, loads, swaps });
        for pieces in PIECES {
            let written = process::output(&plan.program, &row.text, pieces)?;
            tally.compare(&row.what, &row.text, &written, &expected);
        }
    }
    Ok(())
}

/// Runs the program on generated texts.
fn run_generated(plan: &Plan, tally: &mut Tally) -> io::Result<()> {
    let mut random = Random::new(plan.seed);
    for _ in 0..plan.texts {
        let (what, text) = generated::text(&mut random);
        let written = process::output(&plan.program, &text, 1)?;
        tally.compare(what, &text, &written, &program::run(&text));
    }
    Ok(())
}
