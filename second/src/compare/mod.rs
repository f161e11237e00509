//! The comparison of the static library with the model: what every function for C returns, every lent word afterwards, and the memory around.

mod apart;
mod asking;
mod bench;
mod call;
mod curves;
mod directories;
mod expected;
mod forming;
mod lent;
mod library;
mod orders;
mod requests;
mod shapes;
mod side;
mod slips;
mod stock;
mod texts;

use crate::command::fail;
use crate::random::Random;
use bench::Bench;
use slips::{Slip, SLIPS};

/// The seed when none is given.
const DEFAULT_SEED: u64 = 20_261_115;

/// One part of the comparison, and the calls that it compares.
type Part = (fn(&mut Bench, &mut Random, usize), &'static [&'static str]);

/// All parts.
const PARTS: &[Part] = &[
    (forming::run, &["pd_words", "pd_form"]),
    (directories::run, &["pd_audit", "pd_look", "pd_report"]),
    (curves::run, &["pd_curve"]),
    (texts::run, &["pd_read", "pd_write"]),
    (requests::run, &["pd_request", "pd_replay"]),
];

/// What the arguments ask for.
pub struct Plan {
    seed: u64,
    scale: usize,
    /// Whether the first difference ends the comparison.
    stops: bool,
    /// The call whose parts alone are run.
    call: Option<&'static str>,
    work: Work,
}

/// Whether the model is as it is, has one slip, or each slip in turn.
enum Work {
    Plain,
    OneSlip(usize),
    AllSlips,
}

impl Plan {
    /// The plan that the arguments name, if they name one.
    pub fn from_arguments(arguments: &[String]) -> Option<Plan> {
        let mut plan = Plan {
            seed: DEFAULT_SEED,
            scale: 1,
            stops: false,
            call: None,
            work: Work::Plain,
        };
        let mut rest = arguments.iter();
        while let Some(name) = rest.next() {
            match name.as_str() {
                "--seed" => plan.seed = rest.next()?.parse().ok()?,
                "--scale" => plan.scale = rest.next()?.parse().ok()?,
                "--stop" => plan.stops = true,
                "--call" => plan.call = Some(compared_call(rest.next()?)?),
                "--slip" => plan.work = Work::OneSlip(rest.next()?.parse().ok()?),
                "--slips" => plan.work = Work::AllSlips,
                _ => return None,
            }
        }
        Some(plan)
    }

    /// Whether one of the calls is to be compared.
    fn covers(&self, calls: &[&str]) -> bool {
        self.call.map_or(true, |call| calls.contains(&call))
    }
}

/// The call of that name, if a part compares it.
fn compared_call(name: &str) -> Option<&'static str> {
    let mut calls = PARTS.iter().flat_map(|(_, calls)| calls.iter().copied());
    calls.find(|call| *call == name)
}

/// Runs the plan and says whether nothing is amiss.
pub fn run(plan: &Plan) -> bool {
    match plan.work {
        Work::Plain => compare_all(plan, None),
        Work::OneSlip(number) => match SLIPS.get(number.wrapping_sub(1)) {
            Some(slip) => compare_all(plan, Some(slip)),
            None => fail(&format!("slips are numbered 1 to {}", SLIPS.len())),
        },
        Work::AllSlips => catch_all(plan),
    }
}

/// Runs every part, prints the counts, and says whether there was no difference.
fn compare_all(plan: &Plan, slip: Option<&'static Slip>) -> bool {
    let mut bench = Bench::new(slip, plan.stops);
    run_parts(plan, &mut bench, |calls| plan.covers(calls));
    bench.print();
    bench.passed()
}

/// Runs the parts that compare a chosen call, each from its own random numbers.
fn run_parts(plan: &Plan, bench: &mut Bench, chosen: impl Fn(&[&str]) -> bool) {
    for (number, (part, calls)) in PARTS.iter().enumerate() {
        if chosen(calls) {
            let mut random = Random::new(plan.seed.wrapping_add(number as u64));
            part(bench, &mut random, plan.scale);
        }
    }
}

/// Plants each slip in turn, prints what caught it, and says whether all were caught.
fn catch_all(plan: &Plan) -> bool {
    let mut missed = 0;
    let mut planted = 0;
    for (index, slip) in SLIPS.iter().enumerate() {
        if compared_call(slip.call).is_none() {
            continue;
        }
        planted += 1;
        let mut bench = Bench::new(Some(slip), true);
        run_parts(plan, &mut bench, |calls| calls.contains(&slip.call));
        let caught = bench.first_difference();
        missed += usize::from(caught.is_none());
        println!(
            "slip {} ({}: {}): {}",
            index + 1,
            slip.call,
            slip.what,
            caught.unwrap_or("NOT CAUGHT")
        );
    }
    println!("{planted} slips planted, {missed} not caught");
    missed == 0
}
