//! The stored sample: few scripts, chosen so that together they meet every row, and the bouts
//! with whole states.

use std::collections::BTreeSet;
use std::fs;

use super::answers;
use super::gen::{self, bouts, Plan};
use super::record::Mode;
use super::tally::{required, Tally};

/// Seeds among which the sample is chosen.
const SEEDS: u64 = 540;

struct Candidate {
    plan: Plan,
    script: Vec<u8>,
    answers: Vec<u8>,
    met: BTreeSet<String>,
}

fn candidate(seed: u64) -> Candidate {
    let mut tally = Tally::default();
    let plan = Plan::of_seed(seed);
    let (script, answers) = plan.generate(Mode::Digest, &mut tally);
    Candidate { plan, script, answers, met: tally.met() }
}

/// Scenarios of which the sample has one script each, the shortest.
const DIRECTED: [&str; 16] = [
    "phases",
    "inputs",
    "chaos-late",
    "thresholds",
    "advantages",
    "nonces",
    "pending",
    "events",
    "checksums",
    "buffers",
    "clocks",
    "watch-limits",
    "setups",
    "damage",
    "pairs",
    "firm",
];

/// Scenarios that no row asks for, but that a reader expects in a sample: of a handy length.
const HONEST: [&str; 3] = ["honest", "honest-loss", "watch"];

/// Takes the script of this scenario whose length is nearest to `length`.
fn take(from: &mut Vec<Candidate>, name: &str, length: usize) -> Option<Candidate> {
    let named = (0..from.len()).filter(|at| from[*at].plan.scenario == name);
    let best = named.min_by_key(|at| from[*at].script.len().abs_diff(length))?;
    Some(from.remove(best))
}

/// Directed and honest scripts; then, for rows still open, whichever script brings most new rows
/// for its size.
fn choose(mut from: Vec<Candidate>) -> Vec<Candidate> {
    let mut chosen = Vec::new();
    for name in DIRECTED {
        chosen.extend(take(&mut from, name, 0));
    }
    for name in HONEST {
        chosen.extend(take(&mut from, name, 18_000));
    }
    let mut open: BTreeSet<String> = required().into_iter().collect();
    open.retain(|row| !chosen.iter().any(|c: &Candidate| c.met.contains(row)));
    while !open.is_empty() {
        let worth = |c: &Candidate| {
            let new = c.met.intersection(&open).count() as u64;
            new * 1_000_000 / c.script.len() as u64
        };
        let Some(best) = (0..from.len()).max_by_key(|at| worth(&from[*at])) else { break };
        if worth(&from[best]) == 0 {
            break;
        }
        let best = from.remove(best);
        open.retain(|row| !best.met.contains(row));
        chosen.push(best);
    }
    chosen.sort_by_key(|c| c.plan.name());
    chosen
}

pub fn write(dir: &str) -> Result<(), String> {
    fs::create_dir_all(dir).map_err(|e| e.to_string())?;
    let chosen = choose((0..SEEDS).map(candidate).collect());
    let mut tally = Tally::default();
    let mut bytes = 0;
    for c in &chosen {
        let (script, answers) = c.plan.generate(Mode::Digest, &mut tally);
        assert!(script == c.script && answers == c.answers, "a plan gives one script");
        bytes += store(dir, &c.plan.name(), &script, &answers)?;
    }
    let (script, answers) = gen::scripted(bouts::all, 21, Mode::Whole, &mut tally);
    bytes += store(dir, "bouts-whole", &script, &answers)?;
    tally.print();
    let missing = tally.missing();
    println!("\nsample: {} scripts, {bytes} bytes", chosen.len() + 1);
    if missing.is_empty() {
        println!("every row was met");
        return Ok(());
    }
    Err(format!("the sample misses:\n  {}", missing.join("\n  ")))
}

fn store(dir: &str, name: &str, script: &[u8], given: &[u8]) -> Result<usize, String> {
    let (again, _) = answers::run(script)?;
    assert!(again == given, "a second run gives the same");
    for (suffix, bytes) in [("script", script), ("answers", given)] {
        fs::write(format!("{dir}/{name}.{suffix}"), bytes).map_err(|e| e.to_string())?;
    }
    Ok(script.len() + given.len())
}
