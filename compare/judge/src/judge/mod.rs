//! The judge: runs call scripts on the real crate and writes its answers in one canonical form.

pub mod answers;
pub mod audit;
pub mod bench;
pub mod beyond;
pub mod canon;
pub mod compare;
pub mod config;
pub mod driver;
pub mod end;
pub mod firm;
pub mod gen;
pub mod marks;
pub mod nonces;
pub mod reader;
pub mod record;
pub mod refusals;
pub mod rng;
pub mod sample;
pub mod show;
pub mod snapshot;
pub mod socket;
pub mod tally;
#[cfg(test)]
mod tests;
pub mod value;
pub mod watcher;

use std::io::{Read, Write};
use std::{env, fs, process};

use gen::Plan;
use record::Mode;
use tally::Tally;

const USAGE: &str = "\
judge run < SCRIPT > ANSWERS            run a script on the crate
judge gen SEED|NAME > SCRIPT            write the script of a seed, or the one of this name (whole answers)
judge compare DIR                       run DIR's scripts and hold them against its answers
judge find DIR                          the first difference alone; fails if there is none
judge sample DIR                        write the stored sample
judge show SCRIPT [ANSWERS]             both as text (without ANSWERS: the crate's, whole)
judge beyond                            what the crate does where the rules refuse or differ
judge bench ITEM COUNT                  repeat an item: nanoseconds of one, and a sum
judge check FIRST COUNT [DIR]           generate COUNT scripts, check and count; write them to DIR";

pub fn main() {
    audit::note_panics();
    let arguments: Vec<String> = env::args().skip(1).collect();
    let words: Vec<&str> = arguments.iter().map(String::as_str).collect();
    let outcome = std::panic::catch_unwind(|| match words[..] {
        ["run"] => run(),
        ["gen", which] => gen(which),
        ["compare", dir] => compare::folder(dir),
        ["find", dir] => compare::find(dir),
        ["sample", dir] => sample::write(dir),
        ["show", script] => show::text(script, None),
        ["show", script, answers] => show::text(script, Some(answers)),
        ["beyond"] => beyond::print(),
        ["bench", item, count] => bench::run(item, number(count) as u32),
        ["check", first, count] => check(number(first), number(count), None),
        ["check", first, count, dir] => check(number(first), number(count), Some(dir)),
        _ => Err(USAGE.to_owned()),
    });
    match outcome {
        Ok(Ok(())) => (),
        Ok(Err(text)) => fail(&text),
        Err(_) => fail(&format!("stopped: {}", audit::last_panic())),
    }
}

fn fail(text: &str) -> ! {
    eprintln!("{text}");
    process::exit(1);
}

fn number(text: &str) -> u64 {
    text.parse().unwrap_or_else(|_| fail(USAGE))
}

fn write_out(bytes: &[u8]) -> Result<(), String> {
    std::io::stdout().write_all(bytes).map_err(|e| e.to_string())
}

fn run() -> Result<(), String> {
    let mut script = Vec::new();
    std::io::stdin().read_to_end(&mut script).map_err(|e| e.to_string())?;
    let (answers, _) = answers::run(&script)?;
    write_out(&answers)
}

fn gen(which: &str) -> Result<(), String> {
    let plan = match which.parse() {
        Ok(seed) => Plan::of_seed(seed),
        Err(_) => Plan::named(which).ok_or(format!("{which} is no seed and no script's name"))?,
    };
    let (script, _) = plan.generate(Mode::Whole, &mut Tally::default());
    write_out(&script)
}

/// Generates, counts, and fails where a row that can be met was not.
fn check(first: u64, count: u64, dir: Option<&str>) -> Result<(), String> {
    let mut tally = Tally::default();
    for seed in first..first + count {
        let plan = Plan::of_seed(seed);
        let (script, answers) = plan.generate(Mode::Digest, &mut tally);
        let name = plan.name();
        let (again, _) = answers::run(&script)?;
        if again != answers {
            return Err(format!("seed {seed} ({name}): a second run differs"));
        }
        if let Some(dir) = dir {
            let write = |suffix: &str, bytes: &[u8]| {
                fs::write(format!("{dir}/{name}.{suffix}"), bytes).map_err(|e| e.to_string())
            };
            write("script", &script)?;
            write("answers", &answers)?;
        }
    }
    tally.print();
    let places = audit::overflow_places();
    if !places.is_empty() {
        println!("\nwhere the crate overflows (calls that are refused by 6, tried on a copy)");
        for (place, count) in places {
            println!("  {count:>8}  {place}");
        }
    }
    let missing = tally.missing();
    if !missing.is_empty() {
        return Err(format!("\nnever met:\n  {}", missing.join("\n  ")));
    }
    let rare = tally.rare_pairs();
    if !rare.is_empty() {
        return Err(format!("\nmet less often than 100 times in 1000 scripts:\n  {}", rare.join("\n  ")));
    }
    if !tally.half_changes() {
        return Err("fewer than half of the calls are unrefused and change state".to_owned());
    }
    println!("\nevery row was met, each pair at least 100 times in 1000 scripts; at least half of the calls are unrefused and change state");
    Ok(())
}
