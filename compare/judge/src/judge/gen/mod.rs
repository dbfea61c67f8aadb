//! The generator: the table of scenarios, and which script a seed and a name stand for.

// What scenarios are written with.
pub mod arbitrary;
pub mod good_setups;
pub mod message;
pub mod moves;
pub mod net;
pub mod script;

// The scenarios, a file per theme. None of them uses another.
pub mod bouts;
pub mod chaos;
pub mod damage;
pub mod firm;
pub mod honest;
pub mod inputs;
pub mod limits;
pub mod pairs;
pub mod phases;
pub mod setups;
pub mod watch;

use super::record::{Call, Mode, Record, SPECTATOR};
use super::tally::Tally;
use script::{Gen, A, B};

type Scenario = (&'static str, fn(&mut Gen));

/// The scenarios, in the order that seeds walk through. A new one goes to the end.
const SCENARIOS: [Scenario; 27] = [
    ("honest", honest::calm),
    ("honest-loss", honest::harsh),
    ("chaos", chaos::lives),
    ("watch", watch::honest),
    ("chaos-late", chaos::late_frames),
    ("nonces", limits::nonces),
    ("chaos-stingy", chaos::stingy),
    ("watch-chaos", watch::chaos),
    ("pending", limits::pending),
    ("pairs", pairs::all),
    ("events", limits::events),
    ("honest-loss", honest::harsh),
    ("checksums", limits::checksums),
    ("chaos", chaos::lives),
    ("buffers", limits::buffers),
    ("watch", watch::honest),
    ("clocks", limits::clocks),
    ("thresholds", limits::thresholds),
    ("advantages", limits::advantages),
    ("watch-limits", watch::limits),
    ("setups", setups::edges),
    ("inputs", inputs::rows),
    ("phases", phases::walk),
    ("damage", damage::datagrams),
    ("chaos-late", chaos::late_frames),
    ("bouts", bouts::all),
    ("firm", firm::reports),
];

/// From a row's script to the same row's next the number goes up by this: as many rows the table had when the first scripts
/// were stored. It stays as it is, whatever the table's length.
const STRIDE: u64 = 26;

/// What a script is made of: a scenario, and the number that its pseudo-random numbers come from.
#[derive(Copy, Clone)]
pub(crate) struct Plan {
    pub number: u64,
    pub scenario: &'static str,
    run: fn(&mut Gen),
}

impl Plan {
    /// Seeds walk through the table, round after round. The number depends on round and row alone: so a new row gives
    /// other seeds to the scripts of the rows before it, and leaves the scripts themselves as they are.
    pub fn of_seed(seed: u64) -> Self {
        let rows = SCENARIOS.len() as u64;
        let (round, row) = (seed / rows, seed % rows);
        let (scenario, run) = SCENARIOS[row as usize];
        Self { number: STRIDE * round + row, scenario, run }
    }

    /// The script that has this name.
    pub fn named(name: &str) -> Option<Self> {
        let (number, wanted) = name.split_once('-')?;
        let (scenario, run) = SCENARIOS.into_iter().find(|(scenario, _)| *scenario == wanted)?;
        Some(Self { number: number.parse().ok()?, scenario, run })
    }

    /// It stays the same when the table gets a new row.
    pub fn name(&self) -> String {
        format!("{:03}-{}", self.number, self.scenario)
    }

    /// The script, and the crate's answers.
    pub fn generate(&self, mode: Mode, tally: &mut Tally) -> (Vec<u8>, Vec<u8>) {
        scripted(self.run, self.number, mode, tally)
    }
}

pub(crate) fn scripted(
    scenario: fn(&mut Gen),
    number: u64,
    mode: Mode,
    tally: &mut Tally,
) -> (Vec<u8>, Vec<u8>) {
    tally.scripts += 1;
    let mut gen = Gen::new(number, mode, tally);
    scenario(&mut gen);
    for object in [A, B, SPECTATOR] {
        let r = Record::new(Call::Buffer, object);
        gen.issue(r);
    }
    (gen.script, gen.answers)
}
