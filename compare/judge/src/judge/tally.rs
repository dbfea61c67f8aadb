//! Counts what a run of scripts met: per call, phase and kind, refusal, pair of faults, event and mark.

use std::collections::{BTreeMap, BTreeSet};

use super::driver::{Done, PANICKED};
use super::marks;
use super::record::{Call, Record, CALLS, SPECTATOR};
use super::refusals::Verdict;
use super::snapshot::{Phase, Snapshot};
use super::value::{kind, KINDS};
use crate::network::protocol::Event;
use crate::GgrsEvent;

pub const EVENTS: [&str; 6] =
    ["Synchronizing", "Synchronized", "Input", "Disconnected", "NetworkInterrupted", "NetworkResumed"];

const PHASES: [Phase; 5] =
    [Phase::Initializing, Phase::Synchronizing, Phase::Running, Phase::Disconnected, Phase::Shutdown];

/// A call that meets two tests at once: whether it is a session's, the call, the test that gives the answer, and one
/// that comes behind it.
type Pair = (bool, Call, Verdict, Verdict);

#[derive(Default)]
pub struct Tally {
    pub scripts: u64,
    calls: BTreeMap<(bool, Call), u64>,
    answers: BTreeMap<(bool, Call, u8), u64>,
    pairs: BTreeMap<Pair, u64>,
    kinds: BTreeMap<(bool, Phase, u32), u64>,
    events: BTreeMap<(bool, usize), u64>,
    session_events: BTreeMap<usize, u64>,
    marks: BTreeMap<&'static str, u64>,
    sizes: BTreeMap<(usize, usize), u64>,
    unrefused_and_changed: u64,
    pub panics: u64,
}

impl Tally {
    pub(crate) fn call(&mut self, r: &Record, done: &Done) {
        let watching = r.object == SPECTATOR;
        *self.calls.entry((watching, r.call)).or_default() += 1;
        *self.answers.entry((watching, r.call, done.answer)).or_default() += 1;
        for other in done.tested.0.iter().skip(1) {
            *self.pairs.entry((watching, r.call, done.verdict, *other)).or_default() += 1;
        }
        self.unrefused_and_changed += u64::from(done.answer == 0 && done.changed);
        self.panics += u64::from(done.answer == PANICKED);
    }

    /// A message read, in the phase it met.
    pub(crate) fn message(&mut self, r: &Record, done: &Done, before: &Snapshot) {
        if let Some(message) = &done.message {
            let key = (r.object == SPECTATOR, before.phase, kind(&message.body));
            *self.kinds.entry(key).or_default() += 1;
        }
        *self.sizes.entry((before.input_size, before.num_players)).or_default() += 1;
    }

    pub(crate) fn announced(&mut self, watching: bool, events: &[Event<super::config::Cfg>]) {
        for event in events {
            *self.events.entry((watching, event_number(event))).or_default() += 1;
        }
    }

    pub(crate) fn session_announced(&mut self, event: &GgrsEvent<super::config::Cfg>) {
        *self.session_events.entry(session_event_number(event)).or_default() += 1;
    }

    pub fn mark(&mut self, marks: &marks::Marks) {
        for name in &marks.0 {
            *self.marks.entry(name).or_default() += 1;
        }
    }

    fn total(&self) -> u64 {
        self.calls.values().sum()
    }

    /// Every row that was met, by name.
    pub fn met(&self) -> BTreeSet<String> {
        let mut met = BTreeSet::new();
        for (watching, call, answer) in self.answers.keys() {
            met.insert(answer_row(*watching, *call, *answer));
        }
        met.extend(self.pairs.keys().map(|pair| pair_row(*pair)));
        for (watching, phase, kind) in self.kinds.keys() {
            met.insert(kind_row(*watching, *phase, *kind as usize));
        }
        for (watching, number) in self.events.keys() {
            met.insert(event_row(who(*watching), *number));
        }
        for number in self.session_events.keys() {
            met.insert(event_row("session", *number));
        }
        for (size, players) in self.sizes.keys() {
            met.insert(size_row(*size, *players));
        }
        met.extend(self.marks.keys().map(|name| (*name).to_owned()));
        met
    }

    /// Every row that can be met and was not.
    pub fn missing(&self) -> Vec<String> {
        let met = self.met();
        required().into_iter().filter(|row| !met.contains(row)).collect()
    }

    /// Every pair of tests that is met less often than a hundred times in a thousand scripts, with its count.
    pub fn rare_pairs(&self) -> Vec<String> {
        let counted =
            required_pairs().into_iter().map(|pair| (pair, self.pairs.get(&pair).copied().unwrap_or(0)));
        let rare = counted.filter(|(_, count)| 10 * count < self.scripts);
        rare.map(|(pair, count)| format!("{count:>8}  {}", pair_row(pair))).collect()
    }

    pub fn half_changes(&self) -> bool {
        2 * self.unrefused_and_changed >= self.total()
    }

    pub fn print(&self) {
        println!("scripts {}, calls {}", self.scripts, self.total());
        let percent = 100 * self.unrefused_and_changed / self.total().max(1);
        println!("unrefused and changing state: {} ({percent} %)", self.unrefused_and_changed);
        println!("\ncalls, each with its answers (number: count)");
        for (watching, call) in self.calls.keys() {
            let name = call.name(object(*watching));
            print!("  {:<10} {name:<29} {:>8} ", who(*watching), self.calls[&(*watching, *call)]);
            for ((w, c, answer), count) in &self.answers {
                if (w, c) == (watching, call) {
                    print!(" {answer}: {count}");
                }
            }
            println!();
        }
        self.print_refusals();
        println!("\ncalls that meet two tests at once, by the one that gives the answer and the other");
        for (pair, count) in &self.pairs {
            println!("  {count:>8}  {}", pair_row(*pair));
        }
        self.print_kinds();
        println!("\nevents");
        for ((watching, number), count) in &self.events {
            println!("  {:<10} {:<20} {count:>8}", who(*watching), EVENTS[*number]);
        }
        for (number, count) in &self.session_events {
            println!("  {:<10} {:<20} {count:>8}", "session", EVENTS[*number]);
        }
        println!("\nsetups: {} of 64 pairs of S and players met", self.sizes.len());
        println!("\nrules and their edges (marks)");
        for name in marks::all() {
            println!("  {:>8}  {name}", self.marks.get(name).copied().unwrap_or(0));
        }
    }

    fn print_refusals(&self) {
        let mut numbers: BTreeMap<u8, u64> = BTreeMap::new();
        for ((_, _, answer), count) in &self.answers {
            *numbers.entry(*answer).or_default() += count;
        }
        println!("\nanswers by number");
        for (number, count) in numbers {
            println!("  {number:>3} {count:>8}");
        }
    }

    fn print_kinds(&self) {
        println!("\nmessages by phase and kind (0 to 7)");
        for watching in [false, true] {
            for phase in PHASES {
                let counts: Vec<u64> =
                    (0..8).map(|k| self.kinds.get(&(watching, phase, k)).copied().unwrap_or(0)).collect();
                println!("  {:<10} {:<14} {counts:?}", who(watching), format!("{phase:?}"));
            }
        }
    }
}

fn answer_row(watching: bool, call: Call, answer: u8) -> String {
    format!("{} {} answered {answer}", who(watching), call.name(object(watching)))
}

fn pair_row((watching, call, first, other): Pair) -> String {
    format!("{} {}: {} before {}", who(watching), call.name(object(watching)), word(first), word(other))
}

fn word(verdict: Verdict) -> String {
    match verdict {
        Verdict::Refused(number) => number.to_string(),
        Verdict::Ignored => "ignored".to_owned(),
        Verdict::Go => "done".to_owned(),
    }
}

fn kind_row(watching: bool, phase: Phase, kind: usize) -> String {
    format!("{} {phase:?} met {}", who(watching), KINDS[kind])
}

fn event_row(who: &str, number: usize) -> String {
    format!("{who} announced {}", EVENTS[number])
}

fn size_row(size: usize, players: usize) -> String {
    format!("S {size} with {players} players")
}

/// Every row that can be met.
pub fn required() -> Vec<String> {
    let mut rows = Vec::new();
    for (watching, call, answer) in reachable() {
        rows.push(answer_row(watching, call, answer));
    }
    rows.extend(required_pairs().into_iter().map(pair_row));
    for watching in [false, true] {
        for phase in reachable_phases(watching) {
            rows.extend((0..KINDS.len()).map(|kind| kind_row(watching, *phase, kind)));
        }
        // a poll hands an interruption straight on to the session
        let announced = (0..EVENTS.len()).filter(|n| !(watching && *n == 4));
        rows.extend(announced.map(|n| event_row(who(watching), n)));
    }
    rows.extend([0, 1, 3, 4, 5].map(|n| event_row("session", n)));
    for size in 1..=16 {
        rows.extend((1..=4).map(|players| size_row(size, players)));
    }
    rows.extend(marks::all().map(str::to_owned));
    rows
}

fn event_number(event: &Event<super::config::Cfg>) -> usize {
    match event {
        Event::Synchronizing { .. } => 0,
        Event::Synchronized => 1,
        Event::Input { .. } => 2,
        Event::Disconnected => 3,
        Event::NetworkInterrupted { .. } => 4,
        Event::NetworkResumed => 5,
    }
}

/// The session announces all of them but Input.
fn session_event_number(event: &GgrsEvent<super::config::Cfg>) -> usize {
    match event {
        GgrsEvent::Synchronizing { .. } => 0,
        GgrsEvent::Synchronized { .. } => 1,
        GgrsEvent::Disconnected { .. } => 3,
        GgrsEvent::NetworkInterrupted { .. } => 4,
        GgrsEvent::NetworkResumed { .. } => 5,
        _ => unreachable!("a spectator announces no such event"),
    }
}

fn who(watching: bool) -> &'static str {
    if watching {
        "spectator"
    } else {
        "endpoint"
    }
}

fn object(watching: bool) -> u8 {
    if watching {
        SPECTATOR
    } else {
        0
    }
}

/// The session never disconnects its host's endpoint, so two phases cannot come there.
fn reachable_phases(watching: bool) -> &'static [Phase] {
    if watching {
        &PHASES[..3]
    } else {
        &PHASES
    }
}

/// Which call can give which answer, by the table of refusals and their order.
fn reachable() -> Vec<(bool, Call, u8)> {
    let mut all = Vec::new();
    for watching in [false, true] {
        for call in CALLS {
            if call.exists_on(object(watching)) {
                all.extend(answers_of(call, watching).iter().map(|a| (watching, call, *a)));
            }
        }
    }
    all
}

fn answers_of(call: Call, watching: bool) -> &'static [u8] {
    match call {
        Call::New => &[0, 1, 8],
        Call::Synchronize => &[0, 2, 5, 8],
        Call::Datagram => &[0, 5, 6, 8, 9, 10, 11, 12, 13],
        Call::Carry => &[0],
        Call::Message => &[0, 5, 6, 8, 12],
        Call::Act if watching => &[0, 5, 8],
        Call::Act => &[0, 3, 5, 8],
        Call::SendInput => &[0, 3, 4, 5, 8],
        Call::Disconnect => &[0, 8],
        Call::SendChecksumReport => &[0, 5, 8],
        Call::UpdateLocalFrameAdvantage => &[0, 6],
        Call::NetworkStats => &[0, 8, 14, 15],
        Call::PeerConnectStatus => &[0, 7],
        Call::TakeMessages => &[0, 5],
        Call::TakeEvents | Call::Getters | Call::Buffer => &[0],
        Call::Advance => &[0, 6, 14, 16, 17],
        Call::FramesBehind => &[0, 6],
    }
}

/// Every pair of tests that a call can meet at once, the one that gives the answer first.
fn required_pairs() -> Vec<Pair> {
    let mut all = Vec::new();
    for watching in [false, true] {
        for call in CALLS.into_iter().filter(|call| call.exists_on(object(watching))) {
            all.extend(
                pairs_of(call, watching).into_iter().map(|(a, b)| (watching, call, verdict(a), verdict(b))),
            );
        }
    }
    all
}

/// Stands for a call that is ignored among the numbers of the refusals.
const IGNORED: u8 = 0;

fn verdict(number: u8) -> Verdict {
    match number {
        IGNORED => Verdict::Ignored,
        number => Verdict::Refused(number),
    }
}

/// Each number of a call's order with each that stands behind it, where a call can meet both: none is Short and
/// BadKind at once.
fn pairs_of(call: Call, watching: bool) -> Vec<(u8, u8)> {
    let mut pairs = match call {
        Call::New => ordered(&[8, 1]),
        Call::Synchronize => ordered(&[8, 2, 5]),
        Call::Datagram | Call::Message => ordered(&[8, IGNORED, 12, 6, 5]),
        Call::Act if watching => ordered(&[8, 5]),
        Call::Act => ordered(&[8, 3, 5]),
        Call::SendInput => ordered(&[8, 3, IGNORED, 4, 5]),
        Call::Disconnect => ordered(&[8, IGNORED]),
        Call::SendChecksumReport => ordered(&[8, 5]),
        Call::NetworkStats => ordered(&[8, 14, 15]),
        Call::Advance => [ordered(&[14, 6, 16]), ordered(&[14, 17]), ordered(&[6, 17])].concat(),
        _ => Vec::new(),
    };
    if call == Call::Datagram {
        pairs.extend((9..=13).flat_map(|fault| [(fault, 8), (fault, IGNORED)]));
    }
    pairs
}

fn ordered(numbers: &[u8]) -> Vec<(u8, u8)> {
    let behind = |at: usize| numbers[at + 1..].iter().map(move |other| (numbers[at], *other));
    (0..numbers.len()).flat_map(behind).collect()
}
