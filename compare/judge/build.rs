//! Copies the crate's files to OUT_DIR, applies `patch/*.edits` (and one planted fault, if
//! GGRS_FAULT names it), and lays the stand-ins for files that were not given beside them.

use std::path::{Path, PathBuf};
use std::{env, fs};

/// The given files: their name in the folder of sources, their place in the crate.
const GIVEN: [(&str, &str); 7] = [
    ("src--src--lib.rs.txt", "lib.rs"),
    ("src--src--frame_info.rs.txt", "frame_info.rs"),
    ("src--src--time_sync.rs.txt", "time_sync.rs"),
    ("src--src--network--messages.rs.txt", "network/messages.rs"),
    ("src--src--network--network_stats.rs.txt", "network/network_stats.rs"),
    ("src--src--network--protocol.rs.txt", "network/protocol.rs"),
    ("src--src--sessions--p2p_spectator_session.rs.txt", "sessions/p2p_spectator_session.rs"),
];

/// The stand-ins, and their place in the crate.
const STANDINS: [(&str, &str); 8] = [
    ("error.rs", "error.rs"),
    ("nothing.rs", "input_queue.rs"),
    ("sync_layer.rs", "sync_layer.rs"),
    ("builder.rs", "sessions/builder.rs"),
    ("p2p_session.rs", "sessions/p2p_session.rs"),
    ("sync_test_session.rs", "sessions/sync_test_session.rs"),
    ("compression.rs", "network/compression.rs"),
    ("udp_socket.rs", "network/udp_socket.rs"),
];

fn main() {
    let home = PathBuf::from(env::var("CARGO_MANIFEST_DIR").unwrap());
    let out = PathBuf::from(env::var("OUT_DIR").unwrap()).join("ggrs");
    let given = source_folder(&home);
    println!("cargo:rerun-if-env-changed=GGRS_SRC");
    println!("cargo:rerun-if-env-changed=GGRS_FAULT");
    for part in ["patch", "faults", "standins/crate", "build.rs"] {
        println!("cargo:rerun-if-changed={}", home.join(part).display());
    }

    let mut edits = Vec::new();
    for name in ["lib", "protocol", "spectator"] {
        edits.extend(read_edits(&home.join("patch").join(format!("{name}.edits"))));
    }
    if let Ok(fault) = env::var("GGRS_FAULT") {
        if !fault.is_empty() {
            edits.extend(read_edits(&home.join("faults").join(format!("{fault}.edits"))));
        }
    }

    for (from, to) in GIVEN {
        let text = fs::read_to_string(given.join(from))
            .unwrap_or_else(|e| panic!("cannot read {}: {e}", given.join(from).display()));
        place(&out, to, &text, &edits, &home);
    }
    for (from, to) in STANDINS {
        let text = fs::read_to_string(home.join("standins/crate").join(from)).unwrap();
        place(&out, to, &text, &edits, &home);
    }
}

/// GGRS_SRC if it is set, else ../../../shared/docs/src seen from the project's compare/judge.
fn source_folder(home: &Path) -> PathBuf {
    let folder = match env::var("GGRS_SRC") {
        Ok(named) if !named.is_empty() => PathBuf::from(named),
        _ => home.join("../../../shared/docs/src"),
    };
    if !folder.join(GIVEN[0].0).is_file() {
        panic!(
            "the crate's sources are not in {}: name the folder that holds {} by GGRS_SRC",
            folder.display(),
            GIVEN[0].0
        );
    }
    println!("cargo:rerun-if-changed={}", folder.display());
    folder
}

fn place(out: &Path, to: &str, text: &str, edits: &[Edit], home: &Path) {
    let mut text = text.to_owned();
    for edit in edits.iter().filter(|e| e.file == to) {
        text = edit.apply(&text, home);
    }
    let path = out.join(to);
    fs::create_dir_all(path.parent().unwrap()).unwrap();
    fs::write(path, text).unwrap();
}

/// One textual edit: `old` occurs exactly `times` times in `file` and becomes `new`.
struct Edit {
    file: String,
    times: usize,
    old: String,
    new: String,
}

impl Edit {
    fn apply(&self, text: &str, home: &Path) -> String {
        if self.old == "<end of file>\n" {
            let new = self.new.replace("{JUDGE}", &home.display().to_string());
            return format!("{text}{new}");
        }
        if let Some(prefix) = self.old.strip_prefix("<lines that begin with> ") {
            let prefix = prefix.trim_end();
            let kept = text.lines().filter(|l| !l.starts_with(prefix));
            return kept.map(|l| format!("{l}\n")).collect();
        }
        // the last line of a block may be the beginning of a line of the file
        let old = self.old.strip_suffix('\n').unwrap_or(&self.old);
        let new = self.new.strip_suffix('\n').unwrap_or(&self.new);
        let found = text.matches(old).count();
        if found != self.times {
            panic!("edit of {}: wanted {} times, found {found}:\n{old}", self.file, self.times);
        }
        text.replace(old, new)
    }
}

/// The format of an .edits file stands in patch/README.md.
fn read_edits(path: &Path) -> Vec<Edit> {
    let text = fs::read_to_string(path).unwrap_or_else(|e| panic!("{}: {e}", path.display()));
    let mut edits = Vec::new();
    let mut lines = text.lines();
    let (mut file, mut times) = (String::new(), 1);
    while let Some(line) = lines.next() {
        if let Some(name) = line.strip_prefix("file ") {
            file = name.trim().to_owned();
        } else if let Some(n) = line.strip_prefix("times ") {
            times = n.trim().parse().unwrap();
        } else if line == "<<<<" {
            let old = until(&mut lines, "====");
            let new = until(&mut lines, ">>>>");
            edits.push(Edit { file: file.clone(), times, old, new });
            times = 1;
        }
    }
    edits
}

fn until<'a>(lines: &mut impl Iterator<Item = &'a str>, end: &str) -> String {
    lines.take_while(|l| *l != end).map(|l| format!("{l}\n")).collect()
}
