//! A dry run and a test in plain Rust, with which the program's are compared: bench/times.sh compiles it for its kinds `dry`
//! and `test` where rustc is there.
//!
//! usage: plain_switch ROOT dry-activate|test nix/store/NAME
//!
//! It reads the units of both systems of a root of `make_machine`, looks for a link before each open as the program does,
//! compares them key by key, lists what stands below etc and what the new system wants there, and prints the same
//! report. A test then does what the program does: the log, the stops, the farm's link, the link to the system, and the
//! starts, each leaf by a stage and each act by a draft of the manager's file. It knows no drop-ins, templates, masks,
//! fstab, accounts, copies below etc or logs of a cut switch.
use std::collections::{BTreeMap, BTreeSet};
use std::fs::{self, OpenOptions};
use std::io::{Error, ErrorKind, Result, Write};
use std::path::Path;

/// The values of each key, by the key and its section.
type Unit = BTreeMap<(String, String), Vec<String>>;

/// The keys of `Unit` that say nothing of what a unit does.
const PASSED_OVER: [&str; 12] = [
    "Description",
    "Documentation",
    "SourcePath",
    "X-Reload-Triggers",
    "X-StopIfChanged",
    "X-RestartIfChanged",
    "X-ReloadIfChanged",
    "X-OnlyManualStart",
    "X-NotSocketActivated",
    "X-StopOnRemoval",
    "X-StopOnReconfiguration",
    "X-Restart-Triggers",
];

/// The error at what can't be read as it should.
fn foreign() -> Error {
    Error::from(ErrorKind::InvalidData)
}

/// A regular file behind its node's header, or where a link leads.
fn read_node(place: &Path) -> Result<String> {
    if !fs::symlink_metadata(place)?.is_file() {
        return Err(foreign());
    }
    let mut text = fs::read_to_string(place)?;
    if let Some(target) = text.strip_prefix("L ") {
        return Ok(target.trim_end_matches('\n').to_string());
    }
    let end = text.find('\n').ok_or_else(foreign)?;
    let fields: Vec<&str> = text[..end].split(' ').collect();
    let [_, mode, uid, gid] = fields[..] else {
        return Err(foreign());
    };
    u16::from_str_radix(mode, 8).map_err(|_| foreign())?;
    uid.parse::<u32>().and(gid.parse::<u32>()).map_err(|_| foreign())?;
    text.drain(..=end);
    Ok(text)
}

/// The paths of all files below a folder, which is looked at before it is opened.
fn list(folder: &Path, below: &str, found: &mut Vec<String>) -> Result<()> {
    if !fs::symlink_metadata(folder)?.is_dir() {
        return Err(foreign());
    }
    for entry in fs::read_dir(folder)? {
        let entry = entry?;
        let name = entry.file_name().into_string().map_err(|_| foreign())?;
        let path = if below.is_empty() { name } else { format!("{below}/{name}") };
        let kind = entry.file_type()?;
        if kind.is_dir() {
            list(&entry.path(), &path, found)?;
        } else if kind.is_file() {
            found.push(path);
        } else {
            return Err(foreign());
        }
    }
    Ok(())
}

/// The keys of a unit's text. An empty value takes the earlier ones away.
fn parse(text: &str) -> Result<Unit> {
    let mut unit = Unit::new();
    let mut section = String::new();
    let mut whole = String::new();
    for line in text.lines() {
        if let Some(front) = line.strip_suffix('\\') {
            whole.push_str(front);
            whole.push(' ');
            continue;
        }
        whole.push_str(line);
        let line = whole.trim();
        if let Some(name) = line.strip_prefix('[') {
            section = name.strip_suffix(']').ok_or_else(foreign)?.to_string();
        } else if !line.is_empty() && !line.starts_with(['#', ';']) {
            let (key, value) = line.split_once('=').ok_or_else(foreign)?;
            let values = unit.entry((section.clone(), key.trim_end().to_string())).or_default();
            match value.trim_start() {
                "" => values.clear(),
                value => values.push(value.to_string()),
            }
        }
        whole.clear();
    }
    Ok(unit)
}

/// The units of a system.
fn units_of(tree: &Path, system: &str) -> Result<BTreeMap<String, Unit>> {
    let folder = tree.join(system).join("etc/systemd/system");
    let mut names = Vec::new();
    list(&folder, "", &mut names)?;
    names.sort();
    let read = |name: String| Ok((name.clone(), parse(&read_node(&folder.join(name))?)?));
    names.into_iter().map(read).collect()
}

/// Whether what two units do is the same.
fn do_the_same(one: &Unit, other: &Unit) -> bool {
    let counts = |key: &&(String, String)| key.0 != "Unit" || !PASSED_OVER.contains(&key.1.as_str());
    let alike = |key: &(String, String)| one.get(key) == other.get(key);
    one.keys().chain(other.keys()).filter(counts).all(alike)
}

/// Replaces a file in one step, by way of another one. Its folder is looked at before each change.
fn replace(stage: &Path, place: &Path, text: &str) -> Result<()> {
    let folder = place.parent().ok_or_else(foreign)?;
    fs::create_dir_all(folder)?;
    let mut file = OpenOptions::new().write(true).create_new(true).open(stage)?;
    file.write_all(text.as_bytes())?;
    if !fs::symlink_metadata(folder)?.is_dir() {
        return Err(foreign());
    }
    fs::rename(stage, place)
}

/// The manager's state: its lines, of which the first says what is loaded, and the others the states of units.
struct Manager<'a> {
    root: &'a Path,
    states: BTreeMap<&'a str, String>,
    loaded: String,
    journal: String,
}

impl<'a> Manager<'a> {
    /// Writes the state.
    fn write(&self) -> Result<()> {
        let mut text = format!("loaded {}\n", self.loaded);
        self.states.values().for_each(|line| text.push_str(line));
        text.push_str(&self.journal);
        replace(&self.root.join("manager.new"), &self.root.join("manager"), &text)
    }

    /// Stops or starts a unit.
    fn act(&mut self, act: &str, unit: &'a str) -> Result<()> {
        match act {
            "start" => self.states.insert(unit, format!("active {unit}\n")),
            _ => self.states.remove(unit),
        };
        self.journal.push_str(&format!("{act} {unit} {}\n", self.loaded));
        self.write()
    }
}

/// Carries a test out, of which nothing below etc is removed.
fn carry_out(root: &Path, system: &str, state: &str, stopped: &[&str], started: &BTreeSet<&str>) -> Result<()> {
    let tree = root.join("tree");
    let stage = tree.join("nix/var/nixswitch.stage");
    let log = tree.join("run/nixos/owed-log");
    let put = |place: &Path, text: &str| replace(&stage, place, text);
    fs::create_dir_all(tree.join("nix/var"))?;
    let mut lines = state.lines();
    let loaded = lines.next().and_then(|line| line.strip_prefix("loaded ")).ok_or_else(foreign)?.to_string();
    let states = lines.filter_map(|line| Some((line.strip_prefix("active ")?, format!("{line}\n")))).collect();
    let mut manager = Manager { root, states, loaded, journal: String::new() };
    let names: String = started.iter().map(|name| format!("{name}\n")).collect();
    put(&log, &format!("F 0644 0 0\nstart {}\n{names}end\nrestart 0\nend\nreload 0\nend\n", started.len()))?;
    for unit in stopped {
        manager.act("stop", unit)?;
    }
    put(&tree.join("etc/static"), &format!("L /{system}/etc\n"))?;
    put(&tree.join("run/current-system"), &format!("L /{system}\n"))?;
    manager.loaded = format!("/{system}/etc");
    manager.write()?;
    for unit in started {
        manager.act("start", unit)?;
    }
    fs::remove_file(&log)
}

fn main() -> Result<()> {
    let words: Vec<String> = std::env::args().collect();
    let [_, root, command, system] = &words[..] else {
        return Err(foreign());
    };
    let tree = Path::new(root).join("tree");
    let old_system = read_node(&tree.join("run/current-system"))?.trim_start_matches('/').to_string();
    let (old, new) = (units_of(&tree, &old_system)?, units_of(&tree, system)?);
    let state = fs::read_to_string(Path::new(root).join("manager"))?;
    let active: BTreeSet<&str> = state.lines().filter_map(|line| line.strip_prefix("active ")).collect();
    let (mut wanted, mut stands) = (Vec::new(), Vec::new());
    list(&tree.join(system).join("etc"), "", &mut wanted)?;
    list(&tree.join("etc"), "", &mut stands)?;
    let wanted: BTreeSet<String> = wanted.into_iter().chain(["static", ".clean"].map(String::from)).collect();
    let unwanted = stands.iter().filter(|path| !wanted.contains(*path));
    let changed = |name: &&&str| new.get(**name).is_none_or(|unit| !do_the_same(&old[**name], unit));
    let stopped: Vec<&str> = active.iter().filter(changed).filter(|name| !name.ends_with(".target")).copied().collect();
    let targets = active.iter().filter(|name| name.ends_with(".target") && new.contains_key(**name)).copied();
    let started: BTreeSet<&str> = stopped.iter().filter(|name| new.contains_key(**name)).copied().chain(targets).collect();
    let mut report = format!("from {old_system}\nto {system}\n");
    stopped.iter().for_each(|name| report.push_str(&format!("stop {name}\n")));
    started.iter().for_each(|name| report.push_str(&format!("start {name}\n")));
    unwanted.for_each(|path| report.push_str(&format!("remove etc/{path}\n")));
    print!("{report}");
    if command == "test" {
        carry_out(Path::new(root), system, &state, &stopped, &started)?;
        println!("done");
    }
    Ok(())
}
