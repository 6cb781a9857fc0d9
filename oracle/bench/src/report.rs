//! What a run tells: the table of jobs, the long tables, the drawing. Printed as it comes, and written to docs/ in the end.

use crate::measure::{ratio, shown};
use crate::svg::{drawn, Panel};
use std::fs;
use std::path::{Path, PathBuf};
use std::process::Command;

/// A line of the first table.
struct Job {
    what: String,
    peer: &'static str,
    time: f64,
    ours: f64,
    /// False where the line only tells, as where the library is held against itself.
    goal: bool,
}

#[derive(Default)]
pub struct Report {
    jobs: Vec<Job>,
    long: String,
    panels: Vec<Panel>,
}

impl Report {
    /// Begins a long table.
    pub fn table(&mut self, title: &str, about: &str, columns: &[&str]) {
        let about = if about.is_empty() { String::new() } else { format!("{about}\n\n") };
        let rule = "---|".repeat(columns.len());
        self.say(&format!("\n## {title}\n\n{about}| {} |\n|{rule}", columns.join(" | ")));
    }

    pub fn row(&mut self, cells: &[String]) {
        self.say(&format!("| {} |", cells.join(" | ")));
    }

    fn say(&mut self, text: &str) {
        println!("{text}");
        self.long += text;
        self.long += "\n";
    }

    /// A job with its peers and their times; the last is the library's.
    pub fn job(&mut self, what: &str, names: &[&'static str], times: &[f64]) {
        let (ours, peers) = times.split_last().expect("sides");
        let best = (0..peers.len()).min_by(|a, b| peers[*a].total_cmp(&peers[*b]));
        for (name, time) in names.iter().zip(peers) {
            self.row(&[what.into(), (*name).into(), shown(Some(*time)), shown(Some(*ours)), ratio(Some(*ours), Some(*time))]);
        }
        if let Some(best) = best {
            self.jobs.push(Job { what: what.into(), peer: names[best], time: peers[best], ours: *ours, goal: true });
        }
    }

    /// A line that has no goal.
    pub fn beside(&mut self, what: &str, peer: &'static str, time: f64, ours: f64) {
        self.row(&[what.into(), peer.into(), shown(Some(time)), shown(Some(ours)), ratio(Some(ours), Some(time))]);
        self.jobs.push(Job { what: what.into(), peer, time, ours, goal: false });
    }

    pub fn panel(&mut self, panel: Panel) {
        self.panels.push(panel);
    }

    /// The table of jobs in Markdown, if some were measured.
    pub fn jobs(&self) -> Option<String> {
        if self.jobs.is_empty() {
            return None;
        }
        let mut text = String::from("| job | best peer | its time | library | ratio | at most 1.0 |\n|---|---|---|---|---|---|\n");
        for job in &self.jobs {
            // As it is shown: two digits.
            let ratio = (job.ours / job.time * 100.0).round() / 100.0;
            let met = match (job.goal, ratio <= 1.0) {
                (false, _) => "no goal",
                (true, true) => "met",
                (true, false) => "**not met**",
            };
            let (time, ours) = (shown(Some(job.time)), shown(Some(job.ours)));
            text += &format!("| {} | {} | {time} | {ours} | {ratio:.2} | {met} |\n", job.what, job.peer);
        }
        let with_goal = self.jobs.iter().filter(|job| job.goal);
        let met = with_goal.clone().filter(|job| (job.ours / job.time * 100.0).round() <= 100.0).count();
        Some(format!("{text}\n{met} of {} goals are met.\n", with_goal.count()))
    }

    /// Rewrites the parts of docs/ that are this run's.
    pub fn write(&self, machine: &str) {
        let docs = Path::new(env!("CARGO_MANIFEST_DIR")).join("../../docs");
        between(&docs.join("BENCHMARKS.md"), &format!("{machine}\n\n{}", self.jobs().expect("jobs")));
        let intro = "# Benchmarks: the long tables\n\nWritten by `make bench`, with the table and the drawing of docs/BENCHMARKS.md, which says what is measured and how. \
                     Times are in microseconds. A dash: not there.";
        put(&docs.join("BENCHMARKS-TABLES.md"), &format!("{intro}\n\n{machine}\n{}", self.long));
        put(&docs.join("growth.svg"), &drawn(&self.panels));
    }
}

const BEGIN: &str = "<!-- from here on to the end mark: written by make bench -->";
const END: &str = "<!-- end mark -->";

/// Replaces what stands between the two marks.
fn between(file: &PathBuf, text: &str) {
    let old = fs::read_to_string(file).expect("docs/BENCHMARKS.md");
    let (before, rest) = old.split_once(BEGIN).expect("the first mark");
    let (_, after) = rest.split_once(END).expect("the second mark");
    put(file, &format!("{before}{BEGIN}\n\n{text}\n{END}{after}"));
}

fn put(file: &PathBuf, text: &str) {
    fs::write(file, text).unwrap_or_else(|e| panic!("{}: {e}", file.display()));
    println!("written: {}", file.display());
}

/// What a program prints, on one line; nothing where it can't be run.
fn told(program: &str, words: &[&str]) -> String {
    let output = Command::new(program).args(words).output().ok();
    output.map_or(String::new(), |o| String::from_utf8_lossy(&o.stdout).trim().replace('\n', ", "))
}

/// The line of a file or of a program's answer that begins with a name: what stands behind its colon.
fn field(text: &str, name: &str) -> Option<String> {
    text.lines().find_map(|line| Some(line.strip_prefix(name)?.trim_start().strip_prefix(':')?.trim().to_string()))
}

/// The load of the last minute.
pub fn load() -> String {
    fs::read_to_string("/proc/loadavg").ok().and_then(|text| Some(text.split(' ').next()?.to_string())).unwrap_or("unknown".into())
}

/// The machine, the load at the run's beginning and end, and which archive was linked.
pub fn machine(load_before: &str) -> String {
    let cpus = Command::new("lscpu").output().map(|o| String::from_utf8_lossy(&o.stdout).into_owned()).unwrap_or_default();
    let processor = field(&cpus, "Model name").unwrap_or("unknown processor".into());
    let caches: Vec<String> = ["L1d", "L2", "L3"]
        .iter()
        .filter_map(|level| Some(format!("{level} {}", field(&cpus, &format!("{level} cache"))?)))
        .collect();
    let named = std::env::var_os("MUKTHIBAN_LIB").is_some_and(|named| !named.is_empty());
    let library = if named { "The library is the archive that MUKTHIBAN_LIB named." } else { "The library is the archive in dist/." };
    let busy = load_before.parse().is_ok_and(|load: f64| load > 1.0);
    format!(
        "{}, {} processors ({processor}; {}), Linux {}, {}. Load {load_before} at the beginning of the run and {} at its end, of which the run itself is 1{}. {library}{}",
        std::env::consts::ARCH,
        std::thread::available_parallelism().map_or(0, |n| n.get()),
        caches.join(", "),
        told("uname", &["-r"]),
        told("rustc", &["--version"]),
        load(),
        if busy { ": other work kept the machine busy" } else { "" },
        if original::PRESENT { "" } else { " **The original's source was not there: it is not measured.**" },
    )
}
