//! `bench [write] [quick] [agree] [jobs] [growth] [blocks] [tree] [keys] [opens] [volume] [only=TEXT]`: the library beside its peers, on the same inputs in one run. It prints
//! tables in Markdown; with `write` it rewrites the tables and the drawing in docs/. A part alone where it is named, of the jobs those with that text; `agree`
//! is what every run begins with, that the peers answer as the library does; `quick` takes small sizes, to see that it runs.

mod measure;
mod peers;
mod report;
mod shapes;
mod svg;

use measure::{agree, blocks, growth, jobs, keys, opens, said, tree, whole};
use report::{load, machine, Report};

fn main() {
    let (quick, before) = (said("quick"), load());
    println!("Times in microseconds: the best of many runs, in which the sides take turns.");
    if !original::PRESENT {
        println!("!!!! THE ORIGINAL'S SOURCE IS NOT HERE: IT IS NOT MEASURED. !!!!");
    }
    agree::run(quick);
    let mut report = Report::default();
    let parts: [(&str, fn(&mut Report, bool)); 7] = [
        ("jobs", jobs::run), ("keys", keys::run), ("growth", growth::run), ("blocks", blocks::run), ("tree", tree::run), ("opens", opens::run), ("volume", whole::run),
    ];
    let all = !said("agree") && !parts.iter().any(|(name, _)| said(name));
    for (name, run) in parts {
        if all || said(name) {
            run(&mut report, quick);
        }
    }
    let machine = machine(&before);
    println!("\n{machine}");
    if let Some(jobs) = report.jobs() {
        println!("\n{jobs}");
    }
    if said("write") {
        assert!(all && !quick, "only a whole run is written down");
        report.write(&machine);
    }
}
