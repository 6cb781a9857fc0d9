//! Salvage: one long chain, the chains of many files, and the live entries of a table, beside a careful reading in plain Rust.

use super::jobs::job;
use super::{commas, digest_list, Answer, Side};
use crate::peers::salvage;
use crate::report::Report;
use crate::shapes::blocks::{many, singly, Order};
use crate::shapes::tree::{planned, Names, Order as Buckets, Plan};
use port::{Asked, Salvage};
use std::cell::RefCell;

/// A number, the count, and the rule by which one chain ends.
pub fn answered(s: &mut Salvage) -> Answer {
    let a = s.library();
    [a.number.into(), a.fields.first().copied().unwrap_or(0), a.fault.1.into()]
}

fn side<'a>(state: &'a RefCell<Salvage>, name: &'static str, run: fn(&mut Salvage) -> Answer) -> Side<'a> {
    Side {
        name,
        spoil: Box::new(|| state.borrow_mut().list.fill(u32::MAX)),
        ready: Box::new(|| {}),
        run: Box::new(move || run(&mut state.borrow_mut())),
        left: Box::new(move || {
            let s = state.borrow();
            assert!(s.work.iter().all(|place| *place == 0), "{name}: the work list is not 0");
            let ends = match &s.asked {
                Asked::Chains(_, ends) => ends.iter().fold(0, |sum: u64, end| sum.wrapping_mul(31) ^ *end as u64),
                _ => 0,
            };
            digest_list(&s.list) ^ ends
        }),
        times: 1,
        apart: false,
    }
}

fn salvages(report: &mut Report, what: &str, asked: Asked, table: Vec<u8>, places: usize, room: usize) {
    let state = RefCell::new(Salvage { asked, table, work: vec![0; places], list: vec![0; room] });
    job(report, &format!("salvage, {what}"), vec![side(&state, "careful", salvage::salvage), side(&state, "library", answered)]);
}

pub fn run(report: &mut Report, n: usize, files: usize) {
    let (lent, first) = singly(n, n - 1, Order::Any, 512);
    let what = format!("one chain of {} single blocks in any order", commas(n - 1));
    salvages(report, &what, Asked::Chain(first), lent.table, n, n);
    let (table, chains) = many(n, files);
    let firsts: Vec<u32> = chains.iter().map(|(first, _)| *first as u32).collect();
    let on = format!("{} files on {} blocks", commas(files), commas(n));
    let ends = vec![0; 3 * files];
    salvages(report, &format!("{on}: their chains"), Asked::Chains(firsts.clone(), ends), table.clone(), n, 5 * n);
    salvages(report, &format!("{on}: which are whole and share nothing"), Asked::Shared(firsts), table, n, files);
    let plan = Plan {
        dirs: 1,
        files,
        dir_buckets: 1,
        file_buckets: files,
        names: Names::Random,
        dir_order: Buckets::Made,
        file_order: Buckets::Made,
        spare: 1,
    };
    let table = planned(plan).lent.file_table;
    let room = table.len() / 48;
    salvages(report, &format!("the live ones of {} files", commas(files)), Asked::Files, table, room, room);
}
