//! Runs the proved crates beside the published Rust in one process and compares every answer bit for bit.
mod doubles;
mod face;
mod fraction;
mod held;
mod lent;
mod modules;
mod rng;
mod steps;
mod tables;
mod tally;

use modules::{ALL, Desk, Module, Times};
use rng::Rng;
use std::io::{IsTerminal, Write};
use std::path::{Path, PathBuf};
use std::process::ExitCode;
use std::sync::Mutex;
use std::sync::atomic::{AtomicU64, Ordering};
use std::time::{Duration, Instant};
use tally::{BLOCK, Difference, Place, Tally, grouped};

const USAGE: &str = "usage: compare/run [--cases N] [--seed S] [--only MODULE] | --write-list | --bench [--rounds K]";

struct Options {
    cases: Option<u64>,
    seed: u64,
    only: Option<String>,
    rounds: u32,
    bench: bool,
    list: Option<PathBuf>,
    /// What was passed and failed before, from C and by the Rust crate.
    and: (u64, u64),
}

fn options() -> Option<Options> {
    let mut o = Options { cases: None, seed: 1, only: None, rounds: 100, bench: false, list: None, and: (0, 0) };
    let mut words = std::env::args().skip(1);
    while let Some(word) = words.next() {
        match word.as_str() {
            "--cases" => o.cases = Some(words.next()?.replace('_', "").parse().ok()?),
            "--seed" => o.seed = words.next()?.parse().ok()?,
            "--only" => o.only = Some(words.next()?),
            "--rounds" => o.rounds = words.next()?.parse().ok()?,
            "--bench" => o.bench = true,
            "--list" => o.list = Some(words.next()?.into()),
            "--and" => o.and = (words.next()?.parse().ok()?, words.next()?.parse().ok()?),
            _ => return None,
        }
    }
    Some(o)
}

fn main() -> ExitCode {
    let Some(o) = options() else {
        eprintln!("{USAGE}");
        return ExitCode::from(2);
    };
    let picked: Vec<Module> = ALL.into_iter().filter(|m| o.only.as_deref().is_none_or(|n| n == m.name)).collect();
    if picked.is_empty() {
        let names = ALL.map(|m| m.name);
        eprintln!("no such module; there are: {}", names.join(" "));
        return ExitCode::from(2);
    }
    if let Some(folder) = &o.list {
        return write_list(folder);
    }
    if o.bench {
        bench(&picked, o.rounds);
        return ExitCode::SUCCESS;
    }
    compare(&picked, &o)
}

/// How often all calls are timed, each time with a part of the rounds: a busy while is not one call's alone.
const SWEEPS: u32 = 5;

/// Prints the lines that compare/bench makes a table of.
fn bench(picked: &[Module], rounds: u32) {
    let sweep = || picked.iter().flat_map(|m| (m.bench)(rounds.div_ceil(SWEEPS))).collect::<Vec<Times>>();
    let best = |a: Vec<Times>, b: Vec<Times>| a.into_iter().zip(b).map(|(a, b)| a.best(b)).collect();
    let lines = (1..SWEEPS).fold(sweep(), |lines, _| best(lines, sweep()));
    lines.iter().for_each(|line| println!("{line}"));
}

/// Writes stdin and stdout of the program crate replay: the modules' parts one after the other.
fn write_list(folder: &Path) -> ExitCode {
    let (mut stdin, mut stdout) = (Vec::new(), Vec::new());
    let done = ALL
        .iter()
        .filter_map(|m| m.list)
        .try_for_each(|part| part(&mut stdin, &mut stdout))
        .and_then(|()| std::fs::write(folder.join("stdin"), &stdin))
        .and_then(|()| std::fs::write(folder.join("stdout"), &stdout));
    match done {
        Ok(()) => {
            println!("wrote stdin ({} bytes) and stdout of replay", stdin.len());
            ExitCode::SUCCESS
        }
        Err(e) => {
            eprintln!("replay: {e}");
            ExitCode::FAILURE
        }
    }
}

fn compare(picked: &[Module], o: &Options) -> ExitCode {
    let (mut passed, mut failed) = o.and;
    let fails = |what: &str| {
        println!("FAILED: {what}");
        1
    };
    for (name, holds) in oracle::worked::worked().into_iter().chain(oracle::seen::seen()) {
        passed += holds as u64;
        failed += if holds { 0 } else { fails(&format!("the Rust does not give document 01's number: {name}")) };
    }
    let own = [("fractions", fraction::self_test()), ("places", tables::fixed::self_test()), ("boxes", modules::boxes_judged())];
    for (what, holds) in own {
        passed += holds as u64;
        failed += if holds { 0 } else { fails(&format!("the comparison's own {what} are wrong")) };
    }
    for m in picked {
        let start = Instant::now();
        let calls = (m.calls)();
        let cases = o.cases.unwrap_or(m.default_cases);
        let tally = run(m, cases, o.seed);
        println!("{}", tally.table(m.name, &calls, m.features, m.exact));
        println!("{}: seed {}, {:.1} s", m.name, o.seed, start.elapsed().as_secs_f64());
        passed += tally.passed();
        failed += tally.failed();
        failed += tally.unmet(&calls, m.features, m.exact, cases >= m.default_cases).iter().map(|line| fails(line)).sum::<u64>();
        if let Some(d) = &tally.first {
            let Place { block, case } = d.place;
            println!("FAILED: the first case that differs: seed {}, block {block}, case {case}: {}", o.seed, d.text);
        }
    }
    println!("{passed} passed, {failed} failed");
    if failed == 0 { ExitCode::SUCCESS } else { ExitCode::FAILURE }
}

/// All blocks of a module, on every processor.
fn run(m: &Module, cases: u64, seed: u64) -> Tally {
    let empty = || Tally::new((m.calls)().len(), m.features.len(), m.exact.len());
    let blocks = cases.div_ceil(BLOCK);
    let (next, done) = (AtomicU64::new(0), AtomicU64::new(0));
    let whole = Mutex::new(empty());
    let threads = std::thread::available_parallelism().map_or(1, |n| n.get());
    std::thread::scope(|s| {
        let work = || {
            let mut desk = Desk { r: Rng::new(seed, 0), lent: Default::default(), tally: empty() };
            loop {
                let block = next.fetch_add(1, Ordering::Relaxed);
                if block >= blocks {
                    break;
                }
                let size = BLOCK.min(cases - block * BLOCK);
                desk.r = Rng::new(seed, block);
                each_case(m, block, size, &mut desk);
                done.fetch_add(size, Ordering::Relaxed);
            }
            whole.lock().expect("no thread panicked").merge(desk.tally);
        };
        let workers: Vec<_> = (0..threads).map(|_| s.spawn(work)).collect();
        progress(m.name, cases, &done, || workers.iter().all(|w| w.is_finished()));
    });
    whole.into_inner().expect("no thread panicked")
}

/// The cases of a block; the text of one that differs goes to the tally.
fn each_case(m: &Module, block: u64, cases: u64, desk: &mut Desk) {
    for case in 0..cases {
        let place = Place { block, case };
        if let Some(text) = (m.case)(place, desk) {
            desk.tally.keep(Difference { place, text });
        }
    }
}

/// One line that is written over on a terminal, else a line now and then.
fn progress(name: &str, cases: u64, done: &AtomicU64, is_over: impl Fn() -> bool) {
    let mut err = std::io::stderr();
    let (over, pause) = if err.is_terminal() { ("\r", 2) } else { ("", 50) };
    let mut ticks = 0;
    loop {
        let last = is_over();
        let so_far = done.load(Ordering::Relaxed);
        if last || ticks % pause == 0 {
            let end = if last || over.is_empty() { "\n" } else { "" };
            let _ = write!(err, "{over}{name}: {} of {} cases{end}", grouped(so_far), grouped(cases));
        }
        if last {
            return;
        }
        ticks += 1;
        std::thread::sleep(Duration::from_millis(100));
    }
}
