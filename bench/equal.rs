//! Times ./equal on pairs of equal cascades, and ./tomiter with CryptoMiniSat on the same pairs, and prints
//! the rows of a table. Where ./tomiter refuses the pair, the solver gets the library's clauses of the miter as drawn.

#[allow(dead_code)]
#[path = "../tests/capi.rs"]
mod capi;
#[allow(dead_code)]
#[path = "../tests/lists.rs"]
mod lists;
#[path = "../tests/pairs.rs"]
mod pairs;
#[allow(dead_code)]
#[path = "../tests/random.rs"]
mod random;
#[allow(dead_code)]
#[path = "../tests/reference.rs"]
mod reference;

use pairs::Rewrites;
use random::Random;
use reference::{Gate, Header};
use std::process::Command;
use std::time::Instant;

/// Seconds after which a run is stopped.
const PATIENCE: &str = "20";
const A: &str = "target/bench/a.cascade";
const B: &str = "target/bench/b.cascade";
const CLAUSES: &str = "target/bench/clauses";

/// The last line that a shell's command writes, and its seconds; none where it was stopped.
fn run(command: &str) -> Option<(String, f64)> {
    let started = Instant::now();
    let output = Command::new("timeout").args([PATIENCE, "sh", "-c", command]).output().unwrap();
    let seconds = started.elapsed().as_secs_f64();
    let said = String::from_utf8_lossy(&output.stdout).into_owned();
    (output.status.code() != Some(124)).then(|| (said.lines().last().unwrap_or("").into(), seconds))
}

fn seconds(time: Option<f64>) -> String {
    time.map_or(format!("more than {PATIENCE}"), |time| format!("{time:.2}"))
}

/// The words of each gate.
fn words(gates: &[Gate]) -> Vec<[u64; 3]> {
    gates.iter().map(|gate| [gate.positive, gate.negative, gate.target]).collect()
}

/// The time of the solver on the clauses, which has to say that there is no model.
fn solved() -> Option<f64> {
    let (said, time) = run(&format!("cryptominisat5 --verb 0 {CLAUSES}"))?;
    assert_eq!(said, "s UNSATISFIABLE");
    Some(time)
}

fn row(random: &mut Random, lines: u64, gates: usize, kind: Rewrites) {
    let (a, b) = pairs::equal_pair(random, lines, gates, kind);
    std::fs::write(A, reference::text_of(Header::unmarked(lines), &a)).unwrap();
    std::fs::write(B, reference::text_of(Header::unmarked(lines), &b)).unwrap();
    let equal = run(&format!("./equal {A} {B}"));
    let by = equal.as_ref().map_or("no verdict", |(by, _)| by);
    let made = Instant::now();
    let status = Command::new("sh").args(["-c", &format!("cat {A} {B} | ./tomiter >{CLAUSES}")]).status().unwrap();
    let made = made.elapsed().as_secs_f64();
    let solver = match status.code() {
        Some(0) => seconds(solved().map(|time| made + time)),
        Some(1) => {
            let list = lists::emit(lines, &lists::miter(lines, &words(&a), &words(&b)));
            std::fs::write(CLAUSES, lists::dimacs(&list)).unwrap();
            format!("refused; solver alone {}", seconds(solved()))
        }
        _ => panic!("./tomiter failed"),
    };
    let drawn = if kind == Rewrites::Templates { "templates" } else { "any" };
    let time = seconds(equal.as_ref().map(|(_, time)| *time));
    println!("| {lines} | {gates} | {drawn} | {time} | {by} | {solver} |");
}

fn main() {
    println!("| lines | gates a side | rewrites | ./equal, s | verdict | ./tomiter and the solver, s |\n|---|---|---|---|---|---|");
    let mut random = Random::new(20_260_118);
    for kind in [Rewrites::Templates, Rewrites::Any] {
        for lines in [8, 16, 32, 64] {
            for gates in [100, 300, 1_000] {
                row(&mut random, lines, gates, kind);
            }
        }
    }
}
