//! CryptoMiniSat, asked for all models.

use std::io::Write;
use std::process::{Command, Stdio};

const SOLVER: &str = "cryptominisat5";

/// Whether the solver is on this machine.
pub fn is_there() -> bool {
    let version = Command::new(SOLVER).arg("--version").stdout(Stdio::null()).status();
    version.is_ok_and(|status| status.success())
}

/// The input that a model of a text spells; none where there is no model.
pub fn model(lines: u64, text: &[u8]) -> Option<u64> {
    let answer = answer(&[], text);
    if answer.contains("s UNSATISFIABLE") {
        return None;
    }
    assert!(answer.contains("s SATISFIABLE"), "the solver did not come to an end:\n{answer}");
    let model = models(&answer).into_iter().next().expect("a model");
    Some(spell(lines, &model))
}

/// The inputs that the models of a text spell, one for each model, sorted. The solver gives one model
/// after the other until there is none.
pub fn spelled(lines: u64, text: &[u8]) -> Vec<u64> {
    let most = (1u64 << lines) + 1;
    let answer = answer(&["--maxsol", &most.to_string()], text);
    assert!(answer.contains("s UNSATISFIABLE"), "the solver did not come to an end:\n{answer}");
    let mut spelled: Vec<u64> = models(&answer).iter().map(|model| spell(lines, model)).collect();
    spelled.sort();
    spelled
}

/// What the solver writes to a text.
fn answer(words: &[&str], text: &[u8]) -> String {
    let mut solver = Command::new(SOLVER)
        .args(["--verb", "0"])
        .args(words)
        .stdin(Stdio::piped())
        .stdout(Stdio::piped())
        .spawn()
        .expect("the solver starts");
    let mut pipe = solver.stdin.take().expect("its input is a pipe");
    pipe.write_all(text).expect("it reads");
    drop(pipe);
    let output = solver.wait_with_output().expect("it ends");
    String::from_utf8(output.stdout).expect("it writes text")
}

/// The models of an answer, each as its literals.
fn models(answer: &str) -> Vec<Vec<i64>> {
    let literals = answer.lines().filter_map(|line| line.strip_prefix("v "));
    let literals: Vec<i64> = literals
        .flat_map(str::split_whitespace)
        .map(|word| word.parse().expect("a literal"))
        .collect();
    let models = literals.split(|literal| *literal == 0).filter(|model| !model.is_empty());
    models.map(<[i64]>::to_vec).collect()
}

/// The input that a model spells.
fn spell(lines: u64, model: &[i64]) -> u64 {
    (0..lines).filter(|line| model.contains(&(*line as i64 + 1))).map(|line| 1 << line).sum()
}
