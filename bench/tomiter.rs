//! Times the built program `tomiter` against plain Rust doing the same job, each as a process of its
//! own, on an input near its limits. Fails where it takes more than `LIMIT` times as long, each less its
//! time on an empty input, or where the two write different bytes.

#[path = "../tests/built.rs"]
mod built;
#[allow(dead_code)]
mod inputs;
#[allow(dead_code)]
#[path = "../tests/random.rs"]
mod random;

use random::Random;
use std::fs::File;
use std::process::{Command, ExitCode, Stdio};
use std::time::Instant;

const LIMIT: f64 = 1.3;
const ROUNDS: usize = 601;
const PLAIN: &str = "target/bench/plain_tomiter";
const INPUT: &str = "target/bench/input";
const EMPTY: &str = "/dev/null";

/// A cascade file of 1,024 gates on 64 lines with these mark lines, with k controls in each gate for which
/// `controls` gives k.
fn file(random: &mut Random, marks: &str, controls: impl Fn(usize) -> u32) -> String {
    let mut text = format!("lines\t64\n{marks}");
    for gate in 0..1024 {
        let target = random.below(64);
        let mask = inputs::lines_besides(random, 64, target, controls(gate));
        text += &format!("g\t{target}");
        for line in (0..64).filter(|line| mask >> line & 1 != 0) {
            text += &format!("\t{}{line}", if random.below(2) == 0 { '+' } else { '-' });
        }
        text.push('\n');
    }
    text + "end\n"
}

fn written(program: &str) -> Vec<u8> {
    Command::new(program)
        .stdin(File::open(INPUT).unwrap())
        .output()
        .unwrap()
        .stdout
}

/// Nanoseconds of one run of the program.
fn time(program: &str, input: &str) -> f64 {
    let input = File::open(input).unwrap();
    let started = Instant::now();
    let status = Command::new(program)
        .stdin(input)
        .stdout(Stdio::null())
        .status()
        .unwrap();
    assert!(status.success());
    started.elapsed().as_nanos() as f64
}

fn median(mut times: Vec<f64>) -> f64 {
    times.sort_by(f64::total_cmp);
    times[times.len() / 2]
}

/// The ratio of the two programs on an input, each less its own time on an empty one in the same round.
fn row(name: &str, input: &str) -> f64 {
    std::fs::write(INPUT, input).unwrap();
    let library = built::built("tomiter");
    let bytes = written(&library);
    assert_eq!(
        bytes,
        written(PLAIN),
        "{name}: the two write different bytes"
    );
    assert!(bytes.starts_with(b"p cnf"), "{name}: refused");
    let (mut whole, mut job) = ([vec![], vec![]], [vec![], vec![]]);
    for _ in 0..ROUNDS {
        for (side, program) in [library.as_str(), PLAIN].into_iter().enumerate() {
            let (start, all) = (time(program, EMPTY), time(program, INPUT));
            whole[side].push(all);
            job[side].push(all - start);
        }
    }
    let (whole, job) = (whole.map(median), job.map(median));
    println!(
        "tomiter   {name:<36} {:>9.0} {:>9.0} {:>6.2} {:>9.0} {:>9.0} {:>6.2}",
        whole[0],
        whole[1],
        whole[0] / whole[1],
        job[0],
        job[1],
        job[0] / job[1]
    );
    job[0] / job[1]
}

fn main() -> ExitCode {
    let mut random = Random::new(20_240_601);
    println!(
        "{:<9} {:<36} {:>9} {:>9} {:>6} {:>26}",
        "program", "input", "ns", "plain ns", "ratio", "less its start"
    );
    // a gate of one control has 5 words, one of two has 18
    let few = |gate: usize| if gate % 5 == 0 { 2 } else { 1 };
    let mut pair = |marks| file(&mut random, marks, few) + &file(&mut random, marks, few);
    let ratios = [
        row("2 x 1,024 gates, near 16,384 words", &pair("")),
        row(
            "the same with marks",
            &pair("const\t0\t1\nconst\t9\t0\njunk\t9\njunk\t63\n"),
        ),
    ];
    let ratio = ratios.into_iter().fold(0.0, f64::max);
    println!("bench: of the program {ratio:.2}, the limit {LIMIT}");
    ExitCode::from((ratio > LIMIT) as u8)
}
