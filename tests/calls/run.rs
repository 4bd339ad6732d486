//! cascade_run, and cascade_run_records on the same gates.

use crate::capi::{self, Gate, RunAnswer};
use crate::cases::{self, Single};
use crate::classes::{self, Given};
use crate::expected;
use crate::harness::{compare, compare_buffer, Buffer, Counts};
use crate::inputs::{self, Cascade};
use crate::random::Random;
use crate::reference::{self, CASCADE_GATES};

const RANDOM_CASES: u64 = 200_000;

const CLASSES: &[&str] = &[
    "served: state 2^n - 1",
    "served: n = 64, state 2^64 - 1",
    "served: a gate with controls fires",
    "served: one positive control alone is not met",
    "served: one negative control alone is not met",
    "9: state 2^n",
    "9: n = 63, state 2^63",
    "records: served",
    "records: 2",
    "records: 6",
    "records: 7",
    "records: 9",
    "records: as many gates as the limit served",
    "records: one gate over the limit",
];

pub fn section(random: &mut Random) -> Counts {
    let (buffers, given) = (&["words", "records"], Given::Lines);
    let mut counts = classes::single_counts("cascade_run", given, &[9], buffers, CLASSES);
    let mut check = |case: Single| check(&case, &mut counts);
    cases::each_edge(random, CASCADE_GATES, &mut |case| {
        for state in inputs::edge_states(case.cascade.lines) {
            let cascade = case.cascade.clone();
            check(Single::new(Cascade { state, ..cascade }, case.dangling));
        }
    });
    let draw = |random: &mut Random| {
        let cascade = inputs::cascade(random, CASCADE_GATES);
        let state = inputs::state(random, &cascade);
        Cascade { state, ..cascade }
    };
    cases::each_drawn(random, RANDOM_CASES, draw, &mut check);
    counts
}

/// The library's answer. A buffer's pointer and length belong together.
pub fn call(lines: u64, words: &mut Buffer<u64>, state: u64) -> RunAnswer {
    unsafe { capi::cascade_run(lines, words.pointer(), words.len(), state) }
}

/// The same for gate records.
fn call_records(lines: u64, gates: &mut Buffer<Gate>, state: u64) -> RunAnswer {
    unsafe { capi::cascade_run_records(lines, gates.pointer(), gates.len(), state) }
}

fn check(case: &Single, counts: &mut Counts) {
    let Cascade {
        lines,
        words,
        state,
        ..
    } = &case.cascade;
    let answer = expected::run_answer(reference::run(*lines, words, *state));
    let library = |n, words: &mut Buffer<u64>| call(n, words, *state);
    case.check("cascade_run", library, answer, words);
    let further = [(9, reference::bad_state(*lines, *state))];
    let (given, number) = (Given::Lines, answer.number);
    classes::count_single(counts, case, given, CASCADE_GATES, &further, number);
    count(&case.cascade, answer.number, counts);
    check_records(&case.cascade, case.dangling, counts);
}

/// The whole gates of the words as records.
fn check_records(case: &Cascade, dangling: bool, counts: &mut Counts) {
    let gates = reference::gates_of(&case.words);
    let records: Vec<Gate> = gates.iter().map(record).collect();
    let mut buffer = Buffer::placed(&records, dangling);
    let library = call_records(case.lines, &mut buffer, case.state);
    let reference = expected::run_answer(reference::run_records(case.lines, &gates, case.state));
    compare(case, "cascade_run_records: answer", library, reference);
    compare_buffer(case, "cascade_run_records: gates", &buffer, &records);
    classes::count_pointer(counts, "records", &records, dangling);
    match reference.number {
        0 => counts.add("records: served"),
        number => counts.add(&format!("records: {number}")),
    }
    let served = reference.number == 0;
    let most = served && gates.len() == CASCADE_GATES;
    counts.add_if(most, "records: as many gates as the limit served");
    let over = gates.len() == CASCADE_GATES + 1;
    counts.add_if(over, "records: one gate over the limit");
}

fn record(gate: &reference::Gate) -> Gate {
    Gate {
        positive: gate.positive,
        negative: gate.negative,
        target: gate.target,
    }
}

fn count(case: &Cascade, number: u64, counts: &mut Counts) {
    let (lines, words, state) = (case.lines, &case.words, case.state);
    if number == 0 {
        let last = state == inputs::all_lines(lines);
        counts.add_if(last, "served: state 2^n - 1");
        counts.add_if(last && lines == 64, "served: n = 64, state 2^64 - 1");
        count_controls(words, state, counts);
    }
    if number == 9 {
        counts.add_if(state == 1 << lines, "9: state 2^n");
        counts.add_if(lines == 63 && state == 1 << 63, "9: n = 63, state 2^63");
    }
}

/// How the controls of the gates are met along the run.
fn count_controls(words: &[u64], state: u64, counts: &mut Counts) {
    let mut state = state;
    let mut fires = false;
    let mut unmet = [false; 2];
    for gate in reference::gates_of(words) {
        let positive = (gate.positive & !state).count_ones();
        let negative = (gate.negative & state).count_ones();
        fires |= positive + negative == 0 && gate.positive | gate.negative != 0;
        unmet[0] |= positive == 1 && negative == 0;
        unmet[1] |= positive == 0 && negative == 1;
        state = gate.apply(state);
    }
    counts.add_if(fires, "served: a gate with controls fires");
    counts.add_if(unmet[0], "served: one positive control alone is not met");
    counts.add_if(unmet[1], "served: one negative control alone is not met");
}
