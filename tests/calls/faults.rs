//! cascade_fault_masks, and two sentences of 01 on its masks: a guilty line stands, and a control
//! added on a struck line leaves some given state wrong.

use crate::capi::{self, CountAnswer};
use crate::cases::{Lent, Pair};
use crate::classes::{self, Given};
use crate::expected;
use crate::harness::{compare, Counts};
use crate::inputs::{self, Cascade, Marks, Missing};
use crate::random::Random;
use crate::reference::{self, has, Gate, Header, CASCADE_GATES, GATE_MASKS};

const RANDOM_CASES: u64 = 40_000;
const LONG_LISTS: u64 = 40;

const CLASSES: &[&str] = &[
    "served: no states",
    "served: no states, a line stands in both masks",
    "served: one state",
    "served: 1,000 states or more",
    "served: as many gates as the limit",
    "served: no gates",
    "served: n = 1",
    "served: n = 64",
    "served: n = 64, line 63 stands",
    "served: a state twice",
    "served: a missing positive control",
    "served: a missing negative control",
    "served: the guilty line alone stands",
    "served: every line of the first gate struck",
    "served: a struck line tried as a repair",
    "served: a struck line tried as a repair, a junk line differs",
    "served: a constant stands",
    "served: a junk line stands",
    "9: the first state",
    "9: a later state",
    "9: state 2^n",
    "9: a state that breaks a constant",
    "9 before 12: the agreeing state stands first",
    "12: the first state",
    "12: a later state",
    "12: the two are equal",
    "12: only a junk line differs",
];

/// What the call is given, the suspect first, and the control that was left out of the suspect, where
/// one was.
#[derive(Debug)]
struct Case {
    given: Pair,
    missing: Option<Missing>,
}

pub fn section(random: &mut Random) -> Counts {
    let (name, buffers) = ("cascade_fault_masks", &["a", "b", "states", "out"]);
    let mut counts = classes::pair_counts(name, Given::Header, &[9, 12, 10], buffers, CLASSES);
    inputs::each_faulty_marked_pair(random, &mut |random, a, b| {
        for states in [vec![], vec![0], vec![u64::MAX], vec![1, u64::MAX]] {
            each_length(random, (&a, &b), &states, None, &mut counts);
        }
    });
    inputs::each_long_pair(random, &mut |random, a, b| {
        let given = Pair {
            states: vec![0],
            ..Pair::new(a, b, random.one_in(2))
        };
        let missing = None;
        check(&Case { given, missing }, &mut counts);
    });
    let most = CASCADE_GATES;
    for (lines, gates, states) in [(64, most, 0), (64, most, 1), (64, most, 3), (1, 0, 0), (64, 0, 0)] {
        for marked in [false, true] {
            let right = inputs::good_cascade(random, lines, gates);
            with_missing(random, right, states, marked, &mut counts);
        }
    }
    for round in 0..LONG_LISTS {
        let lines = random.pick(&[8, 20, 63, 64]);
        let right = inputs::good_cascade(random, lines, 5);
        let states = 1_000 + random.index(4_000);
        with_missing(random, right, states, round % 2 == 1, &mut counts);
    }
    for _ in 0..RANDOM_CASES {
        random_case(random, &mut counts);
    }
    counts
}

/// A suspect that lacks one control, or any two cascades with states drawn from those of the first.
fn random_case(random: &mut Random, counts: &mut Counts) {
    let (a, b) = inputs::marked_pair(random);
    if (1..=64).contains(&a.lines) && random.one_in(2) {
        let gates = random.index(7);
        let right = inputs::good_cascade(random, a.lines, gates);
        let states = random.pick(&[0, 1, 1, 2, 3, 8]);
        let marked = random.one_in(2);
        return with_missing(random, right, states, marked, counts);
    }
    let states: Vec<u64> = (0..random.index(4))
        .map(|_| match random.below(3) {
            0 => inputs::state(random, &a),
            _ => random.word() & inputs::all_lines(a.lines),
        })
        .collect();
    let length = inputs::buffer_length(random, GATE_MASKS * (a.words.len() / 3));
    let out = random.words(length);
    let given = Pair {
        states,
        out,
        ..Pair::new(a, b, random.one_in(2))
    };
    let missing = None;
    check(&Case { given, missing }, counts);
}

/// Leaves one control out of the reference, marks lines so that the states honour the constants, and now
/// and then spoils the list.
fn with_missing(
    random: &mut Random,
    right: Cascade,
    states: usize,
    marked: bool,
    counts: &mut Counts,
) {
    let lines = inputs::all_lines(right.lines);
    let drawn: Vec<u64> = (0..states).map(|_| random.word() & lines).collect();
    let missing = inputs::any_control(random, &right);
    let (suspect, mut states) = match missing {
        Some(missing) => inputs::suspect(&right, missing, &drawn),
        None => (right.clone(), vec![]),
    };
    let mut marks = Marks::default();
    if marked {
        marks = inputs::honoured_marks(random, right.lines, &states);
    }
    let (suspect, right) = (suspect.with_marks(marks), right.with_marks(marks));
    if !states.is_empty() && random.one_in(8) {
        let at = random.index(states.len());
        let any = random.word() & lines;
        states[at] = random.pick(&[lines, lines.wrapping_add(1), any]);
    }
    each_length(random, (&suspect, &right), &states, missing, counts);
}

fn each_length(
    random: &mut Random,
    (suspect, reference): (&Cascade, &Cascade),
    states: &[u64],
    missing: Option<Missing>,
    counts: &mut Counts,
) {
    for length in inputs::edge_lengths(GATE_MASKS * (suspect.words.len() / 3)) {
        let given = Pair {
            states: states.to_vec(),
            out: random.words(length),
            ..Pair::new(suspect.clone(), reference.clone(), random.one_in(2))
        };
        check(&Case { given, missing }, counts);
        if suspect.words.len() > 300 || states.len() > 300 {
            return;
        }
    }
}

fn check(case: &Case, counts: &mut Counts) {
    let given = &case.given;
    let (ha, hb) = (given.a.header(), given.b.header());
    let library = |lent: &mut Lent| {
        let Lent { a, b, states, out } = lent;
        let (ha, hb) = (expected::header(ha), expected::header(hb));
        let (a_len, b_len, s_len, out_len) = (a.len(), b.len(), states.len(), out.len());
        let (a, b, s, out) = (a.pointer(), b.pointer(), states.pointer(), out.pointer());
        unsafe { capi::cascade_fault_masks(ha, a, a_len, hb, b, b_len, s, s_len, out, out_len) }
    };
    let (a, b) = (&given.a.words, &given.b.words);
    let mut wanted = given.out.clone();
    let answer = reference::fault_masks(ha, a, hb, b, &given.states, &mut wanted);
    let answer = expected::count_answer(answer);
    let out = given.check("cascade_fault_masks", library, answer, &wanted);
    count(given, answer, counts);
    if answer.number == 0 {
        let masks = &out.contents()[..GATE_MASKS * answer.gates as usize];
        check_guilty(case, masks, counts);
        check_struck(given, masks, counts);
        count_served(given, masks, counts);
    }
}

/// The line of the control that was left out stands in its mask.
fn check_guilty(case: &Case, masks: &[u64], counts: &mut Counts) {
    let Some(missing) = case.missing else {
        return;
    };
    let mask = masks[GATE_MASKS * missing.gate + usize::from(!missing.positive)];
    compare(
        case,
        "the guilty line stands",
        has(mask, missing.line),
        true,
    );
    counts.add_if(missing.positive, "served: a missing positive control");
    counts.add_if(!missing.positive, "served: a missing negative control");
    let alone = masks.iter().map(|mask| mask.count_ones()).sum::<u32>() == 1;
    counts.add_if(alone, "served: the guilty line alone stands");
}

/// On small cascades, each control added on a struck line leaves some given state wrong.
fn check_struck(case: &Pair, masks: &[u64], counts: &mut Counts) {
    let n = case.a.lines;
    let gates = reference::gates_of(&case.a.words);
    if n > 6 || gates.len() > 6 || case.states.len() > 8 || case.states.is_empty() {
        return;
    }
    let right = reference::gates_of(&case.b.words);
    let outputs = |repaired: &[Gate], state: u64| {
        [repaired, &right].map(|gates| gates.iter().fold(state, |state, gate| gate.apply(state)))
    };
    let header = case.a.header();
    let wrong = |repaired: &[Gate], state: u64| {
        let [one, other] = outputs(repaired, state);
        !header.alike(one, other)
    };
    for (index, gate) in gates.iter().enumerate() {
        for line in (0..n).filter(|k| *k != gate.target && gate.control(*k).is_none()) {
            for positive in [true, false] {
                if has(masks[GATE_MASKS * index + usize::from(!positive)], line) {
                    continue;
                }
                let repaired = reference::with_added_control(&gates, index, line, positive);
                let wrong = case.states.iter().any(|state| wrong(&repaired, *state));
                compare(case, "a struck line is no repair", wrong, true);
                counts.add("served: a struck line tried as a repair");
                let junk = case.states.iter().any(|state| {
                    let [one, other] = outputs(&repaired, *state);
                    (one ^ other) & header.junk != 0
                });
                let hidden = "served: a struck line tried as a repair, a junk line differs";
                counts.add_if(junk, hidden);
            }
        }
    }
}

fn count(case: &Pair, answer: CountAnswer, counts: &mut Counts) {
    let Pair {
        a: suspect,
        b: reference,
        states,
        out,
        dangling,
    } = case;
    let (n, header) = (suspect.lines, suspect.header());
    let needed = GATE_MASKS * (suspect.words.len() / 3);
    let gates = reference::gates_of(&suspect.words);
    let right = reference::gates_of(&reference.words);
    let agreeing = reference::first_agreeing_state(header, &gates, &right, states);
    let further = [
        (9, reference::first_bad_state(header, states).is_some()),
        (12, agreeing.is_some()),
        (10, reference::short_buffer(out, needed)),
    ];
    classes::count_pair(counts, case, Given::Header, &further);
    classes::count_pointer(counts, "states", states, *dangling);
    let CountAnswer { number, place, .. } = answer;
    classes::count_out(counts, out, *dangling, needed, number);
    match number {
        9 => {
            let state = states[place as usize];
            counts.add(["9: the first state", "9: a later state"][usize::from(place > 0)]);
            counts.add_if(n < 64 && state == 1 << n, "9: state 2^n");
            let broken = !reference::bad_state(n, state);
            counts.add_if(broken, "9: a state that breaks a constant");
            counts.add_if(
                agreeing.is_some_and(|index| index < place),
                "9 before 12: the agreeing state stands first",
            );
        }
        12 => {
            counts.add(["12: the first state", "12: a later state"][usize::from(place > 0)]);
            counts.add_if(suspect.words == reference.words, "12: the two are equal");
            let plain = Header::unmarked(n);
            let state = [states[place as usize]];
            let agree = reference::first_agreeing_state(plain, &gates, &right, &state).is_some();
            counts.add_if(!agree, "12: only a junk line differs");
        }
        _ => {}
    }
}

fn count_served(Pair { a, states, .. }: &Pair, masks: &[u64], counts: &mut Counts) {
    let n = a.lines;
    counts.add_if(states.is_empty(), "served: no states");
    counts.add_if(
        states.is_empty() && masks.chunks(2).any(|two| two[0] & two[1] != 0),
        "served: no states, a line stands in both masks",
    );
    counts.add_if(states.len() == 1, "served: one state");
    counts.add_if(states.len() >= 1_000, "served: 1,000 states or more");
    let twice = states.len() > 1 && states[1..].contains(&states[0]);
    counts.add_if(twice, "served: a state twice");
    let most = masks.len() == GATE_MASKS * CASCADE_GATES;
    counts.add_if(most, "served: as many gates as the limit");
    counts.add_if(masks.is_empty(), "served: no gates");
    counts.add_if(n == 1, "served: n = 1");
    counts.add_if(n == 64, "served: n = 64");
    counts.add_if(
        n == 64 && masks.iter().any(|mask| has(*mask, 63)),
        "served: n = 64, line 63 stands",
    );
    let stands = |lines| masks.iter().any(|mask| mask & lines != 0);
    counts.add_if(stands(a.marks.constants), "served: a constant stands");
    counts.add_if(stands(a.marks.junk), "served: a junk line stands");
    counts.add_if(
        masks.len() > 1 && masks[0] | masks[1] == 0,
        "served: every line of the first gate struck",
    );
}
