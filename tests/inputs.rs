//! Inputs of the calls: line counts, gates, cascades good and damaged, marks, states, buffer lengths.

use crate::random::Random;
use crate::reference::{self, Gate, Header, CASCADE_GATES, MITER_GATES};

/// The gates of a long cascade, where as many as the limit would take long.
pub const LONG: usize = 2_048;

/// A line count, marks and words as a call gets them, good or bad, and a state to start from.
#[derive(Clone, Debug)]
pub struct Cascade {
    pub lines: u64,
    pub marks: Marks,
    pub words: Vec<u64>,
    pub state: u64,
}

/// What a header has besides the line count.
#[derive(Clone, Copy, Debug, Default, PartialEq)]
pub struct Marks {
    pub constants: u64,
    pub values: u64,
    pub junk: u64,
}

impl Cascade {
    pub fn new(lines: u64, words: Vec<u64>, state: u64) -> Cascade {
        Cascade {
            lines,
            marks: Marks::default(),
            words,
            state,
        }
    }

    pub fn header(&self) -> Header {
        let Marks {
            constants,
            values,
            junk,
        } = self.marks;
        Header {
            lines: self.lines,
            constants,
            values,
            junk,
        }
    }

    /// As a file, where it is good.
    pub fn text(&self) -> Vec<u8> {
        reference::text_of(self.header(), &reference::gates_of(&self.words))
    }

    /// With other marks; the state honours the constants.
    pub fn with_marks(self, marks: Marks) -> Cascade {
        Cascade {
            marks,
            state: self.state & !marks.constants | marks.values,
            ..self
        }
    }
}

/// The words without marks and with state 0.
pub fn from_zero(lines: u64, words: Vec<u64>) -> Cascade {
    Cascade::new(lines, words, 0)
}

// ---- lines and states

const BAD_LINE_COUNTS: [u64; 12] = [
    0,
    65,
    66,
    127,
    128,
    (1 << 8) + 8,
    1 << 32,
    (1 << 32) + 8,
    (1 << 32) + 64,
    1 << 63,
    u64::MAX - 63,
    u64::MAX,
];

fn good_line_count(random: &mut Random) -> u64 {
    match random.below(4) {
        0 => random.pick(&[1, 2, 31, 32, 33, 62, 63, 64]),
        1 => 1 + random.below(64),
        _ => 1 + random.below(8),
    }
}

fn bad_line_count(random: &mut Random) -> u64 {
    if random.one_in(4) {
        65 + random.below(u64::MAX - 65)
    } else {
        random.pick(&BAD_LINE_COUNTS)
    }
}

/// The mask of the lines below n that a word has: 2^n - 1, or 2^64 - 1.
pub fn all_lines(n: u64) -> u64 {
    if n >= 64 {
        u64::MAX
    } else {
        (1 << n) - 1
    }
}

/// The states around the limit for n lines; all up to it where n is small.
pub fn edge_states(n: u64) -> Vec<u64> {
    let last = all_lines(n);
    let mut states: Vec<u64> = if n <= 3 {
        (0..last).collect()
    } else {
        vec![0, 1, last / 2]
    };
    states.push(last);
    if n < 64 {
        states.extend([last + 1, last + 2, u64::MAX]);
    }
    states
}

/// A state for the cascade: mostly its own, else one around the limit or any word.
pub fn state(random: &mut Random, cascade: &Cascade) -> u64 {
    let last = all_lines(cascade.lines);
    match random.below(10) {
        0 => last,
        1 => last.wrapping_add(1),
        2 => last & random.word(),
        3 => random.word(),
        4 => cascade.state ^ (1 << random.below(64)) & last,
        _ => cascade.state,
    }
}

// ---- gates

/// A gate on n lines; its controls are often met in the given state, or all but one.
fn gate(random: &mut Random, n: u64, state: u64) -> [u64; 3] {
    let target = match random.below(8) {
        0 => 0,
        1 => n - 1,
        _ => random.below(n),
    };
    let controls = control_lines(random, n) & all_lines(n) & !(1 << target);
    let met = match random.below(5) {
        0 => random.word(),
        1 => state ^ (1 << random.below(n)),
        _ => state,
    };
    [controls & met, controls & !met, target]
}

/// No line, one, few, half, or all.
fn control_lines(random: &mut Random, n: u64) -> u64 {
    match random.below(7) {
        0 => 0,
        1 | 2 => 1 << random.below(n),
        3 => random.word() & random.word() & random.word(),
        4 => random.word() & random.word(),
        5 => random.word(),
        _ => u64::MAX,
    }
}

/// All gates on n lines, where these are few.
pub fn every_gate(n: u64) -> Vec<Gate> {
    let mut gates = Vec::new();
    for positive in 0..1 << n {
        for negative in 0..1 << n {
            gates.extend((0..n).map(|target| Gate {
                positive,
                negative,
                target,
            }));
        }
    }
    gates.retain(|gate| gate.valid(n));
    gates
}

/// Changes a gate on n lines in one of the ways that 01 forbids.
fn damage_gate(random: &mut Random, n: u64, gate: &mut [u64]) {
    let target_bit = 1u64.wrapping_shl(gate[2] as u32);
    let mask = random.index(2);
    match random.below(6) {
        0 => gate[2] = n,
        1 => gate[2] = n + random.below(70),
        2 => gate[2] = gate[2].wrapping_add(random.word() << 6),
        3 => gate[mask] |= line_from(random, n),
        4 => {
            let line = (1 << random.below(n)) & !target_bit;
            gate[0] |= line;
            gate[1] |= line;
        }
        _ => gate[mask] |= target_bit,
    }
}

/// The bit of line n or of one above it; none where n is 64.
fn line_from(random: &mut Random, n: u64) -> u64 {
    match 64 - n {
        0 => 0,
        _ if random.one_in(2) => 1 << n,
        above => 1 << (n + random.below(above)),
    }
}

// ---- cascades

/// A cascade as a caller may pass it, mostly good. Each kind of damage comes alone and with others.
pub fn cascade(random: &mut Random, limit: usize) -> Cascade {
    if random.one_in(30) {
        return small_words(random);
    }
    let lines = good_line_count(random);
    let gates = gate_count(random, limit);
    let mut cascade = good_cascade(random, lines, gates);
    if random.one_in(5) {
        damage_gates(random, lines, &mut cascade.words);
    }
    if random.one_in(12) {
        damage_word_count(random, &mut cascade.words);
    }
    if random.one_in(12) {
        cascade.lines = bad_line_count(random);
    } else if random.one_in(20) {
        cascade.lines = good_line_count(random);
    }
    cascade
}

/// A cascade of valid gates, many of which fire when it starts from its state.
pub fn good_cascade(random: &mut Random, lines: u64, gates: usize) -> Cascade {
    let start = random.word() & all_lines(lines);
    let mut state = start;
    let mut words = Vec::with_capacity(3 * gates);
    for _ in 0..gates {
        let [positive, negative, target] = gate(random, lines, state);
        if (state ^ positive) & (positive | negative) == 0 {
            state ^= 1 << target;
        }
        words.extend([positive, negative, target]);
    }
    Cascade::new(lines, words, start)
}

/// Small numbers as words; many of them are gates.
fn small_words(random: &mut Random) -> Cascade {
    let lines = random.below(6);
    let len = random.index(13);
    let words = (0..len).map(|_| random.below(8)).collect();
    Cascade::new(lines, words, random.below(16))
}

fn gate_count(random: &mut Random, limit: usize) -> usize {
    match random.below(5_000) {
        0 => random.pick(&[limit - 1, limit, limit, limit + 1, limit + 2, 2 * limit]),
        1..=25 => random.index(LONG),
        26..=400 => 0,
        401..=1_050 => 1,
        _ => 2 + random.index(12),
    }
}

/// A cascade of valid gates on two lines or more, of which none matches a later one that it may be moved to:
/// each reads the target of the one before, and no line is a positive control of one gate and a negative
/// control of another.
pub fn blocked_cascade(random: &mut Random, lines: u64, gates: usize) -> Cascade {
    let start = random.word() & all_lines(lines);
    let positive = random.word();
    let mut words = Vec::with_capacity(3 * gates);
    let mut before = random.below(lines);
    for _ in 0..gates {
        let target = (before + 1 + random.below(lines - 1)) % lines;
        let mut controls = 1 << before;
        if random.one_in(2) {
            controls |= control_lines(random, lines) & all_lines(lines) & !(1 << target);
        }
        words.extend([controls & positive, controls & !positive, target]);
        before = target;
    }
    Cascade::new(lines, words, start)
}

/// Damages up to three gates, the first and the last often among them.
fn damage_gates(random: &mut Random, lines: u64, words: &mut [u64]) {
    let gates = words.len() / 3;
    if gates == 0 {
        return;
    }
    for _ in 0..1 + random.below(3) {
        let any = random.index(gates);
        let index = random.pick(&[0, gates - 1, any, any]);
        damage_gate(random, lines, &mut words[3 * index..3 * index + 3]);
    }
}

fn damage_word_count(random: &mut Random, words: &mut Vec<u64>) {
    if random.one_in(2) {
        words.truncate(words.len().saturating_sub(1 + random.index(2)));
    } else {
        words.extend([0, 0].iter().take(1 + random.index(2)));
    }
}

// ---- marks

/// A cascade as `cascade` draws it, with marks.
pub fn marked_cascade(random: &mut Random) -> Cascade {
    let cascade = cascade(random, CASCADE_GATES);
    let marks = any_marks(random, cascade.lines);
    cascade.with_marks(marks)
}

/// Mostly good marks on n lines.
fn any_marks(random: &mut Random, n: u64) -> Marks {
    let mut marks = good_marks(random, n);
    if random.one_in(12) {
        damage_marks(random, n, &mut marks);
    }
    marks
}

/// Good marks on n lines: none, or constants and junk lines, each often on no line or on all.
pub fn good_marks(random: &mut Random, n: u64) -> Marks {
    if random.one_in(4) {
        return Marks::default();
    }
    let constants = marked_lines(random, n);
    Marks {
        constants,
        values: constants & random.word(),
        junk: marked_lines(random, n),
    }
}

/// No line, one, few, half, or all, of n.
fn marked_lines(random: &mut Random, n: u64) -> u64 {
    let any = random.word();
    let lines = match random.below(8) {
        0 | 1 => 0,
        2 => 1u64.wrapping_shl(any as u32),
        3 => u64::MAX,
        4 => any,
        _ => any & random.word(),
    };
    lines & all_lines(n)
}

/// Changes marks on n lines in one of the ways that T-03 forbids.
pub fn damage_marks(random: &mut Random, n: u64, marks: &mut Marks) {
    let above = if n < 64 { line_from(random, n) } else { 0 };
    match random.below(4) {
        0 if above != 0 => marks.constants |= above,
        1 if above != 0 => marks.junk |= above,
        2 if above != 0 => {
            marks.constants |= above;
            marks.values |= above;
        }
        _ => {
            let line = 1 << random.below(64);
            marks.constants &= !line;
            marks.values |= line;
        }
    }
}

/// Other marks that are good on n lines, where there are such: a constant more or less, with value 0, the
/// value of a constant, a junk line more or less, or any.
fn change_marks(random: &mut Random, n: u64, marks: &mut Marks) {
    let line = 1u64.wrapping_shl(random.word() as u32) & all_lines(n);
    match random.below(4) {
        0 => marks.constants ^= line & !marks.values,
        1 => marks.values ^= line & marks.constants,
        2 => marks.junk ^= line,
        _ => *marks = good_marks(random, n),
    }
}

/// Constants that all the states honour, where there are states, and junk lines, of n.
pub fn honoured_marks(random: &mut Random, n: u64, states: &[u64]) -> Marks {
    let first = states.first().copied().unwrap_or(random.word());
    let alike = states
        .iter()
        .fold(u64::MAX, |alike, state| alike & !(first ^ state));
    let constants = marked_lines(random, n) & alike;
    Marks {
        constants,
        values: constants & first,
        junk: marked_lines(random, n),
    }
}

/// Hands over each kind of mark at each line of a word, for each n.
pub fn each_mark(check: &mut impl FnMut(Cascade)) {
    for lines in 1..=64 {
        for line in 0..64 {
            for kinds in 1..8 {
                let [constants, values, junk] = [0, 1, 2].map(|kind| (kinds >> kind & 1) << line);
                let marks = Marks {
                    constants,
                    values,
                    junk,
                };
                check(from_zero(lines, vec![]).with_marks(marks));
            }
        }
    }
}

// ---- cascades for steps

/// A cascade, mostly one of up to 2,048 gates with matches, else any.
pub fn any_or_matching(random: &mut Random) -> Cascade {
    if random.one_in(4) {
        cascade(random, LONG)
    } else {
        matching_cascade(random, LONG)
    }
}

/// As many gates as a miter may have, of which none matches but the first two, where the first choice says so,
/// and the last two, where the second does: these are the same gate twice.
pub fn few_matches(random: &mut Random, [first, last]: [bool; 2]) -> Cascade {
    let lines = 3 + random.below(62);
    let mut cascade = blocked_cascade(random, lines, MITER_GATES);
    if first {
        cascade.words.copy_within(3..6, 0);
    }
    if last {
        let at = 3 * (MITER_GATES - 2);
        cascade.words.copy_within(at..at + 3, at + 3);
    }
    cascade
}

/// A cascade of valid gates of which many match: few lines, gates copied and slightly changed, and
/// halves that are equal.
fn matching_cascade(random: &mut Random, limit: usize) -> Cascade {
    let lines = match random.below(4) {
        0 => random.pick(&[1, 2, 63, 64]),
        _ => 2 + random.below(5),
    };
    let gates = match random.below(200) {
        0 => limit - random.index(2),
        1..=20 => random.index(3),
        _ => 2 + random.index(14),
    };
    let mut words = good_cascade(random, lines, gates).words;
    match random.below(4) {
        0 => mirror(random, lines, &mut words),
        1 => {}
        _ => repeat_gates(random, lines, &mut words),
    }
    Cascade::new(lines, words, random.word() & all_lines(lines))
}

/// Makes the second half the first one reversed, and changes a few gates.
fn mirror(random: &mut Random, lines: u64, words: &mut [u64]) {
    let gates = words.len() / 3;
    for i in 0..gates / 2 {
        let last = gates - 1 - i;
        words.copy_within(3 * i..3 * i + 3, 3 * last);
    }
    for _ in 0..random.index(3) {
        change_gate(random, lines, words);
    }
}

/// Copies gates over others, some with a change.
fn repeat_gates(random: &mut Random, lines: u64, words: &mut [u64]) {
    let gates = words.len() / 3;
    for _ in 0..gates.min(12) {
        let (from, to) = (random.index(gates), random.index(gates));
        words.copy_within(3 * from..3 * from + 3, 3 * to);
        if random.one_in(2) {
            change_gate(random, lines, words);
        }
    }
}

/// Takes a control from a gate, gives it one, or reverses one; the gate stays valid.
fn change_gate(random: &mut Random, lines: u64, words: &mut [u64]) {
    if words.is_empty() {
        return;
    }
    let at = 3 * random.index(words.len() / 3);
    let line = 1 << random.below(lines);
    if line == 1 << words[at + 2] {
        return;
    }
    words[at] &= !line;
    words[at + 1] &= !line;
    if random.one_in(3) {
        return;
    }
    words[at + random.index(2)] |= line;
}

/// A cascade with the chosen faults: a bad line count, a left-over word, a gate too many, a bad gate.
pub fn faulty_cascade(random: &mut Random, faults: [bool; 4], limit: usize) -> Cascade {
    let lines = good_line_count(random);
    let gates = if faults[2] {
        limit + 1
    } else {
        1 + random.index(4)
    };
    let mut cascade = good_cascade(random, lines, gates);
    if faults[3] {
        cascade.words[2] = 64 + random.below(9);
    }
    if faults[1] {
        cascade.words.push(0);
    }
    if faults[0] {
        cascade.lines = bad_line_count(random);
    }
    cascade
}

// ---- two cascades

/// Hands over two cascades with each choice of faults, on the same lines and on any; where one has a gate too
/// many, with one fault more at most.
pub fn each_faulty_pair(
    random: &mut Random,
    check: &mut impl FnMut(&mut Random, Cascade, Cascade),
) {
    for mask in 0..256u32 {
        let faults = |shift: u32| [0, 1, 2, 3].map(|bit| mask >> (shift + bit) & 1 == 1);
        if (faults(0)[2] || faults(4)[2]) && mask.count_ones() > 2 {
            continue;
        }
        for same_lines in [true, false] {
            let a = faulty_cascade(random, faults(0), CASCADE_GATES);
            let mut b = faulty_cascade(random, faults(4), CASCADE_GATES);
            if same_lines {
                b.lines = a.lines;
            }
            check(random, a, b);
        }
    }
    each_long_pair(random, check);
}

/// Hands over two cascades of which one has a gate too many, or both, on 64 lines and on 17.
pub fn each_long_pair(
    random: &mut Random,
    check: &mut impl FnMut(&mut Random, Cascade, Cascade),
) {
    for [first, second] in [[64, 64], [64, 17], [17, 64]] {
        for over in [[true, false], [false, true], [true, true]] {
            let [a, b] = over.map(|over| if over { CASCADE_GATES + 1 } else { 2 });
            let a = blocked_cascade(random, first, a);
            let b = blocked_cascade(random, second, b);
            check(random, a, b);
        }
    }
}

/// The same with each choice of bad marks besides, and with the same marks and any.
pub fn each_faulty_marked_pair(
    random: &mut Random,
    check: &mut impl FnMut(&mut Random, Cascade, Cascade),
) {
    each_faulty_pair(random, &mut |random, a, b| {
        for (bad, same) in [
            ([false, false], true),
            ([false, false], false),
            ([true, false], true),
            ([false, true], true),
            ([true, true], false),
        ] {
            let mut marks = [good_marks(random, a.lines), good_marks(random, b.lines)];
            if same {
                marks[1] = marks[0];
            }
            for (which, lines) in [a.lines, b.lines].into_iter().enumerate() {
                if bad[which] {
                    damage_marks(random, lines, &mut marks[which]);
                }
            }
            let (a, b) = (a.clone(), b.clone());
            check(random, a.with_marks(marks[0]), b.with_marks(marks[1]));
        }
    });
    // other marks, and all lines junk
    each_long_pair(random, &mut |random, a, b| {
        let junk = [a.lines, b.lines].map(|lines| Marks {
            junk: all_lines(lines),
            ..Marks::default()
        });
        check(random, a.clone(), b.clone().with_marks(junk[1]));
        check(random, a.with_marks(junk[0]), b.with_marks(junk[1]));
    });
}

/// Two cascades, mostly on the same lines, the second often the first or nearly so.
pub fn pair(random: &mut Random) -> (Cascade, Cascade) {
    let a = cascade(random, CASCADE_GATES);
    let mut b = cascade(random, CASCADE_GATES);
    if random.one_in(2) {
        b = a.clone();
    }
    if random.one_in(4) && reference::test_cascade(b.lines, &b.words, CASCADE_GATES).is_ok() {
        change_gate(random, b.lines, &mut b.words);
    }
    if !random.one_in(6) {
        b.lines = a.lines;
    }
    (a, b)
}

/// The same with marks, mostly the same ones.
pub fn marked_pair(random: &mut Random) -> (Cascade, Cascade) {
    let (a, b) = pair(random);
    let mut marks = any_marks(random, a.lines);
    let a = a.with_marks(marks);
    if random.one_in(6) {
        change_marks(random, b.lines, &mut marks);
    }
    if random.one_in(12) {
        damage_marks(random, b.lines, &mut marks);
    }
    (a, b.with_marks(marks))
}

/// A control that a gate of the suspect lacks.
#[derive(Clone, Copy, Debug)]
pub struct Missing {
    pub gate: usize,
    pub line: u64,
    pub positive: bool,
}

/// A suspect that lacks one control of the reference, and states on which the two differ: before the
/// gate, its other controls are met and the missing one is not.
pub fn suspect(right: &Cascade, missing: Missing, states: &[u64]) -> (Cascade, Vec<u64>) {
    let mut suspect = right.clone();
    let at = 3 * missing.gate;
    let bit = 1 << missing.line;
    suspect.words[at] &= !bit;
    suspect.words[at + 1] &= !bit;
    let (before, gate) = (&suspect.words[..at], &suspect.words[at..at + 3]);
    let not_met = if missing.positive { 0 } else { bit };
    let input = |state: &u64| {
        let failing = ((state | gate[0]) & !gate[1] & !bit) | not_met;
        before.rchunks(3).fold(failing, |state, gate| {
            let fires = (state ^ gate[0]) & (gate[0] | gate[1]) == 0;
            state ^ (u64::from(fires) << gate[2])
        })
    };
    let states = states.iter().map(input).collect();
    (suspect, states)
}

/// One of the controls of a cascade's gates, where it has any.
pub fn any_control(random: &mut Random, cascade: &Cascade) -> Option<Missing> {
    let mut controls = Vec::new();
    for (gate, words) in cascade.words.chunks(3).enumerate() {
        for line in 0..64 {
            for (mask, positive) in [(words[0], true), (words[1], false)] {
                if mask >> line & 1 == 1 {
                    controls.push(Missing {
                        gate,
                        line,
                        positive,
                    });
                }
            }
        }
    }
    (!controls.is_empty()).then(|| random.pick(&controls))
}

// ---- gates by the number of their controls

/// Hands over every k from 0 to 63 with the masks of all positive, all negative and mixed controls.
pub fn each_control_count(check: &mut impl FnMut(u32, u64)) {
    for controls in 0..64 {
        for positive in [u64::MAX, 0, 0x5555_5555_5555_5555] {
            check(controls, positive);
        }
    }
}

/// A gate on 64 lines with so many controls, those in `positive` positive.
pub fn with_controls(random: &mut Random, controls: u32, positive: u64) -> [u64; 3] {
    let target = random.below(64);
    let mut mask: u64 = 0;
    while mask.count_ones() < controls {
        mask |= (1 << random.below(64)) & !(1 << target);
    }
    [mask & positive, mask & !positive, target]
}

/// As many gates as a miter may have, each with all lines of 64.
pub fn longest(random: &mut Random) -> Vec<u64> {
    (0..MITER_GATES)
        .flat_map(|_| with_controls(random, 63, 0x0123_4567_89ab_cdef))
        .collect()
}

/// Two cascades on as many lines, two or more, each of as many gates as the limit, of which one differs.
pub fn longest_pair(random: &mut Random, lines: u64) -> (Cascade, Cascade) {
    let a = blocked_cascade(random, lines, CASCADE_GATES);
    let mut b = a.clone();
    let at = 3 * random.index(CASCADE_GATES);
    b.words[at..at + 3].copy_from_slice(&[0, 0, random.below(lines)]);
    (a, b)
}

/// Hands over pairs whose clauses are asked for: with each choice of faults and of bad marks, with each
/// kind of mark, with each number of controls, and with as many gates as two cascades may have.
pub fn each_pair_for_clauses(
    random: &mut Random,
    check: &mut impl FnMut(&mut Random, Cascade, Cascade),
) {
    each_faulty_marked_pair(random, check);
    each_mark(&mut |a| check(random, a.clone(), a));
    each_control_count(&mut |controls, positive| {
        let marks = some_marks(random);
        let mut side = || {
            // a first gate makes a line's current variable another than its input
            let before = [0, 0, random.below(64)];
            let gate = with_controls(random, controls, positive);
            from_zero(64, [before, gate].concat()).with_marks(marks)
        };
        let (a, b) = (side(), side());
        check(random, a, b);
    });
    let words = longest(random);
    let (first, second) = words.split_at(3 * CASCADE_GATES);
    let all = Marks {
        constants: u64::MAX,
        values: random.word(),
        junk: 0,
    };
    for marks in [Marks::default(), all] {
        let side = |words: &[u64]| from_zero(64, words.to_vec()).with_marks(marks);
        check(random, side(first), side(second));
    }
}

/// Good marks on 64 lines, with a junk line or more.
fn some_marks(random: &mut Random) -> Marks {
    let mut marks = good_marks(random, 64);
    marks.junk |= 1 << random.below(64);
    marks
}

// ---- every edge of the rules

/// Hands over cascades of one gate at every edge of the rules, and long ones around the limit.
pub fn each_edge(random: &mut Random, limit: usize, check: &mut impl FnMut(Cascade)) {
    each_small_gate(check);
    each_control(check);
    each_target(check);
    each_long_cascade(random, limit, check);
}

fn one_gate(lines: u64, gate: [u64; 3]) -> Cascade {
    from_zero(lines, gate.to_vec())
}

/// All words of one gate that go at most one line over n, for n up to 3.
fn each_small_gate(check: &mut impl FnMut(Cascade)) {
    for lines in 0..=3 {
        for positive in 0..2 << lines {
            for negative in 0..2 << lines {
                for target in 0..lines + 2 {
                    check(one_gate(lines, [positive, negative, target]));
                }
            }
        }
    }
}

/// One control at each line of a word, in each mask, for each n.
fn each_control(check: &mut impl FnMut(Cascade)) {
    for lines in 1..=64 {
        for control in 0..64 {
            let target = if control == 0 { 1 } else { 0 };
            check(one_gate(lines, [1 << control, 0, target]));
            check(one_gate(lines, [0, 1 << control, target]));
        }
    }
}

/// Each target below 67 for each n, and the same ones with high bits set.
fn each_target(check: &mut impl FnMut(Cascade)) {
    for lines in 1..=64 {
        for target in 0..67 {
            check(one_gate(lines, [0, 0, target]));
            check(one_gate(lines, [0, 0, target + (1 << 32)]));
            check(one_gate(lines, [0, 0, u64::MAX - target]));
        }
    }
}

/// Few gates and a long cascade with good and bad n, left-over words and bad gates; and gate counts around the
/// limit with each of these.
fn each_long_cascade(random: &mut Random, limit: usize, check: &mut impl FnMut(Cascade)) {
    let mut each = |random: &mut Random, gates, lines: u64, left_over: usize, places: &[[usize; 2]]| {
        let gates_on = if (1..=64).contains(&lines) { lines } else { 8 };
        let draw = if gates > LONG { blocked_cascade } else { good_cascade };
        let mut good = draw(random, gates_on, gates);
        good.lines = lines;
        good.words.extend(&[0, 0][..left_over]);
        each_bad_place(&good, places, &mut *check);
    };
    for gates in [0, 1, 2, 100] {
        for lines in [0, 1, 8, 63, 64, 65, u64::MAX] {
            for left_over in 0..3 {
                each(random, gates, lines, left_over, &bad_places(gates));
            }
        }
    }
    for gates in [limit - 1, limit, limit + 1, 2 * limit] {
        each(random, gates, 2, 0, &bad_places(gates));
        each(random, gates, 64, 0, &bad_places(gates));
        for (lines, left_over) in [(0, 0), (0, 1), (65, 0), (u64::MAX, 0), (8, 1), (63, 2)] {
            each(random, gates, lines, left_over, &[[gates - 1; 2]]);
        }
    }
}

/// First, in the middle, last, and both first and last.
fn bad_places(gates: usize) -> Vec<[usize; 2]> {
    match gates {
        0 => vec![],
        _ => vec![[0, 0], [gates / 2, gates / 2], [gates - 1, gates - 1], [0, gates - 1]],
    }
}

/// The cascade itself, then with bad gates at each two of the places.
fn each_bad_place(good: &Cascade, places: &[[usize; 2]], check: &mut impl FnMut(Cascade)) {
    check(good.clone());
    for two in places {
        let mut cascade = good.clone();
        for place in two {
            cascade.words[3 * place + 2] = 64;
        }
        check(cascade);
    }
}

// ---- buffers

/// The lengths around what an answer needs; fewer where that is long.
pub fn edge_lengths(needed: usize) -> Vec<usize> {
    if needed > 3 * LONG {
        return vec![needed, 0, needed - 1];
    }
    let mut lengths = vec![needed, needed + 1, needed + 3];
    if needed > 0 {
        lengths.extend([0, needed - 1]);
    }
    lengths
}

/// A buffer's length: mostly enough for an answer, else too short.
pub fn buffer_length(random: &mut Random, needed: usize) -> usize {
    match random.below(10) {
        0 => needed.saturating_sub(1),
        1 => random.index(needed + 1),
        2 => 0,
        3 => needed + 1,
        4 | 5 => needed + random.index(20),
        _ => needed,
    }
}
