//! The rules of document 01, a second time, with the requests of document 02 that have landed (T-01, T-03, T-04).
//! Every rule is spelled line by line and in the document's order, so that it can be held against the
//! text. No code is shared with the crates, and speed is no aim. A call of 01 is a function here: it
//! answers its values, or the refusal.

/// The most gates of one cascade.
pub const CASCADE_GATES: usize = 16_384;

/// The most gates of a miter: for step, reduction, sizes and emission.
pub const MITER_GATES: usize = 32_768;

/// The masks of a gate of the suspect.
pub const GATE_MASKS: usize = 2;

/// The number and the place of a refusal.
#[derive(Clone, Copy, Debug, PartialEq)]
pub struct Refusal {
    pub number: u64,
    pub place: u64,
}

fn refuse<T>(number: u64, place: u64) -> Result<T, Refusal> {
    Err(Refusal { number, place })
}

// ---- gate

/// Three words: positive mask, negative mask, target number.
#[derive(Clone, Copy, Debug, PartialEq)]
pub struct Gate {
    pub positive: u64,
    pub negative: u64,
    pub target: u64,
}

/// Whether the word has a 1 at the line, which is below 64.
pub fn has(word: u64, line: u64) -> bool {
    (word >> line) % 2 == 1
}

impl Gate {
    /// The words form a gate on n lines.
    pub fn valid(self, n: u64) -> bool {
        if self.target >= n {
            return false;
        }
        for line in 0..64 {
            let positive = has(self.positive, line);
            let negative = has(self.negative, line);
            if (positive || negative) && line >= n {
                return false;
            }
            if positive && negative {
                return false;
            }
            if (positive || negative) && line == self.target {
                return false;
            }
        }
        true
    }

    /// All positive controls are 1 and all negative ones 0.
    pub fn fires(self, state: u64) -> bool {
        for line in 0..64 {
            if has(self.positive, line) && !has(state, line) {
                return false;
            }
            if has(self.negative, line) && has(state, line) {
                return false;
            }
        }
        true
    }

    /// The polarity of the control at a line below 64, where there is one.
    pub fn control(self, line: u64) -> Option<bool> {
        if has(self.positive, line) {
            return Some(true);
        }
        if has(self.negative, line) {
            return Some(false);
        }
        None
    }

    /// The gate with another control, or none, at the line.
    fn with_control(self, line: u64, control: Option<bool>) -> Gate {
        let mut gate = Gate {
            positive: 0,
            negative: 0,
            target: self.target,
        };
        for k in 0..64 {
            match if k == line { control } else { self.control(k) } {
                Some(true) => gate.positive += 1 << k,
                Some(false) => gate.negative += 1 << k,
                None => {}
            }
        }
        gate
    }

    /// The new state; the same one if the record is no gate on 64 lines.
    pub fn apply(self, state: u64) -> u64 {
        if !self.valid(64) {
            return state;
        }
        let fires = self.fires(state);
        let mut new_state = 0;
        for line in 0..64 {
            let inverted = fires && line == self.target;
            if has(state, line) != inverted {
                new_state += 1 << line;
            }
        }
        new_state
    }
}

/// The whole gates of the words; up to two words that are left over form none.
pub fn gates_of(words: &[u64]) -> Vec<Gate> {
    let mut gates = Vec::new();
    let mut at = 0;
    while at + 3 <= words.len() {
        gates.push(Gate {
            positive: words[at],
            negative: words[at + 1],
            target: words[at + 2],
        });
        at += 3;
    }
    gates
}

// ---- header

/// What a cascade has besides its gates: the line count, and the marks of T-03. The input of a line of
/// `constants` is tied to that line's bit of `values`; the output of a line of `junk` is ignored.
#[derive(Clone, Copy, Debug, PartialEq)]
pub struct Header {
    pub lines: u64,
    pub constants: u64,
    pub values: u64,
    pub junk: u64,
}

impl Header {
    pub fn unmarked(lines: u64) -> Header {
        Header {
            lines,
            constants: 0,
            values: 0,
            junk: 0,
        }
    }

    /// Constants or junk are not 0.
    pub fn marked(self) -> bool {
        self.constants != 0 || self.junk != 0
    }

    /// The state is below 2^n and honours the constants.
    pub fn permits(self, state: u64) -> bool {
        let honours = |k| !has(self.constants, k) || has(state, k) == has(self.values, k);
        !bad_state(self.lines, state) && (0..64).all(honours)
    }

    /// Two outputs are alike on all lines but the junk ones.
    pub fn alike(self, one: u64, other: u64) -> bool {
        (0..64).all(|k| k >= self.lines || has(self.junk, k) || has(one, k) == has(other, k))
    }
}

// ---- what is wrong with a call, each test by itself

/// 2: n outside 1 to 64.
pub fn bad_line_count(n: u64) -> bool {
    n == 0 || n > 64
}

/// 14: a mark at n or above, or value 1 on a line that is no constant.
pub fn bad_marks(header: Header) -> bool {
    for line in 0..64 {
        let constant = has(header.constants, line);
        if (constant || has(header.junk, line)) && line >= header.lines {
            return true;
        }
        if has(header.values, line) && !constant {
            return true;
        }
    }
    false
}

/// 15: different marks.
pub fn different_marks(first: Header, second: Header) -> bool {
    let marks = |header: Header| (header.constants, header.values, header.junk);
    marks(first) != marks(second)
}

/// 11: word count not a multiple of three.
pub fn bad_word_count(words: &[u64]) -> bool {
    words.len() % 3 != 0
}

/// 6: more gates than the limit.
pub fn too_many_gates(words: &[u64], limit: usize) -> bool {
    words.len() / 3 > limit
}

/// 7: the index of the first gate that is none on n lines.
pub fn first_bad_gate(n: u64, words: &[u64]) -> Option<u64> {
    for (index, gate) in gates_of(words).iter().enumerate() {
        if !gate.valid(n) {
            return Some(index as u64);
        }
    }
    None
}

/// 9: a state of 2^n or more, that is, with a 1 at line n or above.
pub fn bad_state(n: u64, state: u64) -> bool {
    for line in 0..64 {
        if has(state, line) && line >= n {
            return true;
        }
    }
    false
}

/// 10: the buffer is shorter than the answer.
pub fn short_buffer<T>(out: &[T], answer: usize) -> bool {
    out.len() < answer
}

// ---- the tests in order

/// 2, 11, 6, 7 for one cascade; its gates where none holds.
pub fn test_cascade(n: u64, words: &[u64], limit: usize) -> Result<Vec<Gate>, Refusal> {
    if bad_line_count(n) {
        return refuse(2, 0);
    }
    if bad_word_count(words) {
        return refuse(11, 0);
    }
    if too_many_gates(words, limit) {
        return refuse(6, 0);
    }
    if let Some(index) = first_bad_gate(n, words) {
        return refuse(7, index);
    }
    Ok(gates_of(words))
}

/// 2, 14, 11, 6, 7 for one cascade with a header; its gates where none holds.
pub fn test_headed(header: Header, words: &[u64]) -> Result<Vec<Gate>, Refusal> {
    if bad_line_count(header.lines) {
        return refuse(2, 0);
    }
    if bad_marks(header) {
        return refuse(14, 0);
    }
    test_cascade(header.lines, words, CASCADE_GATES)
}

/// The tests of the first cascade, those of the second, then 8.
pub fn test_pair(
    na: u64,
    a: &[u64],
    nb: u64,
    b: &[u64],
) -> Result<(Vec<Gate>, Vec<Gate>), Refusal> {
    let first = test_cascade(na, a, CASCADE_GATES)?;
    let second = test_cascade(nb, b, CASCADE_GATES)?;
    if na != nb {
        return refuse(8, 0);
    }
    Ok((first, second))
}

/// The same for two cascades with headers, then 15.
pub fn test_headed_pair(
    a_header: Header,
    a: &[u64],
    b_header: Header,
    b: &[u64],
) -> Result<(Vec<Gate>, Vec<Gate>), Refusal> {
    let first = test_headed(a_header, a)?;
    let second = test_headed(b_header, b)?;
    if a_header.lines != b_header.lines {
        return refuse(8, 0);
    }
    if different_marks(a_header, b_header) {
        return refuse(15, 0);
    }
    Ok((first, second))
}

// ---- run

/// The output state.
pub fn run(n: u64, words: &[u64], state: u64) -> Result<u64, Refusal> {
    let gates = test_cascade(n, words, CASCADE_GATES)?;
    if bad_state(n, state) {
        return refuse(9, 0);
    }
    let mut state = state;
    for gate in gates {
        state = gate.apply(state);
    }
    Ok(state)
}

/// The same of a list of gate records, which has no word count: 2, 6, 7, 9.
pub fn run_records(n: u64, gates: &[Gate], state: u64) -> Result<u64, Refusal> {
    if bad_line_count(n) {
        return refuse(2, 0);
    }
    if gates.len() > CASCADE_GATES {
        return refuse(6, 0);
    }
    if let Some(index) = gates.iter().position(|gate| !gate.valid(n)) {
        return refuse(7, index as u64);
    }
    if bad_state(n, state) {
        return refuse(9, 0);
    }
    Ok(gates.iter().fold(state, |state, gate| gate.apply(state)))
}

// ---- inverse

/// The gate count; the gates in reverse order are at the buffer's start.
pub fn inverse(n: u64, words: &[u64], out: &mut [u64]) -> Result<u64, Refusal> {
    let gates = test_cascade(n, words, CASCADE_GATES)?;
    if short_buffer(out, words.len()) {
        return refuse(10, 0);
    }
    let reversed: Vec<Gate> = gates.iter().rev().copied().collect();
    put(&reversed, out);
    Ok(gates.len() as u64)
}

// ---- miter

/// The gate count; A's gates and then B's reversed are at the buffer's start.
pub fn miter(na: u64, a: &[u64], nb: u64, b: &[u64], out: &mut [u64]) -> Result<u64, Refusal> {
    let (first, second) = test_pair(na, a, nb, b)?;
    let gates = miter_gates(&first, &second);
    if short_buffer(out, 3 * gates.len()) {
        return refuse(10, 0);
    }
    put(&gates, out);
    Ok(gates.len() as u64)
}

/// A's gates, then B's reversed.
pub fn miter_gates(first: &[Gate], second: &[Gate]) -> Vec<Gate> {
    first.iter().chain(second.iter().rev()).copied().collect()
}

/// Writes the gates' words at the buffer's start.
fn put(gates: &[Gate], out: &mut [u64]) {
    for (i, gate) in gates.iter().enumerate() {
        out[3 * i] = gate.positive;
        out[3 * i + 1] = gate.negative;
        out[3 * i + 2] = gate.target;
    }
}

// ---- reduction step

#[derive(Clone, Copy, Debug, PartialEq)]
pub enum Match {
    Pair,
    Drop,
    Turn,
}

/// 01: neither's target is a control of the other.
pub fn targets_uncontrolled(g: Gate, h: Gate) -> bool {
    h.control(g.target).is_none() && g.control(h.target).is_none()
}

/// T-01: neither target is a control of the other, or some line is a positive control of one and a
/// negative control of the other.
pub fn may_pass(g: Gate, h: Gate) -> bool {
    let opposing = |k| match (g.control(k), h.control(k)) {
        (Some(first), Some(second)) => first != second,
        _ => false,
    };
    targets_uncontrolled(g, h) || (0..64).any(opposing)
}

/// Which match holds of two gates, and the gate that remains.
pub fn matched(g: Gate, h: Gate) -> Option<(Match, Option<Gate>)> {
    if g.target != h.target {
        return None;
    }
    if (0..64).all(|k| g.control(k) == h.control(k)) {
        return Some((Match::Pair, None));
    }
    if let Some(line) = opposite_line(g, h) {
        return Some((Match::Drop, Some(g.with_control(line, None))));
    }
    for (longer, shorter) in [(g, h), (h, g)] {
        if let Some(line) = extra_line(longer, shorter) {
            let reversed = longer.control(line).map(|positive| !positive);
            return Some((Match::Turn, Some(longer.with_control(line, reversed))));
        }
    }
    None
}

/// The line of opposite polarity, where the control lines are the same and it is the only one.
fn opposite_line(g: Gate, h: Gate) -> Option<u64> {
    let mut opposite = Vec::new();
    for k in 0..64 {
        match (g.control(k), h.control(k)) {
            (Some(a), Some(b)) if a != b => opposite.push(k),
            (Some(_), None) | (None, Some(_)) => return None,
            _ => {}
        }
    }
    only(opposite)
}

/// The line that the longer has beyond those of the shorter, where the shared ones agree and it is
/// the only one.
fn extra_line(longer: Gate, shorter: Gate) -> Option<u64> {
    let mut extra = Vec::new();
    for k in 0..64 {
        match (longer.control(k), shorter.control(k)) {
            (Some(_), None) => extra.push(k),
            (None, Some(_)) => return None,
            (Some(a), Some(b)) if a != b => return None,
            _ => {}
        }
    }
    only(extra)
}

fn only(lines: Vec<u64>) -> Option<u64> {
    match lines[..] {
        [line] => Some(line),
        _ => None,
    }
}

/// What a step found.
#[derive(Clone, Copy, Debug, PartialEq)]
pub struct Found {
    pub i: usize,
    pub j: usize,
    pub kind: Match,
    pub gates: usize,
}

/// The lowest i, then the lowest j above i, that match where gate i may pass every gate between.
fn search(gates: &[Gate]) -> Option<(usize, usize, Match, Option<Gate>)> {
    for i in 0..gates.len() {
        for j in i + 1..gates.len() {
            if let Some((kind, remaining)) = matched(gates[i], gates[j]) {
                return Some((i, j, kind, remaining));
            }
            if !may_pass(gates[i], gates[j]) {
                break;
            }
        }
    }
    None
}

/// One step on the gates: gate i goes, place j takes the remaining gate or goes too.
fn step_gates(gates: &mut Vec<Gate>) -> Option<Found> {
    let (i, j, kind, remaining) = search(gates)?;
    match remaining {
        Some(gate) => gates[j] = gate,
        None => {
            gates.remove(j);
        }
    }
    gates.remove(i);
    Some(Found {
        i,
        j,
        kind,
        gates: gates.len(),
    })
}

/// Writes the gates, and 0 into each freed word at the end.
fn put_freed(gates: &[Gate], words: &mut [u64]) {
    put(gates, words);
    words[3 * gates.len()..].fill(0);
}

/// What one step found; the words are those of the gates that then stand.
pub fn step(n: u64, words: &mut [u64]) -> Result<Option<Found>, Refusal> {
    let mut gates = test_cascade(n, words, MITER_GATES)?;
    let found = step_gates(&mut gates);
    if found.is_some() {
        put_freed(&gates, words);
    }
    Ok(found)
}

// ---- full reduction

/// The gates left, the pairs, and the drops and turns.
#[derive(Clone, Copy, Debug, PartialEq)]
pub struct Reduced {
    pub gates: usize,
    pub pairs: u64,
    pub merges: u64,
}

/// Steps until none.
pub fn reduce(n: u64, words: &mut [u64]) -> Result<Reduced, Refusal> {
    let mut gates = test_cascade(n, words, MITER_GATES)?;
    let (mut pairs, mut merges) = (0, 0);
    while let Some(found) = step_gates(&mut gates) {
        match found.kind {
            Match::Pair => pairs += 1,
            Match::Drop | Match::Turn => merges += 1,
        }
    }
    put_freed(&gates, words);
    Ok(Reduced {
        gates: gates.len(),
        pairs,
        merges,
    })
}

// ---- clause list

/// A literal is its variable's number, negative for the negated variable.
#[derive(Clone, Debug, PartialEq)]
pub enum Clause {
    Or(Vec<i64>),
    Xor(Vec<i64>),
}

/// The clauses, and how many variables are numbered.
#[derive(Debug, PartialEq)]
pub struct ClauseList {
    pub variables: i64,
    pub clauses: Vec<Clause>,
}

/// The clauses of one gate. The new variables count on from `variables`.
fn gate_clauses(gate: Gate, variables: &mut i64, current: &mut [i64], clauses: &mut Vec<Clause>) {
    let target = gate.target as usize;
    let v = current[target];
    let mut controls = Vec::new();
    for line in 0..64 {
        if has(gate.positive, line) {
            controls.push(current[line as usize]);
        }
        if has(gate.negative, line) {
            controls.push(-current[line as usize]);
        }
    }
    let w;
    if controls.is_empty() {
        w = *variables + 1;
        clauses.push(Clause::Xor(vec![w, v]));
    } else if controls.len() == 1 {
        w = *variables + 1;
        clauses.push(Clause::Xor(vec![-w, v, controls[0]]));
    } else {
        let p = *variables + 1;
        w = p + 1;
        let mut first = vec![p];
        for c in &controls {
            first.push(-c);
        }
        clauses.push(Clause::Or(first));
        for c in &controls {
            clauses.push(Clause::Or(vec![-p, *c]));
        }
        clauses.push(Clause::Xor(vec![-w, v, p]));
    }
    *variables = w;
    current[target] = w;
}

/// The clause list of gates on n lines.
pub fn clause_list(n: u64, gates: &[Gate]) -> ClauseList {
    let inputs: Vec<i64> = (1..=n as i64).collect();
    let mut current = inputs.clone();
    let mut variables = n as i64;
    let mut clauses = Vec::new();
    for gate in gates {
        gate_clauses(*gate, &mut variables, &mut current, &mut clauses);
    }
    let mut all_d = Vec::new();
    for line in 0..n {
        let targeted = gates.iter().any(|gate| gate.target == line);
        let compared = [inputs[line as usize], current[line as usize]];
        all_d.push(d_clause(targeted, compared, &mut variables, &mut clauses));
    }
    clauses.push(Clause::Or(all_d));
    ClauseList { variables, clauses }
}

/// The clause of a line's d, a new variable: OR (-d) if no gate targets the line, else XOR (-d, the two
/// that are compared).
fn d_clause(
    targeted: bool,
    [one, other]: [i64; 2],
    variables: &mut i64,
    clauses: &mut Vec<Clause>,
) -> i64 {
    *variables += 1;
    let d = *variables;
    if targeted {
        clauses.push(Clause::Xor(vec![-d, one, other]));
    } else {
        clauses.push(Clause::Or(vec![-d]));
    }
    d
}

/// T-03: the clause list of two cascades with the same header. With marks: the inputs, a one-literal OR
/// per constant (negative for 0), A's gates, B's gates from the same inputs, a d for each line that
/// counts, the OR of these. Without marks it is that of their miter.
pub fn pair_list(header: Header, first: &[Gate], second: &[Gate]) -> ClauseList {
    let n = header.lines;
    if !header.marked() {
        return clause_list(n, &miter_gates(first, second));
    }
    let inputs: Vec<i64> = (1..=n as i64).collect();
    let mut variables = n as i64;
    let mut clauses = Vec::new();
    for line in 0..n {
        let input = inputs[line as usize];
        if has(header.constants, line) {
            let one = has(header.values, line);
            clauses.push(Clause::Or(vec![if one { input } else { -input }]));
        }
    }
    let mut of_a = inputs.clone();
    for gate in first {
        gate_clauses(*gate, &mut variables, &mut of_a, &mut clauses);
    }
    let mut of_b = inputs;
    for gate in second {
        gate_clauses(*gate, &mut variables, &mut of_b, &mut clauses);
    }
    let mut all_d = Vec::new();
    for line in 0..n {
        if has(header.junk, line) {
            continue;
        }
        let targeted = first.iter().chain(second).any(|gate| gate.target == line);
        let compared = [of_a[line as usize], of_b[line as usize]];
        all_d.push(d_clause(targeted, compared, &mut variables, &mut clauses));
    }
    clauses.push(Clause::Or(all_d));
    ClauseList { variables, clauses }
}

#[derive(Debug, PartialEq)]
pub struct Sizes {
    pub variables: u64,
    pub clauses: u64,
    pub words: u64,
}

/// The sizes of a list, counted on the list itself.
pub fn sizes_of(list: &ClauseList) -> Sizes {
    let words = list
        .clauses
        .iter()
        .map(|clause| stored(clause).len() as u64);
    Sizes {
        variables: list.variables as u64,
        clauses: list.clauses.len() as u64,
        words: words.sum(),
    }
}

/// The sizes of the clause list.
pub fn sizes(n: u64, words: &[u64]) -> Result<Sizes, Refusal> {
    let gates = test_cascade(n, words, MITER_GATES)?;
    Ok(sizes_of(&clause_list(n, &gates)))
}

/// The same of two cascades with headers.
pub fn pair_sizes(
    a_header: Header,
    a: &[u64],
    b_header: Header,
    b: &[u64],
) -> Result<Sizes, Refusal> {
    let (first, second) = test_headed_pair(a_header, a, b_header, b)?;
    Ok(sizes_of(&pair_list(a_header, &first, &second)))
}

/// The clause as it is stored: 0 for OR or 1 for XOR, the literal count, the literals.
fn stored(clause: &Clause) -> Vec<i64> {
    let (kind, literals) = match clause {
        Clause::Or(literals) => (0, literals),
        Clause::Xor(literals) => (1, literals),
    };
    let mut words = vec![kind, literals.len() as i64];
    words.extend(literals);
    words
}

/// 10, or the stored clauses at the buffer's start.
fn put_list(list: &ClauseList, out: &mut [i32]) -> Result<Sizes, Refusal> {
    let answer: Vec<i64> = list.clauses.iter().flat_map(stored).collect();
    if short_buffer(out, answer.len()) {
        return refuse(10, 0);
    }
    for (word, value) in out.iter_mut().zip(answer) {
        *word = i32::try_from(value).expect("every word of a list fits 32 bits");
    }
    Ok(sizes_of(list))
}

/// The sizes; the stored clauses are at the buffer's start.
pub fn emit(n: u64, words: &[u64], out: &mut [i32]) -> Result<Sizes, Refusal> {
    let gates = test_cascade(n, words, MITER_GATES)?;
    put_list(&clause_list(n, &gates), out)
}

/// The same of two cascades with headers.
pub fn pair_emit(
    a_header: Header,
    a: &[u64],
    b_header: Header,
    b: &[u64],
    out: &mut [i32],
) -> Result<Sizes, Refusal> {
    let (first, second) = test_headed_pair(a_header, a, b_header, b)?;
    put_list(&pair_list(a_header, &first, &second), out)
}

// ---- clause words of 16 and of 32 bits

/// The number of words; they are at the buffer's start, each with the same value.
pub fn widen(words: &[i16], out: &mut [i32]) -> Result<u64, Refusal> {
    if short_buffer(out, words.len()) {
        return refuse(10, 0);
    }
    for (place, word) in words.iter().enumerate() {
        out[place] = i32::from(*word);
    }
    Ok(words.len() as u64)
}

/// 16: the place of the first word outside -32,768 to 32,767.
pub fn first_wide_word(words: &[i32]) -> Option<u64> {
    for (place, word) in words.iter().enumerate() {
        if *word < -32_768 || *word > 32_767 {
            return Some(place as u64);
        }
    }
    None
}

/// 16, then 10; else the number of words, which are at the buffer's start, each with the same value.
pub fn narrow(words: &[i32], out: &mut [i16]) -> Result<u64, Refusal> {
    if let Some(place) = first_wide_word(words) {
        return refuse(16, place);
    }
    if short_buffer(out, words.len()) {
        return refuse(10, 0);
    }
    for (place, word) in words.iter().enumerate() {
        out[place] = i16::try_from(*word).expect("every word fits 16 bits");
    }
    Ok(words.len() as u64)
}

/// The clauses that words of either width store, one after the other to the last word; none where the
/// words are no such list.
pub fn clauses_of<W: Copy + Into<i64>>(words: &[W]) -> Option<Vec<Clause>> {
    let mut clauses = Vec::new();
    let mut at = 0;
    while at < words.len() {
        let count: i64 = (*words.get(at + 1)?).into();
        let end = at + 2 + usize::try_from(count).ok()?;
        let literals = words.get(at + 2..end)?;
        let literals = literals.iter().map(|literal| (*literal).into()).collect();
        clauses.push(match words[at].into() {
            0 => Clause::Or(literals),
            1 => Clause::Xor(literals),
            _ => return None,
        });
        at = end;
    }
    Some(clauses)
}

// ---- sweep

/// The most lines of a sweep.
pub const SWEEP_LINES: u64 = 16;

/// 13: a sweep with n over 16.
pub fn too_wide(n: u64) -> bool {
    n > SWEEP_LINES
}

/// The output of gates on a state.
fn output(gates: &[Gate], state: u64) -> u64 {
    gates.iter().fold(state, |state, gate| gate.apply(state))
}

/// The lowest permitted state on which the two differ, or none.
pub fn first_difference(
    a_header: Header,
    a: &[u64],
    b_header: Header,
    b: &[u64],
) -> Result<Option<u64>, Refusal> {
    let (first, second) = test_headed_pair(a_header, a, b_header, b)?;
    if too_wide(a_header.lines) {
        return refuse(13, 0);
    }
    for state in 0..1 << a_header.lines {
        let alike = a_header.alike(output(&first, state), output(&second, state));
        if a_header.permits(state) && !alike {
            return Ok(Some(state));
        }
    }
    Ok(None)
}

// ---- input check

/// Whether the two differ on the state.
pub fn differs(
    a_header: Header,
    a: &[u64],
    b_header: Header,
    b: &[u64],
    state: u64,
) -> Result<bool, Refusal> {
    let (first, second) = test_headed_pair(a_header, a, b_header, b)?;
    if !a_header.permits(state) {
        return refuse(9, 0);
    }
    Ok(!a_header.alike(output(&first, state), output(&second, state)))
}

// ---- pick

/// Which of two cascades is picked, and how many gates it has.
#[derive(Clone, Copy, Debug, PartialEq)]
pub struct Picked {
    pub second: bool,
    pub gates: usize,
}

/// The one with fewer gates, the first on a tie.
pub fn pick(na: u64, a: &[u64], nb: u64, b: &[u64]) -> Result<Picked, Refusal> {
    let (first, second) = test_pair(na, a, nb, b)?;
    if second.len() < first.len() {
        return Ok(Picked {
            second: true,
            gates: second.len(),
        });
    }
    Ok(Picked {
        second: false,
        gates: first.len(),
    })
}

// ---- faults

/// 9: the index of the first state of the list that is 2^n or more or breaks a constant.
pub fn first_bad_state(header: Header, states: &[u64]) -> Option<u64> {
    let index = states.iter().position(|state| !header.permits(*state))?;
    Some(index as u64)
}

/// 12: the index of the first state of the list on which the two agree.
pub fn first_agreeing_state(
    header: Header,
    suspect: &[Gate],
    reference: &[Gate],
    states: &[u64],
) -> Option<u64> {
    let agree = |state: &u64| header.alike(output(suspect, *state), output(reference, *state));
    Some(states.iter().position(agree)? as u64)
}

/// The lines that may be a missing positive control of the gate, and a missing negative one. `runs`
/// has the state before the gate in the suspect's run, for each given state.
fn gate_masks(n: u64, gate: Gate, runs: &[u64]) -> [u64; GATE_MASKS] {
    let mut masks = [0; GATE_MASKS];
    let fires = runs.iter().all(|state| gate.fires(*state));
    for line in 0..n {
        if line == gate.target || gate.control(line).is_some() {
            continue;
        }
        if fires && runs.iter().all(|state| !has(*state, line)) {
            masks[0] += 1 << line;
        }
        if fires && runs.iter().all(|state| has(*state, line)) {
            masks[1] += 1 << line;
        }
    }
    masks
}

/// The suspect's gate count; two masks a gate of it are at the buffer's start.
pub fn fault_masks(
    a_header: Header,
    suspect: &[u64],
    b_header: Header,
    reference: &[u64],
    states: &[u64],
    out: &mut [u64],
) -> Result<u64, Refusal> {
    let (gates, right) = test_headed_pair(a_header, suspect, b_header, reference)?;
    if let Some(index) = first_bad_state(a_header, states) {
        return refuse(9, index);
    }
    if let Some(index) = first_agreeing_state(a_header, &gates, &right, states) {
        return refuse(12, index);
    }
    if short_buffer(out, GATE_MASKS * gates.len()) {
        return refuse(10, 0);
    }
    let mut runs = states.to_vec();
    for (gate, masks) in gates.iter().zip(out.chunks_mut(GATE_MASKS)) {
        masks.copy_from_slice(&gate_masks(a_header.lines, *gate, &runs));
        for state in &mut runs {
            *state = gate.apply(*state);
        }
    }
    Ok(gates.len() as u64)
}

/// The gates with one control more, at a gate's line that is neither its target nor a control.
pub fn with_added_control(gates: &[Gate], index: usize, line: u64, positive: bool) -> Vec<Gate> {
    let mut repaired = gates.to_vec();
    repaired[index] = repaired[index].with_control(line, Some(positive));
    repaired
}

// ---- cascade file

/// What a file holds: its header and gates, and how many bytes they took.
#[derive(Clone, Debug, PartialEq)]
pub struct FileCascade {
    pub header: Header,
    pub gates: Vec<Gate>,
    pub taken: usize,
}

/// A number: decimal, one or two digits, no leading zero.
fn file_number(field: &[u8]) -> Option<u64> {
    let digits: Vec<u64> = field
        .iter()
        .map(|byte| byte.wrapping_sub(b'0') as u64)
        .collect();
    match digits[..] {
        [one] if one < 10 => Some(one),
        [ten, one] if (1..10).contains(&ten) && one < 10 => Some(10 * ten + one),
        _ => None,
    }
}

/// A line of the cascade in a field: 1 for its form, 3 for its value.
fn file_line(field: &[u8], n: u64, place: u64) -> Result<u64, Refusal> {
    match file_number(field) {
        None => refuse(1, place),
        Some(line) if line >= n => refuse(3, place),
        Some(line) => Ok(line),
    }
}

/// The line of a mark in a field: 1 for its form, 14 where it is n or more or not above the one before in
/// its group. `group` has the lines of those before.
fn file_mark(field: &[u8], n: u64, group: u64, place: u64) -> Result<u64, Refusal> {
    match file_number(field) {
        None => refuse(1, place),
        Some(line) if line >= n => refuse(14, place),
        Some(line) if (line..64).any(|k| has(group, k)) => refuse(14, place),
        Some(line) => Ok(line),
    }
}

/// Line 0: `lines`, n, and the LF.
fn file_lines(fields: &[&[u8]], ended: bool) -> Result<u64, Refusal> {
    if fields[0] != b"lines" || fields.len() < 2 {
        return refuse(1, 0);
    }
    let Some(n) = file_number(fields[1]) else {
        return refuse(1, 0);
    };
    if bad_line_count(n) {
        return refuse(2, 0);
    }
    if fields.len() > 2 || !ended {
        return refuse(1, 0);
    }
    Ok(n)
}

/// A line that starts `const` tab: 1 and 14 of the line, 1 of the value, 1 for what follows it or a
/// missing LF.
fn file_constant(
    fields: &[&[u8]],
    ended: bool,
    header: &mut Header,
    place: u64,
) -> Result<(), Refusal> {
    let line = file_mark(fields[1], header.lines, header.constants, place)?;
    let value = match fields.get(2) {
        Some(&b"0") => 0,
        Some(&b"1") => 1,
        _ => return refuse(1, place),
    };
    if fields.len() > 3 || !ended {
        return refuse(1, place);
    }
    header.constants += 1 << line;
    header.values += value << line;
    Ok(())
}

/// A line that starts `junk` tab: the same without a value.
fn file_junk(
    fields: &[&[u8]],
    ended: bool,
    header: &mut Header,
    place: u64,
) -> Result<(), Refusal> {
    let line = file_mark(fields[1], header.lines, header.junk, place)?;
    if fields.len() > 2 || !ended {
        return refuse(1, place);
    }
    header.junk += 1 << line;
    Ok(())
}

/// A line that starts `g` tab: 1 and 3 by field, 1 for a missing LF, 4, 5.
fn file_gate(fields: &[&[u8]], ended: bool, n: u64, place: u64) -> Result<Gate, Refusal> {
    let target = file_line(fields[1], n, place)?;
    let mut controls = Vec::new();
    for field in &fields[2..] {
        let positive = match field.first() {
            Some(b'+') => true,
            Some(b'-') => false,
            _ => return refuse(1, place),
        };
        controls.push((file_line(&field[1..], n, place)?, positive));
    }
    if !ended {
        return refuse(1, place);
    }
    if controls.iter().any(|(line, _)| *line == target) {
        return refuse(4, place);
    }
    if controls.windows(2).any(|pair| pair[0].0 >= pair[1].0) {
        return refuse(5, place);
    }
    let mask = |wanted: bool| {
        let chosen = controls.iter().filter(|(_, positive)| *positive == wanted);
        chosen.map(|(line, _)| 1u64 << line).sum()
    };
    Ok(Gate {
        positive: mask(true),
        negative: mask(false),
        target,
    })
}

/// The cascade at the start of a text; else 1 to 6 or 14 with the file line. A `const` line after a
/// `junk` line, and either after a gate, is of the wrong form.
pub fn read_text(text: &[u8]) -> Result<FileCascade, Refusal> {
    let mut header = Header::unmarked(0);
    let mut gates = Vec::new();
    let mut at = 0;
    for place in 0.. {
        let rest = &text[at..];
        let feed = rest.iter().position(|byte| *byte == b'\n');
        let ended = feed.is_some();
        let line = &rest[..feed.unwrap_or(rest.len())];
        let fields: Vec<&[u8]> = line.split(|byte| *byte == b'\t').collect();
        at += line.len() + 1;
        if place == 0 {
            header.lines = file_lines(&fields, ended)?;
        } else if fields[0] == b"const" && fields.len() > 1 && header.junk == 0 && gates.is_empty()
        {
            file_constant(&fields, ended, &mut header, place)?;
        } else if fields[0] == b"junk" && fields.len() > 1 && gates.is_empty() {
            file_junk(&fields, ended, &mut header, place)?;
        } else if fields[0] == b"g" && fields.len() > 1 {
            if gates.len() == CASCADE_GATES {
                return refuse(6, place);
            }
            gates.push(file_gate(&fields, ended, header.lines, place)?);
        } else if line == b"end" && ended {
            break;
        } else {
            return refuse(1, place);
        }
    }
    Ok(FileCascade {
        header,
        gates,
        taken: at,
    })
}

/// The text, then 10; the gates' words are at the buffer's start.
pub fn read(text: &[u8], out: &mut [u64]) -> Result<FileCascade, Refusal> {
    let cascade = read_text(text)?;
    if short_buffer(out, 3 * cascade.gates.len()) {
        return refuse(10, 0);
    }
    put(&cascade.gates, out);
    Ok(cascade)
}

/// The text of a cascade.
pub fn text_of(header: Header, gates: &[Gate]) -> Vec<u8> {
    let mut text = format!("lines\t{}\n", header.lines);
    for line in 0..64 {
        if has(header.constants, line) {
            text += &format!("const\t{line}\t{}\n", u64::from(has(header.values, line)));
        }
    }
    for line in 0..64 {
        if has(header.junk, line) {
            text += &format!("junk\t{line}\n");
        }
    }
    for gate in gates {
        text += &format!("g\t{}", gate.target);
        for line in 0..64 {
            if has(gate.positive, line) {
                text += &format!("\t+{line}");
            }
            if has(gate.negative, line) {
                text += &format!("\t-{line}");
            }
        }
        text += "\n";
    }
    text += "end\n";
    text.into_bytes()
}

/// The number of bytes; the text is at the buffer's start.
pub fn write(header: Header, words: &[u64], out: &mut [u8]) -> Result<u64, Refusal> {
    let gates = test_headed(header, words)?;
    let text = text_of(header, &gates);
    if short_buffer(out, text.len()) {
        return refuse(10, 0);
    }
    out[..text.len()].copy_from_slice(&text);
    Ok(text.len() as u64)
}
