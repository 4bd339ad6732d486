//! Pairs of equal cascades, each drawn by rewriting one cascade on both sides.

use crate::random::Random;
use crate::reference::{may_pass, Gate};

/// The rewrites that a pair is drawn by.
#[derive(Clone, Copy, PartialEq)]
pub enum Rewrites {
    /// Those that the templates undo: a gate put in twice, a gate parted by a control, two gates exchanged.
    Templates,
    /// These, and others: gates moved past each other by a third one, and two lines exchanged twice.
    Any,
}

/// A gate with up to three controls.
fn drawn(random: &mut Random, lines: u64) -> Gate {
    let target = random.below(lines);
    let mut mask = 0;
    for _ in 0..random.below(4) {
        mask |= 1 << random.below(lines);
    }
    mask &= !(1 << target);
    let positive = mask & random.word();
    Gate { positive, negative: mask & !positive, target }
}

/// Two gates g, h as h, g and the gate that makes up for it, where g's target is a control of h, and h's
/// target none of g.
fn moved(g: Gate, h: Gate) -> Option<Vec<Gate>> {
    let bit = 1 << g.target;
    let positive = g.positive | h.positive & !bit;
    let negative = g.negative | h.negative & !bit;
    if g.control(h.target).is_some() || h.control(g.target).is_none() || (positive | negative).count_ones() > 6 {
        return None;
    }
    let mut gates = vec![h, g];
    if positive & negative == 0 {
        gates.push(Gate { positive, negative, target: h.target });
    }
    Some(gates)
}

/// Two lines exchanged, and exchanged back the other way.
fn exchanged_twice(random: &mut Random, lines: u64) -> Option<Vec<Gate>> {
    let (one, other) = (random.below(lines), random.below(lines));
    let add = |control: u64, target| Gate { positive: 1 << control, negative: 0, target };
    let (there, back) = (add(one, other), add(other, one));
    (one != other).then(|| vec![there, back, there, back, there, back])
}

/// One rewrite, at a place where it may leave the cascade as it is.
pub fn rewrite(random: &mut Random, lines: u64, kind: Rewrites, gates: &mut Vec<Gate>) {
    let at = random.index(gates.len() + 1);
    let here = gates.get(at).copied();
    let next = gates.get(at + 1).copied();
    match (random.below(if kind == Rewrites::Any { 5 } else { 3 }), here, next) {
        (0, _, _) => {
            let gate = drawn(random, lines);
            gates.splice(at..at, [gate, gate]);
        }
        (1, Some(gate), _) => {
            let line = random.below(lines);
            if gate.target != line && gate.control(line).is_none() {
                let with = Gate { positive: gate.positive | 1 << line, ..gate };
                let without = Gate { negative: gate.negative | 1 << line, ..gate };
                gates.splice(at..at + 1, [with, without]);
            }
        }
        (2, Some(g), Some(h)) if may_pass(g, h) => gates.swap(at, at + 1),
        (3, Some(g), Some(h)) => {
            if let Some(three) = moved(g, h) {
                gates.splice(at..at + 2, three);
            }
        }
        (4, _, _) => {
            if let Some(six) = exchanged_twice(random, lines) {
                gates.splice(at..at, six);
            }
        }
        _ => {}
    }
}

/// Two equal cascades of so many gates each, or up to five more, on at least two lines.
pub fn equal_pair(random: &mut Random, lines: u64, gates: usize, kind: Rewrites) -> (Vec<Gate>, Vec<Gate>) {
    let common: Vec<Gate> = (0..gates / 2).map(|_| drawn(random, lines)).collect();
    let mut side = || {
        let mut side = common.clone();
        while side.len() < gates {
            rewrite(random, lines, kind, &mut side);
        }
        side
    };
    (side(), side())
}
