//! Cascades of valid gates.

use crate::random::Random;

/// So many gates. `controls` draws the mask of a gate's control lines, of which those below n, the
/// target aside, are taken, each positive or negative.
pub fn cascade(
    random: &mut Random,
    n: u64,
    gates: usize,
    controls: impl Fn(&mut Random, u64) -> u64,
) -> Vec<u64> {
    let mut words = Vec::with_capacity(3 * gates);
    for _ in 0..gates {
        let target = random.below(n);
        let mask = controls(random, target) & (u64::MAX >> (64 - n)) & !(1 << target);
        let positive = mask & random.word();
        words.extend([positive, mask & !positive, target]);
    }
    words
}

/// Gates with few controls.
pub fn few_controls(random: &mut Random, n: u64, gates: usize) -> Vec<u64> {
    cascade(random, n, gates, |random, _| two_lines(random, n))
}

/// The mask of two lines below n, which may be the same.
pub fn two_lines(random: &mut Random, n: u64) -> u64 {
    (1 << random.below(n)) | (1 << random.below(n))
}

/// The mask of k lines below n, the target aside.
pub fn lines_besides(random: &mut Random, n: u64, target: u64, k: u32) -> u64 {
    let mut mask: u64 = 0;
    while mask.count_ones() < k {
        mask |= (1 << random.below(n)) & !(1 << target);
    }
    mask
}
