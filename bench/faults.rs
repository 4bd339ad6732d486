//! Times the sweep of equal cascades on 16 lines, and the fault masks of 1,024 gates over 1,000 states.

use crate::capi::{self, CountAnswer, Header, StateAnswer};
use crate::plain::{self, unmarked};
use crate::random::Random;
use crate::{compare, inputs, time};
use std::hint::black_box;

type FirstDifference = fn(Header, &[u64], Header, &[u64]) -> StateAnswer;
type FaultMasks = fn(Header, &[u64], Header, &[u64], &[u64], &mut [u64]) -> CountAnswer;

pub const FIRST_DIFFERENCE: [FirstDifference; 2] = [library_first_difference, plain::first_difference];
pub const FAULT_MASKS: [FaultMasks; 2] = [library_fault_masks, plain::fault_masks];

fn library_first_difference(ha: Header, a: &[u64], hb: Header, b: &[u64]) -> StateAnswer {
    unsafe { capi::cascade_first_difference(ha, a.as_ptr(), a.len(), hb, b.as_ptr(), b.len()) }
}

fn library_fault_masks(
    ha: Header,
    a: &[u64],
    hb: Header,
    b: &[u64],
    states: &[u64],
    out: &mut [u64],
) -> CountAnswer {
    let (start, room) = (out.as_mut_ptr(), out.len());
    unsafe {
        capi::cascade_fault_masks(
            ha,
            a.as_ptr(),
            a.len(),
            hb,
            b.as_ptr(),
            b.len(),
            states.as_ptr(),
            states.len(),
            start,
            room,
        )
    }
}

/// The ratio of a sweep of two equal cascades of 200 gates on 16 lines.
fn sweep(random: &mut Random) -> f64 {
    let a = inputs::few_controls(random, 16, 200);
    let late = [&a[..], &[!1 & 0xffff, 0, 0]].concat();
    let header = unmarked(16);
    for b in [&a, &late] {
        let library = library_first_difference(header, &a, header, b);
        assert_eq!(library, plain::first_difference(header, &a, header, b));
        assert_eq!(
            (library.number, library.found),
            (0, u64::from(b.len() > a.len()))
        );
    }
    let b = a.clone();
    let [library, plain] = FIRST_DIFFERENCE.map(|call| {
        let (a, b) = (&a, &b);
        move || {
            time(1, |_| {
                black_box(call(header, black_box(a), header, black_box(b)));
            })
        }
    });
    compare("first_difference", "equal, 200 gates, 16 lines", 21, library, plain)
}

/// The ratio of the fault masks of 1,024 gates over 1,000 states on 64 lines. The last gate of the
/// suspect lacks a control that is 0 there for each of the states.
fn masks(random: &mut Random) -> f64 {
    let mut suspect = inputs::few_controls(random, 64, 1023);
    suspect.extend([0, 0, 0]);
    let mut reference = suspect.clone();
    reference[3 * 1023] = 2;
    let before = &suspect[..3 * 1023];
    let back = |state: u64| {
        before.rchunks(3).fold(state, |state, gate| {
            let fires = (state ^ gate[0]) & (gate[0] | gate[1]) == 0;
            state ^ (fires as u64) << gate[2]
        })
    };
    let states: Vec<u64> = (0..1_000).map(|_| back(random.word() & !2)).collect();
    let header = unmarked(64);
    let call = |call: FaultMasks, out: &mut [u64]| {
        let (suspect, reference) = (black_box(&suspect), black_box(&reference));
        call(header, suspect, header, reference, black_box(&states), out)
    };
    let mut outs = [vec![9; 2_050], vec![9; 2_050]];
    let library = call(library_fault_masks, &mut outs[0]);
    assert_eq!(library, call(plain::fault_masks, &mut outs[1]));
    assert_eq!((library.number, library.gates), (0, 1024));
    assert_eq!(outs[0], outs[1]);
    assert_eq!(outs[0][2 * 1023] & 2, 2);
    let masks = |side: FaultMasks| {
        let mut out = vec![0; 2_048];
        time(1, |_| {
            black_box(call(side, black_box(&mut out)));
        })
    };
    compare(
        "fault_masks",
        "1,024 gates, 1,000 states, 64 lines",
        101,
        || masks(library_fault_masks),
        || masks(plain::fault_masks),
    )
}

/// Prints a row for each call, and gives the highest ratio.
pub fn highest() -> f64 {
    let random = &mut Random::new(7);
    sweep(random).max(masks(random))
}
