//! Calls the exported C functions of the library and compares them with the reference, in answer
//! and in every buffer. The argument is the seed, where another than the fixed one is wanted.
//!
//! A further call is added by its declaration in capi.rs, its rule in reference.rs, its answer in
//! expected.rs, and a file in calls/ whose `section` stands in the list below. That file has what is
//! the call's own: its classes, its inputs and its laws. cases.rs has what a call on one cascade or
//! on two is given and how its answer and its buffers are compared, classes.rs what is counted of it.

mod calls {
    pub mod differs;
    pub mod emit;
    pub mod faults;
    pub mod fewer;
    pub mod first_difference;
    pub mod inverse;
    pub mod miter;
    pub mod narrow;
    pub mod pair_emit;
    pub mod pair_sizes;
    pub mod read;
    pub mod reduce;
    pub mod run;
    pub mod sizes;
    pub mod step;
    pub mod widen;
    pub mod write;
}
mod capi;
mod cases;
mod classes;
mod expected;
mod files;
mod harness;
mod inputs;
mod random;
mod reference;
mod rows;

use harness::Counts;
use random::Random;

const SEED: u64 = 20_240_601;

/// One section a call. It checks its cases and returns its table.
const SECTIONS: &[fn(&mut Random) -> Counts] = &[
    calls::read::section,
    calls::write::section,
    calls::run::section,
    calls::inverse::section,
    calls::sizes::section,
    calls::miter::section,
    calls::step::section,
    calls::reduce::section,
    calls::emit::section,
    calls::pair_sizes::section,
    calls::pair_emit::section,
    calls::widen::section,
    calls::narrow::section,
    calls::first_difference::section,
    calls::differs::section,
    calls::fewer::section,
    calls::faults::section,
];

fn main() {
    let seed = match std::env::args().nth(1) {
        Some(word) => word.parse().expect("the seed is a number below 2^64"),
        None => SEED,
    };
    println!("seed {seed}");
    rows::check();
    let mut cases = 0;
    let mut complete = true;
    // the sections side by side, each with random numbers of its own
    std::thread::scope(|scope| {
        let started = SECTIONS.iter().enumerate().map(|(index, section)| {
            let mut random = Random::new(seed.wrapping_add(index as u64));
            scope.spawn(move || section(&mut random))
        });
        for section in started.collect::<Vec<_>>() {
            let counts = section.join().expect("the section comes to its end");
            complete &= counts.report();
            cases += counts.cases();
        }
    });
    if !complete {
        println!("differential: a class that must occur is missing");
        std::process::exit(1);
    }
    println!("differential: {cases} cases, 0 mismatches");
}
