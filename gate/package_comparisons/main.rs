//! Compares the package `muxandu` with the crate `time` 0.3.9, call by call. gate/package_beside_time builds it.
//!
//!     package_comparisons ROUNDS SEED    random rounds of every call that both have
//!     package_comparisons speed ROUNDS   what each call costs in both
//!     package_comparisons sizes          the bytes of each type in both, and of an `Option` of it

use std::time::Instant;

mod source;

mod ours {
    use muxandu as library;
    include!("calls.rs");
}

mod theirs {
    use time as library;
    include!("calls.rs");
}

use source::{Input, Source};

/// How many differences are shown.
const SHOWN: usize = 20;

fn compare(rounds: u64, seed: u64) -> bool {
    let mut source = Source::new(seed);
    let (mut ours, mut theirs) = (Vec::new(), Vec::new());
    let (mut compared, mut wrong) = (0_u64, 0_usize);
    for _ in 0..rounds {
        let input = source.input();
        ours.clear();
        theirs.clear();
        ours::answers(&input, &mut ours);
        theirs::answers(&input, &mut theirs);
        compared += ours.len() as u64;
        if ours == theirs {
            continue;
        }
        wrong += 1;
        if wrong <= SHOWN {
            let place = ours.iter().zip(&theirs).position(|(one, other)| one != other);
            match place {
                Some(at) => println!("{input:?}: answer {at}: {:?}, and beside it {:?}", ours[at], theirs[at]),
                None => println!("{input:?}: {} answers, and beside it {}", ours.len(), theirs.len()),
            }
        }
    }
    println!("compared|{rounds}|{compared}|{wrong}");
    wrong == 0
}

/// The nanoseconds an item of a loop.
fn nanos_per_item(items: usize, run: impl FnOnce() -> u64) -> f64 {
    let began = Instant::now();
    std::hint::black_box(run());
    began.elapsed().as_nanos() as f64 / items as f64
}

/// Prints what each call took in each round, in both. Each round goes through all calls, and every other one begins with the
/// other library, so that the times of each are of the whole run.
fn measure(rounds: u64) {
    let mut source = Source::new(1);
    let inputs: Vec<Input> = (0..4_096).map(|_| source.plain_input()).collect();
    let (ours, theirs) = (ours::Data::new(&inputs), theirs::Data::new(&inputs));
    assert!(ours.orders() == theirs.orders(), "the orders differ");
    for round in 0..rounds {
        for (place, (name, run)) in ours::LOOPS.iter().enumerate() {
            let (_, run_theirs) = theirs::LOOPS[place];
            let first = (round % 2 == 0).then(|| nanos_per_item(inputs.len(), || run(&ours)));
            let other = nanos_per_item(inputs.len(), || run_theirs(&theirs));
            let one = first.unwrap_or_else(|| nanos_per_item(inputs.len(), || run(&ours)));
            println!("{name}|{one:.3}|{other:.3}");
        }
    }
}

fn main() {
    let words: Vec<String> = std::env::args().skip(1).collect();
    let number = |at: usize| words[at].parse().expect("a number");
    if words[0] == "sizes" {
        for ((name, ours), (_, theirs)) in ours::SIZES.iter().zip(theirs::SIZES) {
            println!("{name}|{}|{}|{}|{}", ours.0, ours.1, theirs.0, theirs.1);
        }
    } else if words[0] == "speed" {
        measure(number(1));
    } else if !compare(number(0), number(1)) {
        std::process::exit(1);
    }
}
