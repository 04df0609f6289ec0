//! Compares values of `muxandu` and of `time` 0.3.9 as serde and rand have them. gate/package_beside_time builds it twice: with
//! texts for people, and with numbers alone.
//!
//!     serde_comparisons ROUNDS SEED
//!
//! In each round both make random values of every type by the same random numbers, and write them. Then both read those texts,
//! and texts with another character, and must agree on which are values, and which values they are.

use rand::rngs::SmallRng;
use rand::{Rng, SeedableRng};

mod ours {
    use muxandu as library;
    include!("values.rs");
}

mod theirs {
    use time as library;
    include!("values.rs");
}

/// How many differences are printed.
const PRINTED: usize = 20;

/// The text with one character gone, doubled or another.
fn change_one(text: &str, rng: &mut SmallRng) -> String {
    let mut bytes = text.as_bytes().to_vec();
    let place = rng.gen_range(0..bytes.len());
    match rng.gen_range(0..3) {
        0 => _ = bytes.remove(place),
        1 => bytes.insert(place, bytes[place]),
        _ => bytes[place] = b"0123456789-+:. T"[rng.gen_range(0..16)],
    }
    String::from_utf8(bytes).unwrap_or_default()
}

fn main() {
    let words: Vec<u64> = std::env::args().skip(1).map(|word| word.parse().expect("a number")).collect();
    let (rounds, seed) = (words[0], words[1]);
    let mut rng = SmallRng::seed_from_u64(seed);
    let (mut compared, mut wrong) = (0_u64, 0_usize);
    let mut see = |what: &str, ours: String, theirs: String| {
        compared += 1;
        if ours != theirs {
            wrong += 1;
            if wrong <= PRINTED {
                println!("{what}: {ours}, and beside it {theirs}");
            }
        }
    };
    for _ in 0..rounds {
        let seed = rng.r#gen();
        let (ours, theirs) = (ours::write_values(seed), theirs::write_values(seed));
        for (place, ((text, bytes), (other_text, other_bytes))) in ours.into_iter().zip(theirs).enumerate() {
            see("the text", text.clone(), other_text);
            see("the bytes", format!("{bytes:?}"), format!("{other_bytes:?}"));
            see("the value of bytes", ours::read_bytes(place, &bytes), text.clone());
            see("the value of the text", ours::read(place, &text), text.clone());
            for given in [text.clone(), change_one(&text, &mut rng)] {
                if !ours::differs(place, &given) {
                    see(&given, ours::read(place, &given), theirs::read(place, &given));
                }
            }
        }
    }
    println!("compared|{rounds}|{compared}|{wrong}");
    std::process::exit(i32::from(wrong > 0));
}
