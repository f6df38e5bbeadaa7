// Which trace belongs to a seed and an index.

use std::sync::OnceLock;

use crate::maker::Maker;
use crate::{catalogue, chains, clocks, copies, damage, faults, pairs, pokes, queues};
use shared::clocks::FLAGS;
use shared::random::Random;

/// The seed of the fixed traces.
pub const FIXED: u64 = 1;

pub const FAMILIES: [&str; 17] = [
    "case",
    "prefix",
    "changed byte",
    "deep",
    "copies",
    "chains",
    "queues",
    "faults",
    "clocks",
    "refused",
    "damaged",
    "noise",
    "long",
    "two engines",
    "two engines, refused",
    "two engines, damaged",
    "other form",
];

/// The families of the catalogue.
pub const CATALOGUED: [&str; 3] = ["case", "prefix", "changed byte"];

/// Fixed trace number `index`: every second one from the catalogue until that is used up.
pub fn fixed(index: u64) -> (&'static str, Vec<u8>) {
    static CATALOGUE: OnceLock<Vec<(&'static str, Vec<u8>)>> = OnceLock::new();
    let catalogue = CATALOGUE.get_or_init(catalogue::all);
    if index % 2 == 1 {
        if let Some(entry) = catalogue.get(index as usize / 2) {
            return entry.clone();
        }
    }
    generated(FIXED, index)
}

/// The trace generated from `seed` and `index`.
pub fn generated(seed: u64, index: u64) -> (&'static str, Vec<u8>) {
    let mut random = Random::new(seed, index);
    let family = match random.below(137) {
        0..=32 => "deep",
        33..=45 => "copies",
        46..=61 => "chains",
        62..=71 => "queues",
        72..=79 => "clocks",
        80..=86 => "refused",
        87..=94 => "damaged",
        95..=98 => "noise",
        99 => "long",
        100..=115 => "two engines",
        116..=119 => "two engines, refused",
        120..=122 => "two engines, damaged",
        123..=124 => "other form",
        _ => "faults",
    };
    (family, trace(family, random))
}

fn trace(family: &str, mut random: Random) -> Vec<u8> {
    let mut maker = match family {
        "two engines" | "two engines, refused" | "two engines, damaged" => {
            Maker::with_two_engines(random)
        }
        "other form" if random.chance(50) => Maker::with_two_engines(random),
        _ => Maker::new(random),
    };
    if family == "long" {
        let (width, beats) = maker.random.pick(&[(4, 2), (4, 2), (4, 4), (8, 2)]);
        maker.first_settings(width, beats);
    } else {
        maker.any_settings();
    }
    match family {
        "deep" => {
            for _ in 0..maker.random.between(3, 8) {
                if maker.random.chance(12) {
                    queues::queue(&mut maker);
                } else {
                    play(&mut maker);
                }
            }
        }
        "copies" => {
            for _ in 0..maker.random.between(2, 6) {
                copies::copy(&mut maker);
            }
        }
        "chains" => {
            for _ in 0..maker.random.between(1, 4) {
                chains::chain(&mut maker);
            }
        }
        "queues" => {
            for _ in 0..maker.random.between(2, 5) {
                queues::queue(&mut maker);
            }
        }
        "faults" => {
            for _ in 0..maker.random.between(2, 6) {
                faults::fault(&mut maker);
            }
        }
        "clocks" => {
            for _ in 0..maker.random.between(2, 8) {
                if maker.random.chance(60) {
                    let flag = maker.random.pick(&FLAGS);
                    clocks::alone(&mut maker, flag);
                } else {
                    clocks::some(&mut maker);
                }
            }
        }
        "refused" => {
            for _ in 0..maker.random.below(4) {
                play(&mut maker);
            }
            damage::bad_end(&mut maker);
        }
        "damaged" => {
            for _ in 0..maker.random.between(1, 2) {
                play(&mut maker);
            }
            for _ in 0..maker.random.between(1, 2) {
                damage::damage(&mut maker.random, &mut maker.bytes);
            }
        }
        "noise" => return damage::noise(&mut maker.random),
        "two engines" => {
            for _ in 0..maker.random.between(2, 4) {
                pairs::pair(&mut maker);
            }
        }
        "two engines, refused" => {
            if maker.random.chance(60) {
                pairs::pair(&mut maker);
            }
            if maker.random.chance(75) {
                damage::bad_end_of_pair(&mut maker);
            } else {
                damage::bad_end(&mut maker);
            }
            return maker.bytes;
        }
        "two engines, damaged" => {
            pairs::pair(&mut maker);
            for _ in 0..maker.random.between(1, 2) {
                damage::damage(&mut maker.random, &mut maker.bytes);
            }
            return maker.bytes;
        }
        "other form" => {
            play(&mut maker);
            damage::change_form(&mut maker.bytes);
            return maker.bytes;
        }
        _ => copies::long_copy(&mut maker),
    }
    if maker.random.chance(4) {
        damage::bad_end(&mut maker);
    }
    maker.bytes
}

/// One scene of a trace.
pub fn play(maker: &mut Maker) {
    match maker.random.below(104) {
        0..=29 => copies::copy(maker),
        30..=62 => chains::chain(maker),
        63..=77 => {
            for _ in 0..maker.random.between(1, 8) {
                pokes::poke(maker);
            }
            pokes::run(maker);
        }
        78..=89 => clocks::some(maker),
        90..=94 => pokes::window(maker),
        95..=99 => pokes::memory(maker),
        _ => faults::fault(maker),
    }
}

#[cfg(test)]
mod tests {
    use super::*;
    use independent::record::{read, Form};
    use shared::record::encode_for;

    #[test]
    fn a_seed_and_an_index_give_the_same_trace_again() {
        for index in 0..200 {
            assert_eq!(fixed(index), fixed(index));
            assert_eq!(generated(77, index), generated(77, index));
        }
        assert_ne!(generated(77, 0).1, generated(78, 0).1);
        assert_ne!(generated(77, 0).1, generated(77, 1).1);
    }

    #[test]
    fn records_taken_apart_give_their_bytes_again() {
        for index in 0..500 {
            let (_, bytes) = generated(77, index);
            let mut again = Vec::new();
            let mut rest = &bytes[..];
            let form = Form::of(&bytes);
            // What carries no engine number has the same bytes for each.
            while let Ok((sequence, engine, record, behind)) = read(rest, form, again.is_empty()) {
                let engine = (form == Form::TwoEngines).then_some(engine.unwrap_or(0));
                encode_for(engine, &record, sequence, &mut again);
                rest = behind;
            }
            assert_eq!(again, bytes[..bytes.len() - rest.len()]);
        }
    }
}
