// Engines with exactly one fault: what RULES.md names as not well formed, and words that no
// engine has.

use independent::cut::LONGEST as MOST_BYTES;
use shared::random::Random;
use shared::words::{
    EngineWords, CHAIN_MODE, COMPLETE_ENABLE, COMPLETE_INTERRUPT, COUNT_REGISTER, CURRENT,
    DESTINATION, ERROR_BIT, ERROR_BITS, ERROR_ENABLE, ERROR_INTERRUPT, FETCH, HELD_NEXT, IDLE,
    KEY_HOLE_READ, KEY_HOLE_WRITE, MOVE, MOVED, NEXT, PHASE, SOURCE, TAIL, TOTAL, UPDATES,
};

pub struct Kind {
    pub name: &'static str,
    /// Puts the fault into well-formed words, whatever they are.
    pub spoil: fn(&mut EngineWords, &mut Random),
}

pub const KINDS: [Kind; 31] = [
    Kind { name: "current misaligned", spoil: |words, random| misalign(words, random, CURRENT) },
    Kind { name: "tail misaligned", spoil: |words, random| misalign(words, random, TAIL) },
    Kind { name: "next misaligned", spoil: |words, random| misalign(words, random, NEXT) },
    Kind {
        name: "held next misaligned",
        spoil: |words, random| misalign(words, random, HELD_NEXT),
    },
    Kind {
        name: "count register too big",
        spoil: |words, random| words[COUNT_REGISTER] = too_many(random),
    },
    Kind {
        name: "error bit before a fetch",
        spoil: |words, random| {
            wait(words, FETCH);
            words[ERROR_BIT] = random.pick(&ERROR_BITS);
        },
    },
    Kind {
        name: "error bit before a move",
        spoil: |words, random| {
            moving(words, random);
            words[ERROR_BIT] = random.pick(&ERROR_BITS);
        },
    },
    Kind {
        name: "error bit before an update",
        spoil: |words, random| {
            wait(words, random.pick(&UPDATES));
            words[ERROR_BIT] = random.pick(&ERROR_BITS);
        },
    },
    Kind {
        name: "fetch in simple mode",
        spoil: |words, _| {
            wait(words, FETCH);
            words[CHAIN_MODE] = 0;
        },
    },
    Kind {
        name: "update in simple mode",
        spoil: |words, random| {
            wait(words, random.pick(&UPDATES));
            words[CHAIN_MODE] = 0;
        },
    },
    Kind {
        name: "moved equal to total",
        spoil: |words, random| {
            moving(words, random);
            words[MOVED] = words[TOTAL];
            below_the_top(words, random);
        },
    },
    Kind {
        name: "moved above total",
        spoil: |words, random| {
            moving(words, random);
            words[MOVED] = random.between(words[TOTAL] + 1, words[TOTAL] + 100);
            below_the_top(words, random);
        },
    },
    Kind {
        name: "total of 0, moved 0",
        spoil: |words, random| {
            moving(words, random);
            words[TOTAL..=MOVED].fill(0);
        },
    },
    Kind {
        name: "total too big",
        spoil: |words, random| {
            moving(words, random);
            words[TOTAL] = too_many(random);
        },
    },
    Kind { name: "source + moved 2^32", spoil: |words, random| overrun(words, random, SOURCE, 0) },
    Kind {
        name: "source + moved above 2^32",
        spoil: |words, random| {
            let past = random.between(1, 300);
            overrun(words, random, SOURCE, past);
        },
    },
    Kind {
        name: "destination + moved 2^32",
        spoil: |words, random| overrun(words, random, DESTINATION, 0),
    },
    Kind {
        name: "destination + moved above 2^32",
        spoil: |words, random| {
            let past = random.between(1, 300);
            overrun(words, random, DESTINATION, past);
        },
    },
    Kind { name: "SGMode above 1", spoil: |words, random| words[CHAIN_MODE] = no_truth(random) },
    Kind {
        name: "IOC_IrqEn above 1",
        spoil: |words, random| words[COMPLETE_ENABLE] = no_truth(random),
    },
    Kind {
        name: "Err_IrqEn above 1",
        spoil: |words, random| words[ERROR_ENABLE] = no_truth(random),
    },
    Kind {
        name: "IOC_Irq above 1",
        spoil: |words, random| words[COMPLETE_INTERRUPT] = no_truth(random),
    },
    Kind {
        name: "Err_Irq above 1",
        spoil: |words, random| words[ERROR_INTERRUPT] = no_truth(random),
    },
    Kind {
        name: "Key Hole Read above 1",
        spoil: |words, random| words[KEY_HOLE_READ] = no_truth(random),
    },
    Kind {
        name: "Key Hole Write above 1",
        spoil: |words, random| words[KEY_HOLE_WRITE] = no_truth(random),
    },
    Kind {
        name: "number of no error bit",
        spoil: |words, random| {
            // An idle engine, or the error bit while busy would be a second fault.
            wait(words, IDLE);
            words[ERROR_BIT] =
                unlike(random, 40, |number| number == 0 || ERROR_BITS.contains(&number));
        },
    },
    Kind {
        name: "number of no phase",
        spoil: |words, random| {
            wait(words, IDLE);
            words[CHAIN_MODE] = 1;
            words[ERROR_BIT] = 0;
            words[PHASE] = unlike(random, 40, |number| {
                [IDLE, FETCH, MOVE].contains(&number) || UPDATES.contains(&number)
            });
        },
    },
    Kind { name: "source outside a move", spoil: |words, random| leave(words, random, SOURCE) },
    Kind {
        name: "destination outside a move",
        spoil: |words, random| leave(words, random, DESTINATION),
    },
    Kind { name: "total outside a move", spoil: |words, random| leave(words, random, TOTAL) },
    Kind { name: "moved outside a move", spoil: |words, random| leave(words, random, MOVED) },
];

fn misalign(words: &mut EngineWords, random: &mut Random, pointer: usize) {
    // One bit as often as any: each of the six has to be looked at.
    let low = if random.chance(50) { 1 << random.below(6) } else { random.between(1, 63) };
    words[pointer] |= low;
}

fn too_many(random: &mut Random) -> u32 {
    match random.below(3) {
        0 => MOST_BYTES + 1,
        1 => 1 << random.between(23, 31),
        _ => random.between(MOST_BYTES + 1, u32::MAX - 1),
    }
}

/// A number that is neither 0 nor 1.
fn no_truth(random: &mut Random) -> u32 {
    match random.below(3) {
        0 => 2,
        // Low bits that would be a truth on their own.
        1 => 1 << random.between(1, 31) | random.below(2),
        _ => random.between(2, u32::MAX - 1),
    }
}

/// A number that is not `taken`, mostly below `near`.
fn unlike(random: &mut Random, near: u32, taken: fn(u32) -> bool) -> u32 {
    loop {
        let number = match random.below(3) {
            0 => random.u32(),
            1 => random.below(near) | 1 << random.between(8, 31),
            _ => random.below(near),
        };
        if !taken(number) {
            return number;
        }
    }
}

/// Makes the words those of an engine in another phase than move.
pub fn wait(words: &mut EngineWords, phase: u32) {
    words[SOURCE..=MOVED].fill(0);
    words[PHASE] = phase;
    if phase != IDLE {
        words[CHAIN_MODE] = 1;
        words[ERROR_BIT] = 0;
    }
}

/// Makes the words those of an engine that moves, unless they are.
pub fn moving(words: &mut EngineWords, random: &mut Random) {
    if words[PHASE] == MOVE {
        return;
    }
    words[ERROR_BIT] = 0;
    words[PHASE] = MOVE;
    words[TOTAL] = random.between(1, 5000);
    words[MOVED] = random.below(words[TOTAL]);
    words[SOURCE] = random.below(10_000);
    words[DESTINATION] = random.below(10_000);
}

/// Brings both ends down, where a moved that was raised took them past 2^32.
fn below_the_top(words: &mut EngineWords, random: &mut Random) {
    for at in [SOURCE, DESTINATION] {
        words[at] = words[at].min(u32::MAX - words[MOVED] - random.below(100));
    }
}

/// Lets the address at `at` pass 2^32 - 1 with what is moved: to 2^32 itself and `past` bytes more.
fn overrun(words: &mut EngineWords, random: &mut Random, at: usize, past: u32) {
    moving(words, random);
    // Something has to be moved, or no address of 32 bits gets there.
    words[TOTAL] = words[TOTAL].max(past + 2);
    words[MOVED] = random.between(past + 1, words[TOTAL] - 1);
    below_the_top(words, random);
    words[at] = past.wrapping_sub(words[MOVED]);
}

/// Leaves a word of a transfer behind, outside a move.
fn leave(words: &mut EngineWords, random: &mut Random, at: usize) {
    if words[PHASE] == MOVE {
        let update = random.pick(&UPDATES);
        wait(words, random.pick(&[IDLE, FETCH, update]));
    }
    words[at] = if random.chance(30) { 1 } else { random.between(1, u32::MAX - 1) };
}
