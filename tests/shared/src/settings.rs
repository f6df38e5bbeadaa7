// Widths and beats, on the lists of answer 1 and off them.

use crate::random::Random;

pub const WIDTHS: [u32; 6] = [4, 8, 16, 32, 64, 128];
pub const BEATS: [u32; 8] = [2, 4, 8, 16, 32, 64, 128, 256];

pub fn listed(random: &mut Random) -> (u32, u32) {
    (random.pick(&WIDTHS), random.pick(&BEATS))
}

/// Row and column of listed settings in a table of widths and beats.
pub fn place(width: u32, beats: u32) -> Option<(usize, usize)> {
    let row = WIDTHS.iter().position(|listed| *listed == width)?;
    let column = BEATS.iter().position(|listed| *listed == beats)?;
    Some((row, column))
}

/// Settings of which one or both are off its list.
pub fn unlisted(random: &mut Random) -> (u32, u32) {
    let (mut width, mut beats) = listed(random);
    let which = random.below(3);
    if which != 0 {
        width = off_list(random, &WIDTHS);
    }
    if which != 1 {
        beats = off_list(random, &BEATS);
    }
    (width, beats)
}

/// A number off the list: the powers of two beyond its ends, neighbours of its numbers, any.
fn off_list(random: &mut Random, list: &[u32]) -> u32 {
    loop {
        let number = match random.below(4) {
            0 => 1 << random.below(32),
            1 => random.pick(list).wrapping_add(random.below(3)).wrapping_sub(1),
            // A listed number in the low half alone must not pass for it.
            2 => random.pick(list) | 1 << random.between(16, 31),
            _ => random.u32(),
        };
        if !list.contains(&number) {
            return number;
        }
    }
}
