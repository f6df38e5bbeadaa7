// What the clocks of a trace and those of the C library have in common.

use crate::random::Random;

// Bits of a clock.
pub const OUT_OF_RESET: u32 = 1;
pub const VALID: u32 = 2;
pub const READY: u32 = 4;

/// Flags that a clock can raise.
pub const FLAGS: [u32; 18] =
    [37, 38, 39, 41, 42, 43, 44, 45, 46, 47, 48, 49, 50, 52, 53, 54, 55, 56];

/// Cache values that do not raise 41, and those that do.
pub const GOOD_CACHE: [u32; 10] = [0, 1, 2, 3, 6, 7, 10, 11, 14, 15];
pub const BAD_CACHE: [u32; 6] = [4, 5, 8, 9, 12, 13];

/// Addresses at page edges, at the top, and others.
pub fn any_address(random: &mut Random) -> u32 {
    match random.below(4) {
        0 => random.below(1 << 20) << 12,
        1 => (random.below(1 << 20) << 12).wrapping_sub(random.between(1, 260)),
        2 => u32::MAX - random.below(300),
        _ => random.u32(),
    }
}
