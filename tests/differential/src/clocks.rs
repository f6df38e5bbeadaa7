// Bus clocks: clean ones, ones that raise a wanted flag, held ones that change, and any others.

use crate::maker::Maker;
use independent::record::Bus;
use shared::clocks::{self, any_address, BAD_CACHE, FLAGS, GOOD_CACHE};
use shared::random::Random;

const OUT_OF_RESET: u8 = clocks::OUT_OF_RESET as u8;
const VALID: u8 = clocks::VALID as u8;
const READY: u8 = clocks::READY as u8;

/// A few clocks.
pub fn some(maker: &mut Maker) {
    for _ in 0..maker.random.between(1, 6) {
        match maker.random.below(100) {
            0..=19 => reset(maker),
            20..=29 => idle(maker),
            30..=44 => {
                let bus = clean(maker);
                maker.bus(bus);
            }
            45..=69 => {
                let flag = maker.random.pick(&FLAGS);
                raise(maker, flag);
            }
            70..=84 => held(maker),
            _ => any(maker),
        }
    }
}

/// Shows one flag after a reset, and mostly it alone.
pub fn alone(maker: &mut Maker, flag: u32) {
    reset(maker);
    if flag != 45 {
        idle(maker);
    }
    raise(maker, flag);
}

fn reset(maker: &mut Maker) {
    let mut bus = random_clock(maker);
    bus.bits &= !OUT_OF_RESET;
    maker.bus(bus);
}

/// Out of reset with valid low.
fn idle(maker: &mut Maker) {
    let mut bus = random_clock(maker);
    bus.bits = OUT_OF_RESET | bus.bits & READY;
    maker.bus(bus);
}

/// Every field in range, else anything.
fn random_clock(maker: &mut Maker) -> Bus {
    let random = &mut maker.random;
    let address = any_address(random);
    Bus {
        bits: random.below(8) as u8,
        length: if random.chance(50) { random.below(20) as u8 } else { random.below(256) as u8 },
        size: random.below(8) as u8,
        burst: random.below(4) as u8,
        cache: random.below(16) as u8,
        prot: random.below(8) as u8,
        qos: random.below(16) as u8,
        region: random.below(16) as u8,
        id: if random.chance(50) { random.below(4) } else { random.u32() },
        address,
    }
}

fn any(maker: &mut Maker) {
    let bus = random_clock(maker);
    maker.bus(bus);
}

/// The largest size that fits the width.
fn widest(maker: &Maker) -> u32 {
    maker.replay.engine().width.trailing_zeros()
}

/// A clock out of reset with valid high that raises none of 37 to 44.
fn clean(maker: &mut Maker) -> Bus {
    let mut bus = random_clock(maker);
    bus.bits = OUT_OF_RESET | VALID | bus.bits & READY;
    let widest = widest(maker);
    let random = &mut maker.random;
    bus.size = random.below(widest + 1) as u8;
    bus.cache = random.pick(&GOOD_CACHE) as u8;
    bus.burst = random.below(3) as u8;
    match bus.burst {
        0 => bus.length = random.below(16) as u8,
        1 => ends_in_page(random, &mut bus),
        _ => {
            bus.length = random.pick(&[1, 3, 7, 15]);
            bus.address &= !0 << bus.size;
        }
    }
    bus
}

/// Moves the address so the last byte is in its page: as often as not the page's last.
fn ends_in_page(random: &mut Random, bus: &mut Bus) {
    let most = (4096u32 >> bus.size).min(256);
    bus.length = random.below(most) as u8;
    let total = (u32::from(bus.length) + 1) << bus.size;
    let page = bus.address & !0xfff;
    let room = 4096 - total;
    let place = if random.chance(50) { room } else { random.below(room + 1) };
    // Within its first word the address may lie anywhere.
    bus.address = page + (place & (!0 << bus.size)) + random.below(1 << bus.size);
}

/// Raises one flag with a clock that is clean but for it, where the flag can be raised at all.
fn raise(maker: &mut Maker, flag: u32) {
    let mut bus = clean(maker);
    let widest = widest(maker);
    let random = &mut maker.random;
    match flag {
        37 => {
            bus.burst = 1;
            ends_in_page(random, &mut bus);
            // Just past the page: one word more than fits, where there is more than one beat.
            let last = 0u32.wrapping_sub(u32::from(bus.length) << bus.size);
            bus.address = (bus.address & !0xfff).wrapping_add(4096).wrapping_add(last);
            if bus.length == 0 {
                bus.length = 255;
                bus.address = bus.address.wrapping_sub(1);
            }
        }
        38 => {
            bus.burst = 2;
            bus.length = random.pick(&[1, 3, 7, 15]);
            bus.size = random.between(1, widest) as u8;
            bus.address |= 1 + random.below((1 << bus.size) - 1);
        }
        39 => bus.burst = 3,
        41 => bus.cache = random.pick(&BAD_CACHE) as u8,
        42 => {
            bus.burst = 0;
            bus.length = if random.chance(50) { 16 } else { random.between(16, 255) as u8 };
        }
        43 => {
            bus.burst = 2;
            bus.length = random.pick(&[0, 2, 4, 6, 8, 14, 16, 31, 255]);
            bus.address &= !0 << bus.size;
        }
        44 => {
            // No size is too wide for 128 bytes.
            bus.size = (widest + 1).min(7) as u8;
            bus.burst = 0;
            bus.length &= 15;
        }
        45 => {
            let mut before = random_clock(maker);
            before.bits &= !OUT_OF_RESET;
            maker.bus(before);
        }
        _ => {
            change(maker, bus, flag);
            return;
        }
    }
    maker.bus(bus);
}

/// Holds a clock without ready, then changes the one field that belongs to `flag`.
fn change(maker: &mut Maker, mut bus: Bus, flag: u32) {
    bus.bits = OUT_OF_RESET | VALID;
    // From a burst of 0 with one beat every other field can be changed without another flag.
    if maker.random.chance(80) {
        bus.burst = 0;
        bus.length &= 7;
    }
    maker.bus(bus);
    if maker.random.chance(30) {
        maker.bus(bus);
    }
    let mut after = changed(maker, bus, flag);
    if maker.random.chance(30) {
        after.bits |= READY;
    }
    maker.bus(after);
}

/// `bus` with the field of `flag` at another value.
fn changed(maker: &mut Maker, mut bus: Bus, flag: u32) -> Bus {
    let widest = widest(maker);
    let random = &mut maker.random;
    match flag {
        46 => bus.address ^= 1 << random.below(32),
        47 => bus.burst = (bus.burst + 1) % 2,
        48 => bus.cache ^= 1,
        49 => bus.id ^= 1 << random.below(32),
        50 => bus.length ^= 1 << random.below(4),
        52 => bus.prot ^= 1 << random.below(3),
        53 => bus.size = (bus.size + 1) % (widest as u8 + 1),
        54 => bus.qos ^= 1 << random.below(4),
        55 => bus.region ^= 1 << random.below(4),
        _ => bus.bits &= !VALID,
    }
    bus
}

/// Goes on from the clock before: the same, or with one or more fields changed, valid or not.
fn held(maker: &mut Maker) {
    let before = maker.replay.monitor.before;
    let bits = maker.random.pick(&[1, 3, 3, 3, 7, 7, 5, 0, 2]);
    let mut bus = Bus { bits, ..Bus::from(&before) };
    if maker.random.chance(30) {
        bus.bits |= READY;
    }
    while maker.random.chance(55) {
        let flag = maker.random.pick(&FLAGS[8..]);
        bus = changed(maker, bus, flag);
    }
    maker.bus(bus);
}

/// A clock with one field out of range, in reset or not, valid or not: answer 13.
pub fn out_of_range(maker: &mut Maker) -> Bus {
    let mut bus = random_clock(maker);
    let random = &mut maker.random;
    // The lowest value out of range as often as any other.
    let mut beyond = |limit: u32| {
        if random.chance(50) {
            limit as u8
        } else {
            random.between(limit, 255) as u8
        }
    };
    let values = [beyond(8), beyond(8), beyond(4), beyond(16), beyond(8), beyond(16), beyond(16)];
    match random.below(7) {
        0 => bus.bits |= values[0] & !7,
        1 => bus.size = values[1],
        2 => bus.burst = values[2],
        3 => bus.cache = values[3],
        4 => bus.prot = values[4],
        5 => bus.qos = values[5],
        _ => bus.region = values[6],
    }
    bus
}
