// Bus clocks in sequence on one monitor: clean ones, held ones of which a field changes, refused
// ones, and monitors that no sequence leads to.

use crate::coverage::Coverage;
use crate::monitor_desk::MonitorDesk;
use shared::clocks::{any_address, GOOD_CACHE, OUT_OF_RESET, READY, VALID};
use shared::interface::Clock;
use shared::random::Random;
use shared::settings;
use shared::words::{clock_before, monitor_words, MonitorWords, BITS_BEFORE};

pub fn clocks(random: &mut Random, coverage: &mut Coverage) -> Result<(), String> {
    let listed = settings::listed(random);
    let mut desk = MonitorDesk::new();
    for _ in 0..60 {
        let lent = random.chance(6);
        if lent {
            desk.set_words(&any_monitor(random));
        }
        let settings = if random.chance(4) { settings::unlisted(random) } else { listed };
        let before = desk.words();
        let mut clock = match random.below(100) {
            // What a lent monitor holds counts where its clock before is held against the next.
            _ if lent && random.chance(50) => changed(random, clock_before(&before)),
            0..=9 => Clock { bits: random.below(8) & !OUT_OF_RESET, ..any_clock(random) },
            10..=19 => Clock { bits: OUT_OF_RESET | random.below(2) << 2, ..any_clock(random) },
            20..=39 => clean(random, listed.0),
            40..=69 => changed(random, clock_before(&before)),
            70..=79 => Clock { bits: OUT_OF_RESET | VALID, ..any_clock(random) },
            _ => any_clock(random),
        };
        if random.chance(10) {
            let field = random.below(8);
            put_out_of_range(random, &mut clock, field);
        }
        desk.clock(settings, clock, coverage)?;
    }
    Ok(())
}

/// Every field in range, else anything.
pub fn any_clock(random: &mut Random) -> Clock {
    Clock {
        bits: random.below(8),
        address: any_address(random),
        length: if random.chance(50) { random.below(20) } else { random.below(256) },
        size: random.below(8),
        burst: random.below(4),
        cache: random.below(16),
        prot: random.below(8),
        qos: random.below(16),
        region: random.below(16),
        id: if random.chance(50) { random.below(4) } else { random.u32() },
    }
}

/// A valid clock that raises none of the flags 37 to 44, or nearly so.
fn clean(random: &mut Random, width: u32) -> Clock {
    let mut clock = any_clock(random);
    clock.bits = OUT_OF_RESET | VALID | random.below(2) << 2;
    clock.size = random.below(width.trailing_zeros() + 1);
    clock.cache = random.pick(&GOOD_CACHE);
    clock.burst = random.below(3);
    match clock.burst {
        0 => clock.length = random.below(17),
        1 => {
            // The last byte at the page's end, or one word past it.
            let bytes = (clock.length + 1) << clock.size;
            let past = u32::from(random.chance(20)) << clock.size;
            let page = clock.address & !4095;
            clock.address = page.wrapping_add(4096).wrapping_sub(bytes).wrapping_add(past);
        }
        _ => {
            clock.length = random.pick(&[1, 3, 7, 15]);
            clock.address &= !0 << clock.size;
        }
    }
    clock
}

/// The clock before with some of its fields changed, mostly one alone or none.
fn changed(random: &mut Random, before: Clock) -> Clock {
    let other = any_clock(random);
    // A monitor may hold bits that no clock has: then the rest of them is the clock that is most
    // alike.
    let mut clock = Clock {
        bits: OUT_OF_RESET | VALID,
        address: before.address,
        length: before.length & 255,
        size: before.size & 7,
        burst: before.burst & 3,
        cache: before.cache & 15,
        prot: before.prot & 7,
        qos: before.qos & 15,
        region: before.region & 15,
        id: before.id,
    };
    let changes = random.pick(&[0, 1, 1, 1, 1, 3]);
    for _ in 0..changes {
        match random.below(11) {
            0 => clock.address ^= 1 << random.below(32),
            1 => clock.length = other.length,
            2 => clock.size = other.size,
            3 => clock.burst = other.burst,
            4 => clock.cache = other.cache,
            5 => clock.prot = other.prot,
            6 => clock.qos = other.qos,
            7 => clock.region = other.region,
            8 => clock.id ^= 1 << random.below(32),
            9 => clock.bits &= !VALID,
            _ => clock.bits |= READY,
        }
    }
    clock
}

/// Puts the field `number` of those with a limit above it: by one, by a bit further up, by
/// anything.
pub fn put_out_of_range(random: &mut Random, clock: &mut Clock, number: u32) {
    let (field, most) = match number {
        0 => (&mut clock.bits, 7),
        1 => (&mut clock.length, 255),
        2 => (&mut clock.size, 7),
        3 => (&mut clock.burst, 3),
        4 => (&mut clock.cache, 15),
        5 => (&mut clock.prot, 7),
        6 => (&mut clock.qos, 15),
        _ => (&mut clock.region, 15),
    };
    *field = match random.below(3) {
        0 => most + 1,
        1 => *field | 1 << random.between(8, 31),
        _ => random.between(most + 1, u32::MAX - 1),
    };
}

/// A monitor with any flags, any snapshot and any clock before, now and then with bits that no
/// monitor has.
pub fn any_monitor(random: &mut Random) -> MonitorWords {
    // Flags and snapshot of the same kinds: none, all, one, any.
    let [flags, snapshot] = [(); 2].map(|()| {
        let kind = random.below(5);
        let halves = [(); 2].map(|()| match kind {
            0 => 0,
            1 => u32::MAX,
            2 => 1 << random.below(32),
            3 => u32::from(random.chance(50)) << random.below(32),
            _ => random.u32(),
        });
        u64::from(halves[1]) << 32 | u64::from(halves[0])
    });
    let mut words = monitor_words(flags, snapshot, &any_clock(random));
    if random.chance(20) {
        // The header takes any number there, also where no clock would be taken with it.
        let at = random.between(5, 13) as usize;
        words[at] =
            if random.chance(50) { random.u32() } else { words[at] ^ 1 << random.below(32) };
    }
    if random.chance(15) {
        words[BITS_BEFORE] = match random.below(3) {
            0 => 8,
            1 => words[BITS_BEFORE] | 1 << random.between(3, 31),
            _ => random.between(8, u32::MAX - 1),
        };
    }
    words
}
