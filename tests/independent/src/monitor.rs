// The monitor of the read addresses: flags 37 to 56 of the bus clocks.
// From RULES.md, "Bus clocks".

use crate::answer;

/// One bus clock. A default one is in reset.
#[derive(Clone, Copy, Debug, Default, PartialEq, Eq)]
pub struct Clock {
    pub address: u32,
    pub length: u32,
    pub size: u32,
    pub burst: u32,
    pub cache: u32,
    pub prot: u32,
    pub qos: u32,
    pub region: u32,
    pub id: u32,
    pub reset_high: bool,
    pub valid: bool,
    pub ready: bool,
}

impl Clock {
    #[inline]
    fn in_range(&self) -> bool {
        // The bits that no field in range has, all at once.
        let beyond = self.length >> 8
            | self.size >> 3
            | self.burst >> 2
            | self.cache >> 4
            | self.prot >> 3
            | self.qos >> 4
            | self.region >> 4;
        beyond == 0
    }
}

/// The monitor. `before` is the clock before; a default monitor is a fresh one, since a default
/// clock is in reset.
#[derive(Clone, Copy, Debug, Default, PartialEq, Eq)]
pub struct Monitor {
    pub flags: u64,
    pub snapshot: u64,
    pub before: Clock,
}

/// The bit of a flag, if it is up. No branch: which flags are up is hard to foretell.
#[inline(always)]
fn flag(number: u32, up: bool) -> u64 {
    u64::from(up) << number
}

/// Flags that count only if `so`.
#[inline(always)]
fn only_if(so: bool, flags: u64) -> u64 {
    u64::from(so).wrapping_neg() & flags
}

/// The flags that each kind of burst can raise, of those that go by the burst.
const BY_BURST: [u64; 4] = [1 << 42, 1 << 37, 1 << 38 | 1 << 43, 1 << 39];

/// The cache values with bit 1 low and bit 2 or 3 high, a bit for each.
const BAD_CACHE: u64 = 0x3330;

/// Flags 37 to 44, of a clock out of reset with valid high.
#[inline(always)]
fn address_flags(width: u32, clock: &Clock) -> u64 {
    let word = 1 << clock.size;
    let beats = clock.length + 1;
    // Reading: the last byte is reckoned without wrapping; here from the start of the page.
    let last = (clock.address & 0xfff & !(word - 1)) + beats * word - 1;
    let by_burst = flag(37, last > 0xfff)
        | flag(38, clock.address & (word - 1) != 0)
        | flag(39, true)
        | flag(42, beats > 16)
        | flag(43, !matches!(beats, 2 | 4 | 8 | 16));
    by_burst & BY_BURST[clock.burst as usize & 3]
        | (BAD_CACHE >> clock.cache & 1) << 41
        | flag(44, word > width)
}

/// Flags 46 to 56, of a clock out of reset after one that was valid and not ready.
/// Reading: this clock need not be valid, and ready is never compared.
#[inline(always)]
fn change_flags(before: &Clock, clock: &Clock) -> u64 {
    flag(46, clock.address != before.address)
        | flag(47, clock.burst != before.burst)
        | flag(48, clock.cache != before.cache)
        | flag(49, clock.id != before.id)
        | flag(50, clock.length != before.length)
        | flag(52, clock.prot != before.prot)
        | flag(53, clock.size != before.size)
        | flag(54, clock.qos != before.qos)
        | flag(55, clock.region != before.region)
        | flag(56, !clock.valid)
}

impl Monitor {
    pub fn fresh() -> Monitor {
        Monitor::default()
    }

    /// Takes one clock. Reading: 13 is judged in reset and with valid low too, and a refused
    /// clock is no clock: nothing changes, the clock before neither.
    #[inline]
    pub fn clock(&mut self, width: u32, beats: u32, clock: &Clock) -> u32 {
        if !answer::settings_listed(width, beats) {
            return answer::SETTINGS;
        }
        if !clock.in_range() {
            return answer::FIELD;
        }
        self.take(width, clock);
        answer::DONE
    }

    /// Takes a clock that is not refused.
    #[inline]
    pub(crate) fn take(&mut self, width: u32, clock: &Clock) {
        let before = &self.before;
        let held = before.reset_high & before.valid & !before.ready;
        let new = only_if(clock.valid, address_flags(width, clock) | flag(45, !before.reset_high))
            | only_if(held, change_flags(before, clock));
        let flags = only_if(clock.reset_high, self.flags | new);
        let rises = (self.flags == 0) & (flags != 0);
        self.snapshot = only_if(clock.reset_high, if rises { flags } else { self.snapshot });
        self.flags = flags;
        self.before = *clock;
    }

    /// How many flags are up. Reading: of all flags that stand.
    #[inline]
    pub fn count(&self) -> u32 {
        self.flags.count_ones()
    }

    /// The lowest flag that is up, 0 if none.
    #[inline]
    pub fn lowest(&self) -> u32 {
        if self.flags == 0 {
            0
        } else {
            self.flags.trailing_zeros()
        }
    }
}
