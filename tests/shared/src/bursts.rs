// The burst that the next step of a moving engine takes, worked out from the definitions for the
// coverage tables: its bytes, and the bytes of memory that each side uses.
// From RULES.md, "Cutting a transfer" and "Descriptor and steps" (6.10).

use std::ops::Range;

use independent::engine::{Engine, Phase, Transfer};
use independent::memory::Window;

pub const PAGE: u32 = 4096;
/// The most beats of a piece that goes to a fixed destination.
pub const MOST_FIXED_BEATS: u32 = 16;

/// Bytes of memory. Addresses never wrap, so they may be past 2^32.
pub type Bytes = Range<u64>;

/// Do both have a byte in common?
pub fn share(left: &Bytes, right: &Bytes) -> bool {
    left.start.max(right.start) < left.end.min(right.end)
}

/// The bytes of a window.
pub fn sick(&(start, length): &Window) -> Bytes {
    u64::from(start)..u64::from(start) + u64::from(length)
}

pub struct Side {
    pub fixed: bool,
    /// The word of a fixed side, else the bytes that the burst uses.
    pub whole: Bytes,
    /// The bytes that the burst uses: of a word a part if it is short, be it the two ends.
    pub used: Vec<Bytes>,
    /// The bytes that it would use if it were not fixed.
    pub straight: Bytes,
}

impl Side {
    fn new(engine: &Engine, fixed: bool, start: u32, moved: u32, bytes: u32) -> Side {
        let width = u64::from(engine.width);
        let (start, moved, bytes) = (u64::from(start), u64::from(moved), u64::from(bytes));
        let straight = start + moved..start + moved + bytes;
        if !fixed {
            return Side { fixed, whole: straight.clone(), used: vec![straight.clone()], straight };
        }
        let whole = start..start + width;
        let first = start + moved % width;
        let last = first + bytes;
        let used = if bytes >= width {
            vec![whole.clone()]
        } else {
            // Past the word's end it goes on at its start.
            let parts = [first..last.min(whole.end), start..last.max(whole.end) - width];
            parts.into_iter().filter(|part| !part.is_empty()).collect()
        };
        Side { fixed, whole, used, straight }
    }

    pub fn uses(&self, bytes: &Bytes) -> bool {
        self.used.iter().any(|used| share(used, bytes))
    }

    /// Is a byte that the burst uses in a window?
    pub fn is_sick(&self, windows: &[Window]) -> bool {
        windows.iter().any(|window| self.uses(&sick(window)))
    }

    /// Is a byte that the burst uses past the end of a memory of this length?
    pub fn is_past(&self, memory: u64) -> bool {
        self.used.iter().any(|used| used.end > memory)
    }
}

pub struct Burst {
    pub bytes: u32,
    /// Bytes of the transfer before the burst, and from its start on.
    pub moved: u32,
    pub left: u32,
    pub source: Side,
    pub destination: Side,
}

impl Burst {
    /// The burst before an engine that moves.
    pub fn before(engine: &Engine) -> Option<Burst> {
        let Phase::Move(Transfer { source, destination, total, moved }) = engine.phase else {
            return None;
        };
        let left = total - moved;
        let bytes = if engine.key_hole_write {
            left.min(full_piece(engine))
        } else {
            cut(engine, destination + moved, left)
        };
        let side = |fixed: bool, start: u32| Side::new(engine, fixed, start, moved, bytes);
        let (source, destination) =
            (side(engine.key_hole_read, source), side(engine.key_hole_write, destination));
        Some(Burst { bytes, moved, left, source, destination })
    }

    pub fn has_fixed_side(&self) -> bool {
        self.source.fixed || self.destination.fixed
    }
}

/// Bytes of a piece to a fixed destination that is not the last.
pub fn full_piece(engine: &Engine) -> u32 {
    engine.width * engine.beats.min(MOST_FIXED_BEATS)
}

/// Bytes of the first burst of a cut.
fn cut(engine: &Engine, start: u32, left: u32) -> u32 {
    let words = engine.width * engine.beats - start % engine.width;
    left.min(words).min(PAGE - start % PAGE)
}
