// The numbered answers and the two lists of settings.
// From RULES.md, "Numbered answers".

pub const DONE: u32 = 0;
/// Width or beats not on its list.
pub const SETTINGS: u32 = 1;
/// Memory longer than `memory::LONGEST`.
pub const MEMORY: u32 = 2;
/// Register offset not one of 0, 4, .. 40.
pub const OFFSET: u32 = 3;
/// Write ignored: busy, or wrong mode.
pub const BUSY: u32 = 4;
/// Write ignored: an error bit is set.
pub const ERROR: u32 = 5;
/// More than 16 windows.
pub const WINDOWS: u32 = 6;
/// Plan of 0 or too many bytes, or past 2^32.
pub const PLAN: u32 = 7;
/// Plan needs more places than it was lent.
pub const ROOM: u32 = 8;
/// State not well formed.
pub const STATE: u32 = 9;
/// Record cut short, unknown mark, length out of range, or CF or C2 not first.
pub const RECORD: u32 = 10;
/// Sequence number not above the last one.
pub const SEQUENCE: u32 = 11;
/// MM bytes past the program's memory.
pub const PLACE: u32 = 12;
/// Bus clock field out of range.
pub const FIELD: u32 = 13;
/// Engine number not 1 or 2.
pub const ENGINE: u32 = 21;

/// Are width and beats both on the lists of answer 1? These are powers of two without a gap.
#[inline]
pub fn settings_listed(width: u32, beats: u32) -> bool {
    width.is_power_of_two()
        & (4..=128).contains(&width)
        & beats.is_power_of_two()
        & (2..=256).contains(&beats)
}
