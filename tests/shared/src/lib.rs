// What the tests and the bench share.
pub mod bursts;
pub mod clocks;
pub mod coverage;
pub mod crew;
pub mod fault_place;
#[cfg(feature = "library")]
pub mod interface;
pub mod key_hole;
pub mod key_hole_bursts;
pub mod random;
pub mod record;
pub mod registers;
pub mod settings;
pub mod table;
#[cfg(feature = "library")]
pub mod words;
