// The independent implementation of docs/RULES.md, a module for each of its parts. Written from the rules alone, without
// a look at the proved code. It is what that code is compared with and timed beside, so it is plain and fast.
pub mod answer;
pub mod convert;
pub mod cut;
pub mod engine;
pub mod listing;
pub mod memory;
pub mod monitor;
pub mod older;
pub mod record;
pub mod trace;
pub mod two_engines;
