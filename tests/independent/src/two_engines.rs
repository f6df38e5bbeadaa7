// Two engines on one memory: their steps in any interleaving, and the bytes that each step reads
// and writes, by which the interleavings that agree are told from the others.
// From RULES.md, what it says of the second engine.

use crate::answer;
use crate::engine::{Engine, Event, Phase, DESCRIPTOR, SG_INT_ERR, STATUS};
use crate::memory::Window;
use std::collections::BTreeSet;

/// Byte addresses.
pub type Addresses = BTreeSet<u32>;

/// The bytes of memory that a step, or some steps, read and write.
#[derive(Clone, Debug, Default, PartialEq, Eq)]
pub struct Footprint {
    pub reads: Addresses,
    pub writes: Addresses,
}

/// One step of an interleaving.
#[derive(Clone, Debug, PartialEq, Eq)]
pub struct Step {
    /// The engine number, 1 or 2 beside answer 0.
    pub engine: u8,
    pub answer: u32,
    pub event: Event,
    pub footprint: Footprint,
}

impl Footprint {
    /// That of one step, by the engine before it and its event. Reading: a fetch that memory answers
    /// with OKAY reads all of its descriptor, a stale one too; a move that writes reads its source
    /// bytes and writes its destination bytes, on a fixed side those it uses; an update writes its
    /// status word. Bytes that are only judged are not read.
    fn of_step(before: &Engine, event: Event) -> Footprint {
        let from = |start: u32, count: u32| (start..start + count).collect();
        let (reads, writes) = match (before.phase, event) {
            (Phase::Fetch, Event::Fetch { .. } | Event::Halt { bit: SG_INT_ERR, .. }) => {
                (from(before.current, DESCRIPTOR as u32), Addresses::new())
            }
            (Phase::Move(transfer), Event::Move { bytes, .. }) => {
                // Byte k of the transfer, k counted from its start.
                let used = |start: u32, fixed: bool| {
                    (transfer.moved..transfer.moved + bytes)
                        .map(|k| start + if fixed { k % before.width } else { k })
                        .collect()
                };
                (
                    used(transfer.source, before.key_hole_read),
                    used(transfer.destination, before.key_hole_write),
                )
            }
            (Phase::Update(_), Event::Update { current, .. }) => {
                (Addresses::new(), from(current + STATUS, 4))
            }
            // Idle, refused, or failed.
            _ => (Addresses::new(), Addresses::new()),
        };
        Footprint { reads, writes }
    }

    /// Does one of the two write a byte that the other reads or writes?
    /// All interleavings of two engines agree if their footprints, each run alone, do not collide.
    pub fn collides(&self, other: &Footprint) -> bool {
        let meets = |writes: &Addresses, other: &Footprint| {
            !writes.is_disjoint(&other.reads) || !writes.is_disjoint(&other.writes)
        };
        meets(&self.writes, other) || meets(&other.writes, self)
    }
}

/// Engines 1 and 2, with the same settings.
pub fn fresh(width: u32, beats: u32) -> [Engine; 2] {
    [(); 2].map(|()| Engine::fresh(width, beats))
}

/// The place of an engine by its number, if it is 1 or 2.
#[inline(always)]
pub(crate) fn place(number: u8) -> Option<usize> {
    match number {
        1 => Some(0),
        2 => Some(1),
        _ => None,
    }
}

/// Steps the engines on one memory, in the order of these engine numbers. Each step follows the
/// rules of every step on the memory as it stands; a number but 1 and 2 gets 21 and steps neither.
/// Numbers of one engine alone run it alone.
pub fn interleave(
    engines: &mut [Engine; 2],
    memory: &mut [u8],
    windows: &[Window],
    numbers: &[u8],
) -> Vec<Step> {
    numbers
        .iter()
        .map(|&engine| {
            let Some(place) = place(engine) else {
                let (answer, event) = (answer::ENGINE, Event::None);
                return Step { engine, answer, event, footprint: Footprint::default() };
            };
            let before = engines[place].clone();
            let (answer, event) = engines[place].step(memory, windows);
            Step { engine, answer, event, footprint: Footprint::of_step(&before, event) }
        })
        .collect()
}

/// The events of one engine's steps, in order. A step of an idle engine has none.
pub fn events(steps: &[Step], engine: u8) -> Vec<Event> {
    let own = steps.iter().filter(|step| step.engine == engine);
    own.map(|step| step.event).filter(|&event| event != Event::None).collect()
}

/// The footprint of all of one engine's steps.
pub fn footprint(steps: &[Step], engine: u8) -> Footprint {
    let mut all = Footprint::default();
    for step in steps.iter().filter(|step| step.engine == engine) {
        all.reads.extend(&step.footprint.reads);
        all.writes.extend(&step.footprint.writes);
    }
    all
}
