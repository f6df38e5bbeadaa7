// Plans, with room to spare, with just enough and with too little, and the counts of the same
// transfers.

use crate::counts::count;
use crate::coverage::{Coverage, Function};
use crate::lent::Lent;
use crate::reference;
use independent::answer;
pub use independent::cut::LONGEST as MOST_BYTES;
use shared::interface::{belikumba_plan, Planned};
use shared::random::Random;
use shared::settings;

pub const TOP: u64 = 1 << 32;
pub const PAGE: u32 = 4096;

#[derive(Clone, Copy, Debug)]
pub struct Transfer {
    pub width: u32,
    pub beats: u32,
    pub start: u32,
    pub count: u32,
}

impl Transfer {
    pub fn end(&self) -> u64 {
        u64::from(self.start) + u64::from(self.count)
    }

    /// Whether it has answer 7, if nothing before that holds.
    pub fn out_of_range(&self) -> bool {
        self.count == 0 || self.count > MOST_BYTES || self.end() > TOP
    }
}

pub fn plans(random: &mut Random, coverage: &mut Coverage) -> Result<(), String> {
    for _ in 0..20 {
        let transfer = any(random);
        with_each_room(random, transfer, coverage)?;
        // A count takes no places, so the same transfer can be of any length.
        let long = Transfer { count: random.between(1, MOST_BYTES), ..transfer };
        count(long, coverage)?;
    }
    Ok(())
}

/// The longest transfers, which fill megabytes of places.
pub fn longest(random: &mut Random, coverage: &mut Coverage) -> Result<(), String> {
    for (width, beats, start) in [(4, 2, 4095), (128, 256, 1), (16, 8, u32::MAX - MOST_BYTES + 1)] {
        with_each_room(random, Transfer { width, beats, start, count: MOST_BYTES }, coverage)?;
    }
    Ok(())
}

fn any(random: &mut Random) -> Transfer {
    let (width, beats) =
        if random.chance(90) { settings::listed(random) } else { settings::unlisted(random) };
    let count = match random.below(13) {
        0 => random.pick(&[0, 1, MOST_BYTES + 1, u32::MAX]),
        1 => random.u32(),
        2 => random.between(1, 3) * PAGE,
        3..=5 => random.between(1, 20),
        6..=8 => random.between(1, 9000),
        _ => random.between(1, 1000),
    };
    let start = match random.below(7) {
        0 => random.u32(),
        // The end at 2^32, and a few bytes to each side of it.
        1 => 0u32.wrapping_sub(count).wrapping_add(random.below(5)).wrapping_sub(2),
        2 => u32::MAX - random.below(9000),
        3 => (random.below(1 << 20) * PAGE).wrapping_sub(random.below(300)),
        4 => random.below(1 << 20) * PAGE,
        _ => random.below(10_000),
    };
    Transfer { width, beats, start, count }
}

/// The same plan into several lengths of places around what it needs.
fn with_each_room(
    random: &mut Random,
    transfer: Transfer,
    coverage: &mut Coverage,
) -> Result<(), String> {
    let Transfer { width, beats, start, count } = transfer;
    // All bursts but the first and the last have at least 4 bytes: that is room for every plan.
    let most = if count <= MOST_BYTES { 8 * (count as usize / 4 + 2) } else { 0 };
    let mut room = vec![0; most];
    let needed = 8 * reference::plan(width, beats, start, count, &mut room).bursts as usize;
    let spare = random.below(40) as usize;
    let mut lengths = vec![needed, needed + spare, random.below(8) as usize, 0];
    if needed > 0 {
        lengths.extend([needed - 1, needed - 4, random.below(needed as u32) as usize]);
    }
    for length in lengths {
        plan(random, transfer, length, coverage)?;
        count_room(transfer, length, needed, coverage);
    }
    with_counted_room(random, transfer, coverage)
}

/// The library's own count is the room that its plan needs, to the place.
fn with_counted_room(
    random: &mut Random,
    transfer: Transfer,
    coverage: &mut Coverage,
) -> Result<(), String> {
    let counted = count(transfer, coverage)?;
    if counted.answer != answer::DONE {
        return Ok(());
    }
    let enough = 8 * counted.bursts as usize;
    let planned = plan(random, transfer, enough, coverage)?;
    let short = plan(random, transfer, enough - 4, coverage)?;
    if planned != counted || short.answer != answer::ROOM {
        return Err(format!(
            "count of {transfer:?}: {counted:?}\n  plan with that much room   {planned:?}\n  \
             plan with one place fewer  {short:?}"
        ));
    }
    Ok(())
}

/// One plan into `length` bytes of places; what the library gave is handed back.
pub fn plan(
    random: &mut Random,
    transfer: Transfer,
    length: usize,
    coverage: &mut Coverage,
) -> Result<Planned, String> {
    let Transfer { width, beats, start, count } = transfer;
    let margin = random.u32() as u8;
    let mut places = Lent::new(length + 3, margin);
    places.lend(random.below(4) as usize, length);
    places.null_where_empty = random.chance(50);
    coverage.see_if(places.is_null(), "plan of no places at a null pointer");
    let mut expected_places = places.clone();
    // SAFETY: the header: whatever the numbers are, it writes to the lent bytes alone.
    let given = unsafe { belikumba_plan(width, beats, start, count, places.pointer(), length) };
    let expected = reference::plan(width, beats, start, count, expected_places.cells_mut());
    if given != expected || places != expected_places {
        return Err(format!(
            "plan of {transfer:?} with {length} bytes of places\n  library  {given:?}\n  \
             expected {expected:?}\n  first byte that differs, library's and expected: {:?}",
            places.difference(&expected_places)
        ));
    }
    coverage.answer(Function::Plan, given.answer, width, beats);
    let others = [(7, transfer.out_of_range()), (8, length < 8)];
    coverage.beside(Function::Plan, given.answer, &others);
    Ok(given)
}

fn count_room(transfer: Transfer, length: usize, needed: usize, coverage: &mut Coverage) {
    let (count, end) = (transfer.count, transfer.end());
    coverage.see_if(count == 0, "plan of no bytes");
    coverage.see_if(count == MOST_BYTES + 1, "plan of 8,388,608 bytes");
    coverage.see_if(end == TOP + 1, "plan one byte past 2^32");
    if needed == 0 {
        return;
    }
    coverage.see_if(end == TOP, "plan up to 2^32");
    coverage.see_if(count == MOST_BYTES, "plan of 8,388,607 bytes");
    coverage.see_if(length > needed, "plan with room to spare");
    coverage.see_if(length == needed, "plan with just enough room");
    coverage.see_if(length == needed - 4, "plan with one place too few");
    coverage.see_if(length == needed - 1, "plan with one byte too few");
    coverage.see_if(length > needed && !length.is_multiple_of(4), "plan with bytes left over");
}
