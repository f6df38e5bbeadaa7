// How a group of bytes of memory answers, with its end and its sick windows, and where it failed.
// From RULES.md, "Memory that answers badly".

use crate::answer;

/// The longest memory allowed, in bytes (answer 2 beyond it).
pub const LONGEST: usize = 16_777_216;

/// The most windows allowed (answer 6 beyond it).
/// Reading: an empty window counts towards them.
pub const MOST_WINDOWS: usize = 16;

/// A sick window: start and length.
pub type Window = (u32, u32);

/// The answer of a group of bytes, with the number that a library caller gets for it.
#[derive(Clone, Copy, Debug, PartialEq, Eq)]
pub enum Verdict {
    Okay = 0,
    Slave = 1,
    Decode = 2,
}

/// What a library caller gets for a group of bytes: the numbered answer, the number of the verdict,
/// the lowest byte that gave it, and the first window, from 0, that holds this byte.
/// Reading: a place or a window that there is not is 0, and so is all beside an answer but 0.
#[derive(Clone, Copy, Debug, Default, PartialEq, Eq)]
pub struct Judged {
    pub answer: u32,
    pub verdict: u32,
    pub place: u32,
    pub window: u32,
}

/// Bytes that are one side of a burst.
#[derive(Clone, Copy)]
pub enum Side<'a> {
    /// A start and a number: bytes that follow each other, of a side that increments.
    Run(u32, u32),
    /// Bytes in any order, each maybe more than once, of a fixed side.
    Places(&'a [u64]),
}

/// The last byte of a window that is not empty.
/// Reading: it is reckoned without wrapping; past 2^32 there is no byte, so it may stop there.
#[inline]
fn last_of((start, length): Window) -> u32 {
    start.saturating_add(length.wrapping_sub(1))
}

/// Judges groups of `count` bytes together, which start at `starts`, in a memory of `length` bytes.
#[inline]
pub fn verdict<const GROUPS: usize>(
    length: usize,
    windows: &[Window],
    starts: [u32; GROUPS],
    count: u32,
) -> Verdict {
    if count == 0 {
        return Verdict::Okay;
    }
    // Reading: the end of a group is reckoned without wrapping.
    if starts.iter().any(|&start| u64::from(start) + u64::from(count) > length as u64) {
        return Verdict::Decode;
    }
    // The groups are memory now, so a shared byte is a byte of memory inside a window.
    if !windows.is_empty() && any_meets(windows, starts, count) {
        Verdict::Slave
    } else {
        Verdict::Okay
    }
}

/// Does a window share a byte with a group? All are looked at without a branch: most steps are
/// good, and none of them ends the search. Apart from its callers, which mostly have no windows.
#[inline(never)]
fn any_meets<const GROUPS: usize>(windows: &[Window], starts: [u32; GROUPS], count: u32) -> bool {
    let mut any = false;
    for &window in windows {
        for start in starts {
            let meets = (window.0 <= start + (count - 1)) & (start <= last_of(window));
            any |= (window.1 != 0) & meets;
        }
    }
    any
}

/// The first window by number, from 0, that holds a byte. An empty one holds none.
fn first_window(windows: &[Window], at: u64) -> Option<usize> {
    windows.iter().position(|&(start, count)| {
        let (start, count) = (u64::from(start), u64::from(count));
        start <= at && at < start + count
    })
}

/// How one byte answers, in a memory of `length` bytes. Addresses never wrap, so its place may be
/// past 2^32.
fn verdict_of_byte(length: usize, windows: &[Window], at: u64) -> Verdict {
    if at >= length as u64 {
        Verdict::Decode
    } else if first_window(windows, at).is_some() {
        Verdict::Slave
    } else {
        Verdict::Okay
    }
}

/// Judges bytes together that need not follow each other.
pub fn verdict_of_bytes<'a>(
    length: usize,
    windows: &[Window],
    places: impl IntoIterator<Item = &'a u64>,
) -> Verdict {
    let mut together = Verdict::Okay;
    for &at in places {
        match verdict_of_byte(length, windows, at) {
            Verdict::Decode => return Verdict::Decode,
            Verdict::Slave => together = Verdict::Slave,
            Verdict::Okay => {}
        }
    }
    together
}

/// The lowest byte of a side that gives this error, if any does.
pub fn lowest(length: usize, windows: &[Window], side: Side, kind: Verdict) -> Option<u64> {
    match side {
        Side::Run(start, count) => lowest_of_run(length, windows, start, count, kind),
        Side::Places(places) => {
            let gives = |at: &u64| verdict_of_byte(length, windows, *at) == kind;
            places.iter().copied().filter(gives).min()
        }
    }
}

/// The lowest of the `count` bytes from `start` on that gives this error, if any does. Not looked
/// for byte by byte: of a burst they may be a page, of a library caller 2^32 less one.
fn lowest_of_run(
    length: usize,
    windows: &[Window],
    start: u32,
    count: u32,
    kind: Verdict,
) -> Option<u64> {
    // All that are in memory come before all that are not.
    let inside = good_bytes(length, &[], start, count);
    let (before, end) = match kind {
        Verdict::Okay => return None,
        Verdict::Slave => (good_bytes(length, windows, start, inside), inside),
        // Reading: a lower sick byte is not named.
        Verdict::Decode => (inside, count),
    };
    (before < end).then(|| u64::from(start) + u64::from(before))
}

/// Judges the `count` bytes from `start` on for a library caller. Windows are numbers, start and
/// length in turn. Reading: 2 before 6, as for a step; an odd last number is of no use.
pub fn judge(length: usize, numbers: &[u32], start: u32, count: u32) -> Judged {
    let (pairs, _) = numbers.as_chunks();
    if length > LONGEST {
        return Judged { answer: answer::MEMORY, ..Judged::default() };
    }
    if pairs.len() > MOST_WINDOWS {
        return Judged { answer: answer::WINDOWS, ..Judged::default() };
    }
    let windows: Vec<Window> = pairs.iter().map(|&[start, length]| (start, length)).collect();
    let kind = verdict(length, &windows, [start], count);
    let place = lowest_of_run(length, &windows, start, count, kind).unwrap_or(0);
    let window = match kind {
        Verdict::Slave => first_window(&windows, place).expect("a sick byte has a window"),
        _ => 0,
    };
    // A group starts below 2^32, and so does what fails first in it.
    Judged {
        answer: answer::DONE,
        verdict: kind as u32,
        place: place as u32,
        window: window as u32,
    }
}

/// How many of the `most` bytes from `start` on answer OKAY, up to the first that does not.
#[inline]
pub fn good_bytes(length: usize, windows: &[Window], start: u32, most: u32) -> u32 {
    let inside = (length as u64).saturating_sub(u64::from(start));
    let good = inside.min(u64::from(most)) as u32;
    if windows.is_empty() {
        good
    } else {
        good_before(windows, start, good)
    }
}

/// How many of the `good` bytes from `start` on come before the first window over one of them.
#[inline(never)]
fn good_before(windows: &[Window], start: u32, mut good: u32) -> u32 {
    for &window in windows {
        if window.1 != 0 && start <= last_of(window) {
            good = good.min(window.0.saturating_sub(start));
        }
    }
    good
}
