// The cutter: a transfer cut into legal bursts, each as long as is legal, and their number.
// From RULES.md, "Cutting a transfer".

use crate::answer;

/// The most bytes a plan or a transfer may have.
pub const LONGEST: u32 = 8_388_607;

const PAGE: u32 = 4096;

/// Bytes of the first burst of the cut of `count` bytes from `start`.
///
/// For listed settings only and `count` above 0. All is reckoned within the page, since a
/// width divides the page: so nothing can pass 2^32, whatever `start + count` is.
#[inline]
pub(crate) fn first_burst(width: u32, beats: u32, start: u32, count: u32) -> u32 {
    let place = start & (PAGE - 1);
    let reach = (place & !(width - 1)) + width * beats;
    count.min(reach.min(PAGE) - place)
}

/// Bursts one behind the other that end at every `1 << shift` bytes from `anchor` on: those of a
/// transfer within its first page, or those past it.
struct Stretch {
    start: u32,
    count: u32,
    anchor: u32,
    shift: u32,
}

impl Stretch {
    fn bursts(&self) -> u32 {
        let bytes = self.start - self.anchor + self.count;
        (bytes + (1 << self.shift) - 1) >> self.shift
    }

    /// Writes the bursts, all of the same length at first: the loop has no test and no division.
    #[inline]
    fn write<Place>(&self, places: &mut [Place], place: impl Fn(u32, u32) -> Place) {
        let each = 1 << self.shift;
        let mut at = self.anchor;
        for one in places.iter_mut() {
            *one = place(at, each);
            at = at.wrapping_add(each); // 2^32 only after the last burst
        }
        // The first one starts later than its anchor, and the last one ends with the transfer.
        let [.., last] = places else { return };
        let last_start = at.wrapping_sub(each);
        let end = self.start.wrapping_add(self.count);
        *last = place(last_start, end.wrapping_sub(last_start));
        let first = (each - (self.start - self.anchor)).min(self.count);
        places[0] = place(self.start, first);
    }
}

/// The cut of a transfer: within its first page bursts end at multiples of `width * beats` counted
/// from the first byte's word; every later page starts afresh, and `width * beats` divides it or
/// covers it, so they go on evenly from there.
fn stretches(width: u32, beats: u32, start: u32, count: u32) -> [Stretch; 2] {
    let shift = (width * beats).min(PAGE).trailing_zeros();
    let here = count.min(PAGE - start % PAGE);
    let next_page = start.wrapping_add(here);
    [
        Stretch { start, count: here, anchor: start & !(width - 1), shift },
        Stretch { start: next_page, count: count - here, anchor: next_page, shift },
    ]
}

/// Why a plan is refused before its places are looked at, and a count at all: 1, 7, in this order.
#[inline]
fn refusal(width: u32, beats: u32, start: u32, count: u32) -> Option<u32> {
    if !answer::settings_listed(width, beats) {
        return Some(answer::SETTINGS);
    }
    // Reading: start + count equal to 2^32 is allowed.
    if count == 0 || count > LONGEST || u64::from(start) + u64::from(count) > 1 << 32 {
        return Some(answer::PLAN);
    }
    None
}

/// Plans into lent places of one burst each.
#[inline]
fn plan_into<Place>(
    width: u32,
    beats: u32,
    start: u32,
    count: u32,
    places: &mut [Place],
    place: impl Fn(u32, u32) -> Place,
) -> (u32, u32) {
    if let Some(answer) = refusal(width, beats, start, count) {
        return (answer, 0);
    }
    let [first_page, later_pages] = stretches(width, beats, start, count);
    let (here, later) = (first_page.bursts(), later_pages.bursts());
    let bursts = here + later;
    let Some(places) = places.get_mut(..bursts as usize) else {
        return (answer::ROOM, 0);
    };
    let (places_here, places_later) = places.split_at_mut(here as usize);
    first_page.write(places_here, &place);
    later_pages.write(places_later, &place);
    (answer::DONE, bursts)
}

/// Plans `count` bytes from `start` into lent places, two a burst: start, bytes.
/// Gives the answer and the number of bursts (0 beside every answer but 0).
/// Reading: an odd last place is of no use.
pub fn plan(width: u32, beats: u32, start: u32, count: u32, places: &mut [u32]) -> (u32, u32) {
    let (pairs, _) = places.as_chunks_mut();
    plan_into(width, beats, start, count, pairs, |at, bytes| [at, bytes])
}

/// The same plan into lent bytes, four little-endian bytes a place.
/// Reading: the length mod 4 bytes at the end stay as they are.
pub fn plan_bytes(width: u32, beats: u32, start: u32, count: u32, places: &mut [u8]) -> (u32, u32) {
    let (pairs, _) = places.as_chunks_mut();
    plan_into(width, beats, start, count, pairs, |at, bytes| {
        (u64::from(at) | u64::from(bytes) << 32).to_le_bytes()
    })
}

/// Bursts of the bytes from `from` up to, not including, `to`, at least one, all in one page: the
/// words that they touch, divided by `beats` and rounded up. Shifts divide by powers of two.
#[inline]
fn bursts_in_page(width: u32, beats: u32, from: u32, to: u32) -> u32 {
    let word = |byte: u32| byte >> width.trailing_zeros();
    let words = word(to - 1) - word(from) + 1;
    (words + beats - 1) >> beats.trailing_zeros()
}

/// The answer and the number of bursts of the same plan, without it: those of the first page, of
/// each whole page between, and of the last page. The plan's own sum goes by other parts, so that
/// each can be compared with the other.
pub fn count(width: u32, beats: u32, start: u32, count: u32) -> (u32, u32) {
    if let Some(answer) = refusal(width, beats, start, count) {
        return (answer, 0);
    }
    // Counted from the first page's start on, so nothing can pass 2^32.
    let from = start % PAGE;
    let to = from + count;
    let bursts_of = |from, to| bursts_in_page(width, beats, from, to);
    // Reading: a page that is both the first and the last counts once.
    if to <= PAGE {
        return (answer::DONE, bursts_of(from, to));
    }
    let pages_between = (to - 1) / PAGE - 1;
    let last_page_end = (to - 1) % PAGE + 1;
    let between = pages_between * bursts_of(0, PAGE);
    (answer::DONE, bursts_of(from, PAGE) + between + bursts_of(0, last_page_end))
}

/// The definition itself: is the burst from `from` up to, not including, `to` legal?
#[allow(clippy::int_plus_one)] // word for word
fn legal(width: u64, beats: u64, from: u64, to: u64) -> bool {
    from < to && from / 4096 == (to - 1) / 4096 && (to - 1) / width - from / width + 1 <= beats
}

/// Naive plan: extends each burst byte by byte as long as the definition allows. For the tests,
/// with listed settings and small counts.
pub fn brute_plan(width: u32, beats: u32, start: u32, count: u32) -> Vec<(u32, u32)> {
    let (width, beats) = (u64::from(width), u64::from(beats));
    let end = u64::from(start) + u64::from(count);
    let mut bursts = Vec::new();
    let mut from = u64::from(start);
    while from < end {
        let mut to = from + 1;
        while to < end && legal(width, beats, from, to + 1) {
            to += 1;
        }
        bursts.push((from as u32, (to - from) as u32));
        from = to;
    }
    bursts
}
