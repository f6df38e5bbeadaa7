// Groups of bytes judged for a caller: how they answer, and where. The memory itself is not lent, so
// it may be said to be of any length.

use independent::memory::{LONGEST as MOST_MEMORY, MOST_WINDOWS};
use shared::bursts::{sick, Burst, Side};
use shared::interface::{belikumba_judge, Judged, Stepped};
use shared::random::Random;
use shared::words::{self, EngineWords, MOVE};

use crate::coverage::{Coverage, Function};
use crate::engine_desk::{Call, EngineDesk, Given};
use crate::lent::Lent;
use crate::reference::{self, pairs};
use crate::states;
use crate::surroundings::windows;

const TOP: u64 = 1 << 32;

const SLAVE: u32 = 1;
const DECODE: u32 = 2;
const FAULT_EVENT: u32 = 3;

/// A group, and how long the memory is said to be.
#[derive(Clone, Copy, Debug)]
struct Group {
    memory: usize,
    start: u32,
    bytes: u32,
}

impl Group {
    fn end(&self) -> u64 {
        u64::from(self.start) + u64::from(self.bytes)
    }

    fn holds(&self, at: u64) -> bool {
        u64::from(self.start) <= at && at < self.end()
    }
}

/// Groups of all kinds.
pub fn judged(random: &mut Random, coverage: &mut Coverage) -> Result<(), String> {
    for _ in 0..40 {
        let group = any_group(random);
        let numbers = any_windows(random, group);
        judge(group, &numbers, random.chance(50), coverage)?;
    }
    Ok(())
}

/// Small groups with one window and with two, gone through one by one; then the edges of all numbers.
pub fn edges(_: &mut Random, coverage: &mut Coverage) -> Result<(), String> {
    let small = |memory, most: u32| {
        (0..=most)
            .flat_map(move |start| (0..=most).map(move |bytes| Group { memory, start, bytes }))
    };
    let places = |most: u32, longest: u32| {
        (0..=most).flat_map(move |at| (0..=longest).map(move |n| [at, n]))
    };
    for group in (0..=6).flat_map(|memory| small(memory, 7)) {
        judge(group, &[], false, coverage)?;
        for window in places(7, 3) {
            judge(group, &window, false, coverage)?;
        }
    }
    for group in [3, 6].into_iter().flat_map(|memory| small(memory, 5)) {
        for both in places(4, 2).flat_map(|first| places(4, 2).map(move |other| [first, other])) {
            judge(group, &both.concat(), false, coverage)?;
        }
    }
    let most = MOST_MEMORY as u32;
    let ends = [0, 1, 5, 512, most - 1, most, most + 1, 1 << 31, u32::MAX - 1, u32::MAX];
    let memories = [0, 1, 512, MOST_MEMORY - 1, MOST_MEMORY, MOST_MEMORY + 1];
    let beyond = [TOP as usize - 1, TOP as usize, TOP as usize + 512, usize::MAX];
    for memory in memories.into_iter().chain(beyond) {
        for (start, bytes) in ends.iter().flat_map(|start| ends.map(|bytes| (*start, bytes))) {
            let group = Group { memory, start, bytes };
            for window in [[0, 0], [0, u32::MAX], [1, u32::MAX], [u32::MAX, u32::MAX], [most, 1]] {
                judge(group, &window, false, coverage)?;
            }
            judge(group, &[], true, coverage)?;
        }
    }
    window_counts(coverage)
}

/// Windows in every number, the last whole one alone over the group, and an odd number too.
fn window_counts(coverage: &mut Coverage) -> Result<(), String> {
    for count in 0..=40 {
        let mut numbers = vec![600; count];
        if count > 1 {
            numbers[count / 2 * 2 - 2] = 258;
        }
        if count % 2 == 1 {
            numbers[count - 1] = 256;
        }
        for memory in [0, 512, MOST_MEMORY, MOST_MEMORY + 1] {
            for bytes in [0, 2, 16, 500] {
                judge(Group { memory, start: 256, bytes }, &numbers, false, coverage)?;
            }
        }
        // The last one is empty, and the one before it holds the same byte.
        if count >= 4 {
            numbers[count / 2 * 2 - 4] = 250;
            numbers[count / 2 * 2 - 1] = 0;
        }
        judge(Group { memory: 512, start: 256, bytes: 16 }, &numbers, false, coverage)?;
    }
    Ok(())
}

/// Steps of engines that move; a fault names what the library's own judgement of its bytes does.
pub fn beside_steps(random: &mut Random, coverage: &mut Coverage) -> Result<(), String> {
    let room = random.pick(&[0, 31, 500, 4096 + 900]);
    let mut desk = EngineDesk::new(&states::fresh(4, 16), room as usize);
    for _ in 0..12 {
        let words = states::in_phase(random, room, MOVE);
        let mut numbers = windows(random, &words, room);
        if random.chance(70) {
            numbers.truncate(32);
        }
        desk.lend_windows(&numbers, random.chance(50));
        desk.set_words(&words);
        if let Given::Stepped(stepped @ Stepped { event: FAULT_EVENT, .. }) =
            desk.call(Call::Step, coverage)?
        {
            agrees(&words, desk.memory().len(), &numbers, stepped, coverage)?;
        }
    }
    Ok(())
}

/// The place and the kind of a step's fault are those of its source bytes if they give the worst
/// verdict of the burst, else those of its destination bytes.
fn agrees(
    words: &EngineWords,
    memory: usize,
    numbers: &[u32],
    stepped: Stepped,
    coverage: &mut Coverage,
) -> Result<(), String> {
    let engine = words::engine(words).expect("a step that was taken has an engine");
    let burst = Burst::before(&engine).expect("a fault of an engine that moves");
    let mut worst = [(0, 0); 2];
    for (worst, side) in worst.iter_mut().zip([&burst.source, &burst.destination]) {
        *worst = worst_of(side, memory, numbers, coverage)?;
    }
    let [source, destination] = worst;
    let (verdict, place) = if source.0 >= destination.0 { source } else { destination };
    coverage.see("fault of a step that names what the judgement of its bytes does");
    if (stepped.first, stepped.second) != (place, verdict + 4) {
        return Err(format!(
            "step of {words:?} with {memory} bytes of memory and windows {numbers:?}: {stepped:?}\n  \
             its source bytes are judged {source:?} and its destination bytes {destination:?}"
        ));
    }
    Ok(())
}

/// The worst verdict of the bytes that a side uses, and the lowest place that gave it.
fn worst_of(
    side: &Side,
    memory: usize,
    numbers: &[u32],
    coverage: &mut Coverage,
) -> Result<(u32, u32), String> {
    let mut worst = (0, 0);
    for used in &side.used {
        // A fixed word off the multiples may pass 2^32, where no group starts; then its other end
        // is past the memory's end too, and lower.
        let Ok(start) = u32::try_from(used.start) else { continue };
        let bytes = (used.end - used.start) as u32;
        let given = judge(Group { memory, start, bytes }, numbers, false, coverage)?;
        let lower = given.verdict == worst.0 && given.place < worst.1;
        if given.verdict > worst.0 || lower {
            worst = (given.verdict, given.place);
        }
    }
    Ok(worst)
}

fn any_group(random: &mut Random) -> Group {
    let most = MOST_MEMORY as u32;
    let few = random.below(100);
    let memory = match random.below(24) {
        0 => 0,
        1 => MOST_MEMORY,
        2 => MOST_MEMORY + 1,
        3 => TOP as usize + few as usize,
        4 => random.word() as usize,
        5 => MOST_MEMORY - few as usize,
        6..=7 => random.below(most) as usize,
        8..=12 => random.below(5000) as usize,
        _ => few as usize,
    };
    let near = memory.min(MOST_MEMORY) as u32;
    let bytes = match random.below(12) {
        0 => 0,
        1 => u32::MAX - random.below(40),
        2 => random.u32(),
        3 => near,
        4..=5 => random.between(1, 600),
        _ => random.between(1, 40),
    };
    let start = match random.below(12) {
        0 => u32::MAX - random.below(40),
        1 => random.u32(),
        // The end of the group at the memory's end or near it, or at 2^32.
        2..=3 => near.wrapping_sub(bytes).wrapping_add(random.below(5)).wrapping_sub(2),
        4 => 0u32.wrapping_sub(bytes).wrapping_add(random.below(3)),
        5 => near.saturating_add(random.below(9)),
        6 => 0,
        _ => random.below(near + 20),
    };
    Group { memory, start, bytes }
}

/// Windows on the group and around it, in all numbers, sometimes one number over.
fn any_windows(random: &mut Random, group: Group) -> Vec<u32> {
    let count = match random.below(20) {
        0 => 0,
        1..=2 => 16,
        3 => 17,
        4 => random.between(18, 31),
        5..=7 => 1,
        _ => random.between(2, 6),
    };
    // Many windows are mostly empty or elsewhere, or the last of them would never decide.
    let harm = if count > 6 { 8 } else { 60 };
    let mut numbers = Vec::new();
    for _ in 0..count {
        let within = group.start.saturating_add(random.below(group.bytes.clamp(1, 600)));
        let length = match random.below(8) {
            0 => u32::MAX - random.below(90),
            1 => 1,
            _ => random.between(1, 12),
        };
        let at = match random.below(6) {
            0 => group.start,
            1 => group.start.saturating_sub(random.below(12)),
            2 => group.start.saturating_add(group.bytes).saturating_sub(1),
            _ => within,
        };
        numbers.extend(match random.below(100) {
            chance if chance < harm => [at, length],
            chance if chance % 4 == 0 => [u32::MAX - random.below(9), u32::MAX - random.below(9)],
            chance if chance % 4 == 1 => [group.start.saturating_sub(9), group.start.min(9)],
            _ => [at, 0],
        });
    }
    if random.chance(25) {
        numbers.push(group.start);
    }
    numbers
}

/// One call, whose windows have to stay as they were; what it hands back.
fn judge(
    group: Group,
    numbers: &[u32],
    null_where_empty: bool,
    coverage: &mut Coverage,
) -> Result<Judged, String> {
    let Group { memory, start, bytes } = group;
    let mut lent = Lent::of(numbers, 0x5a5a_5a5a);
    lent.null_where_empty = null_where_empty;
    let before = lent.clone();
    let null = lent.is_null();
    // SAFETY: the header: it reads the lent numbers alone, and takes any others.
    let given = unsafe { belikumba_judge(memory, lent.pointer(), numbers.len(), start, bytes) };
    let expected = reference::judge(memory, numbers, start, bytes);
    if given != expected || lent != before {
        return Err(format!(
            "judgement of {group:?} with windows {numbers:?}\n  library  {given:?}\n  \
             expected {expected:?}\n  first number of windows that differs: {:?}",
            lent.difference(&before)
        ));
    }
    coverage.answer_alone(Function::Judge, given.answer);
    let held = [(6, numbers.len() / 2 > MOST_WINDOWS)];
    coverage.beside(Function::Judge, given.answer, &held);
    see_lent(group, numbers, null, given, coverage);
    if given.answer == 0 {
        coverage.number("verdict of a group", given.verdict);
        see_group(group, numbers, given, coverage);
        match given.verdict {
            SLAVE => see_sick(group, numbers, given, coverage),
            DECODE => see_past(group, numbers, given, coverage),
            _ => {}
        }
    }
    Ok(given)
}

fn see_lent(group: Group, numbers: &[u32], null: bool, given: Judged, coverage: &mut Coverage) {
    let memory = group.memory;
    coverage.see_if(memory == MOST_MEMORY + 1, "group of a memory of 16,777,217 bytes");
    let far = memory as u64 >= TOP && memory as u64 % TOP <= MOST_MEMORY as u64;
    coverage.see_if(far, "group of a memory above 2^32 bytes, of few in their low 32 bits");
    let odd = !numbers.len().is_multiple_of(2);
    coverage.see_if(numbers.len() > 35, "group beside more than seventeen windows");
    let row = match numbers.len() / 2 {
        16 if odd => "group beside sixteen windows and an odd number",
        16 => "group beside sixteen windows",
        17 if odd => "group beside seventeen windows and an odd number",
        17 => "group beside seventeen windows",
        _ => {
            return coverage
                .see_if(null && given.answer == 0, "group beside no windows at a null pointer")
        }
    };
    coverage.see(row);
}

/// A group that was judged, whatever its verdict.
fn see_group(group: Group, numbers: &[u32], given: Judged, coverage: &mut Coverage) {
    let Group { memory, start, bytes } = group;
    let (end, memory) = (group.end(), memory as u64);
    coverage.see_if(memory == 0, "group of a memory of no bytes");
    coverage.see_if(memory == MOST_MEMORY as u64, "group of a memory of 16,777,216 bytes");
    coverage.see_if(end == TOP, "group up to 2^32");
    coverage.see_if(end > TOP, "group that passes 2^32");
    coverage.see_if(bytes == u32::MAX, "group of 2^32 - 1 bytes");
    coverage.see_if(start == u32::MAX, "group from 2^32 - 1 on");
    let over = |at: u64| pairs(numbers).iter().any(|window| sick(window).contains(&at));
    if bytes == 0 {
        coverage.see("group of no bytes");
        coverage.see_if(u64::from(start) >= memory, "group of no bytes past the memory's end");
        coverage.see_if(over(start.into()), "group of no bytes in a window");
    }
    if given.verdict != 0 || bytes == 0 {
        return;
    }
    coverage.see_if(end == memory, "good group up to the memory's end");
    for window in pairs(numbers) {
        let (window, empty) = (sick(&window), window.1 == 0);
        let from = u64::from(start);
        coverage.see_if(empty && group.holds(window.start), "empty window in a good group");
        coverage.see_if(!empty && window.end == from, "window that ends at a good group");
        coverage.see_if(!empty && window.start == end, "window that starts behind a good group");
        let wraps = window.end > TOP && window.end - TOP > from;
        coverage.see_if(wraps, "window past 2^32 that would wrap onto a judged group");
    }
    if let [last] = numbers.chunks_exact(2).remainder() {
        let inside = group.holds((*last).into());
        coverage.see_if(inside, "odd last number in the place of a good group");
    }
}

/// A sick byte, by its place and by the windows around it.
fn see_sick(group: Group, numbers: &[u32], given: Judged, coverage: &mut Coverage) {
    let windows = pairs(numbers);
    let (at, first) = (u64::from(given.place), given.window as usize);
    let (start, last) = (u64::from(group.start), group.end() - 1);
    coverage.see_if(at == start, "sick byte at the start of a group");
    coverage.see_if(start < at && at < last, "sick byte inside a group");
    coverage.see_if(at == last && start < last, "sick byte at the end of a group");
    coverage.number_if_expected("window of a sick byte", given.window);
    let holders: Vec<usize> =
        (0..windows.len()).filter(|one| sick(&windows[*one]).contains(&at)).collect();
    if let [_, second, ..] = holders[..] {
        coverage.see("sick byte of a group in two windows or more");
        let lower = windows[second].0 < windows[first].0;
        coverage.see_if(lower, "sick byte of a group in two windows, the second starting lower");
        let higher = windows[second].0 > windows[first].0;
        coverage.see_if(higher, "sick byte of a group in two windows, the second starting higher");
    }
    let before = &windows[..first];
    let higher = before.iter().any(|window| {
        let bytes = sick(window);
        window.1 > 0 && bytes.start > at && group.holds(bytes.start)
    });
    coverage.see_if(higher, "sick byte in a window after one over higher bytes of the group");
    let empty = before.iter().any(|window| window.1 == 0 && group.holds(window.0.into()));
    coverage.see_if(empty, "sick byte in a window after an empty one");
    let window = sick(&windows[first]);
    coverage.see_if(window.start < start, "sick byte in a window that starts before the group");
    let past = window.end > group.memory as u64;
    coverage.see_if(past, "sick byte of a group in a window past the memory's end");
    coverage.see_if(window.end > TOP, "sick byte of a group in a window past 2^32");
}

/// A byte past the memory's end.
fn see_past(group: Group, numbers: &[u32], given: Judged, coverage: &mut Coverage) {
    let (at, memory) = (u64::from(given.place), group.memory as u64);
    let start = u64::from(group.start);
    coverage.see_if(at > start, "memory's end inside a group");
    coverage.see_if(at == start && at == memory, "group from the memory's end on");
    coverage.see_if(at > memory, "group past the memory's end");
    coverage.see_if(group.end() == memory + 1, "group one byte past the memory's end");
    let windows = pairs(numbers);
    let lower = windows.iter().map(sick).any(|window| {
        let in_memory = window.start.max(start)..window.end.min(memory);
        !in_memory.is_empty()
    });
    coverage.see_if(lower, "decode error of a group with a lower sick byte");
    let over = windows.iter().any(|window| sick(window).contains(&at));
    coverage.see_if(over, "window over the place of a decode error");
}
