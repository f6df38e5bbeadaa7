// What each function of the header has to give, by the independent program. The words of no engine
// have no engine there, and are refused here in the rules' order.

use independent::answer::{self, settings_listed};
use independent::cut::{self, plan_bytes};
use independent::engine::Event;
use independent::memory::{self, Window, LONGEST, MOST_WINDOWS};

use shared::interface::{Clock, Clocked, Judged, Planned, Ran, Stepped, Value};
use shared::words::{self, EngineWords, MonitorWords, BEATS, WIDTH};

pub fn plan(width: u32, beats: u32, start: u32, count: u32, places: &mut [u8]) -> Planned {
    let (answer, bursts) = plan_bytes(width, beats, start, count, places);
    Planned { answer, bursts }
}

pub fn count(width: u32, beats: u32, start: u32, count: u32) -> Planned {
    let (answer, bursts) = cut::count(width, beats, start, count);
    Planned { answer, bursts }
}

pub fn judge(memory_bytes: usize, windows: &[u32], start: u32, bytes: u32) -> Judged {
    let memory::Judged { answer, verdict, place, window } =
        memory::judge(memory_bytes, windows, start, bytes);
    Judged { answer, verdict, place, window }
}

/// The answer for the words of no engine, where nothing before it is refused.
fn no_engine(words: &EngineWords) -> u32 {
    if settings_listed(words[WIDTH], words[BEATS]) {
        answer::STATE
    } else {
        answer::SETTINGS
    }
}

/// The same of a step or a run, which are refused for what they are lent before.
fn no_engine_to_step(words: &EngineWords, memory: usize, windows: usize) -> u32 {
    match no_engine(words) {
        answer::STATE if memory > LONGEST => answer::MEMORY,
        answer::STATE if windows > MOST_WINDOWS => answer::WINDOWS,
        other => other,
    }
}

pub fn read(words: &EngineWords, offset: u32) -> Value {
    let Some(engine) = words::engine(words) else {
        return Value { answer: no_engine(words), value: 0 };
    };
    let (answer, value) = engine.read(offset);
    Value { answer, value }
}

pub fn write(words: &mut EngineWords, offset: u32, value: u32) -> u32 {
    let Some(mut engine) = words::engine(words) else {
        return no_engine(words);
    };
    let answer = engine.write(offset, value);
    *words = words::of_engine(&engine);
    answer
}

pub fn interrupt_line(words: &EngineWords) -> Value {
    match words::engine(words).filter(|engine| engine.well_formed()) {
        Some(engine) if settings_listed(engine.width, engine.beats) => {
            Value { answer: answer::DONE, value: u32::from(engine.interrupt_line()) }
        }
        _ => Value { answer: no_engine(words), value: 0 },
    }
}

/// Two numbers a window; an odd last number is of no use.
pub fn pairs(numbers: &[u32]) -> Vec<Window> {
    numbers.chunks_exact(2).map(|pair| (pair[0], pair[1])).collect()
}

pub fn step(words: &mut EngineWords, memory: &mut [u8], windows: &[u32]) -> Stepped {
    let windows = pairs(windows);
    let Some(mut engine) = words::engine(words) else {
        let answer = no_engine_to_step(words, memory.len(), windows.len());
        return Stepped { answer, event: 0, first: 0, second: 0 };
    };
    let (answer, event) = engine.step(memory, &windows);
    *words = words::of_engine(&engine);
    told(answer, event)
}

/// An answer and the numbers that are told of an event.
pub fn told(answer: u32, event: Event) -> Stepped {
    let (event, first, second) = match event {
        Event::None => (0, 0, 0),
        Event::Fetch { current } => (1, current, 0),
        Event::Move { start, bytes } => (2, start, bytes),
        Event::Fault { place, bit } => (3, place, bit),
        Event::Update { current, word } => (4, current, word),
        Event::Halt { current, bit } => (5, current, bit),
    };
    Stepped { answer, event, first, second }
}

pub fn run(words: &mut EngineWords, memory: &mut [u8], windows: &[u32], most: u16) -> Ran {
    let windows = pairs(windows);
    let Some(mut engine) = words::engine(words) else {
        return Ran { answer: no_engine_to_step(words, memory.len(), windows.len()), steps: 0 };
    };
    let (answer, steps) = engine.run(memory, &windows, most);
    *words = words::of_engine(&engine);
    Ran { answer, steps: u32::from(steps) }
}

/// The events of a run, as its single steps would hand them back.
pub fn run_events(
    words: &mut EngineWords,
    memory: &mut [u8],
    windows: &[u32],
    most: u16,
) -> Vec<Stepped> {
    let Some(mut engine) = words::engine(words) else {
        return Vec::new();
    };
    let (answer, _, events) = engine.run_events(memory, &pairs(windows), most);
    *words = words::of_engine(&engine);
    events.into_iter().map(|event| told(answer, event)).collect()
}

pub fn bus_clock(words: &mut MonitorWords, width: u32, beats: u32, clock: &Clock) -> Clocked {
    let refused = |answer| Clocked { answer, count: 0, lowest: 0 };
    if !settings_listed(width, beats) {
        return refused(answer::SETTINGS);
    }
    let Some(mut monitor) = words::monitor(words) else {
        return refused(answer::STATE);
    };
    if clock.bits > 7 {
        return refused(answer::FIELD);
    }
    match monitor.clock(width, beats, &words::clock(clock)) {
        answer::DONE => {
            *words = words::of_monitor(&monitor);
            Clocked { answer: answer::DONE, count: monitor.count(), lowest: monitor.lowest() }
        }
        answer => refused(answer),
    }
}
