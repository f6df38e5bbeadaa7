// include/belikumba.h, declared once more in Rust.

pub const ENGINE_WORDS: usize = 22;
pub const MONITOR_WORDS: usize = 14;

#[repr(C)]
#[derive(Clone, Copy, Debug, PartialEq, Eq)]
pub struct Planned {
    pub answer: u32,
    pub bursts: u32,
}

#[repr(C)]
#[derive(Clone, Copy, Debug, PartialEq, Eq)]
pub struct Judged {
    pub answer: u32,
    pub verdict: u32,
    pub place: u32,
    pub window: u32,
}

#[repr(C)]
#[derive(Clone, Copy, Debug, PartialEq, Eq)]
pub struct Value {
    pub answer: u32,
    pub value: u32,
}

#[repr(C)]
#[derive(Clone, Copy, Debug, PartialEq, Eq)]
pub struct Stepped {
    pub answer: u32,
    pub event: u32,
    pub first: u32,
    pub second: u32,
}

#[repr(C)]
#[derive(Clone, Copy, Debug, PartialEq, Eq)]
pub struct Ran {
    pub answer: u32,
    pub steps: u32,
}

#[repr(C)]
#[derive(Clone, Copy, Debug, Default, PartialEq, Eq)]
pub struct Clock {
    pub bits: u32,
    pub address: u32,
    pub length: u32,
    pub size: u32,
    pub burst: u32,
    pub cache: u32,
    pub prot: u32,
    pub qos: u32,
    pub region: u32,
    pub id: u32,
}

#[repr(C)]
#[derive(Clone, Copy, Debug, PartialEq, Eq)]
pub struct Clocked {
    pub answer: u32,
    pub count: u32,
    pub lowest: u32,
}

extern "C" {
    pub fn belikumba_plan(
        width: u32,
        beats: u32,
        start: u32,
        count: u32,
        places: *mut u8,
        length: usize,
    ) -> Planned;
    pub fn belikumba_count(width: u32, beats: u32, start: u32, count: u32) -> Planned;
    pub fn belikumba_judge(
        memory_bytes: usize,
        windows: *const u32,
        window_numbers: usize,
        start: u32,
        bytes: u32,
    ) -> Judged;
    pub fn belikumba_read(engine: *const u32, offset: u32) -> Value;
    pub fn belikumba_write(engine: *mut u32, offset: u32, value: u32) -> u32;
    pub fn belikumba_interrupt_line(engine: *const u32) -> Value;
    pub fn belikumba_step(
        engine: *mut u32,
        memory: *mut u8,
        memory_bytes: usize,
        windows: *const u32,
        window_numbers: usize,
    ) -> Stepped;
    pub fn belikumba_run(
        engine: *mut u32,
        memory: *mut u8,
        memory_bytes: usize,
        windows: *const u32,
        window_numbers: usize,
        most: u16,
    ) -> Ran;
    pub fn belikumba_bus_clock(monitor: *mut u32, width: u32, beats: u32, clock: Clock) -> Clocked;
}
