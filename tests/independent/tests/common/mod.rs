// Helpers of the tests: a maker of traces, their slow listing, streams, clocks, and engines with the
// memory and windows lent to them.
// Records as in RULES.md, "Trace and listing".
#![allow(dead_code)]

use independent::engine::{Engine, Event, Outcome, Phase, Transfer};
use independent::memory::Window;
use independent::monitor::{Clock, Monitor};
use independent::record::{Bus, Record};
use shared::random::Random;
use shared::record::encode;
use shared::registers::{BTT, CDMACR, CHAIN, CURDESC, DA, SA, TAILDESC};
use shared::settings::{BEATS, WIDTHS};
use std::io::{self, Read};

pub const HEADER: &str = "seq event first second\n";

/// Out of reset with valid low.
pub const QUIET: Clock = Clock {
    address: 0,
    length: 0,
    size: 0,
    burst: 0,
    cache: 0,
    prot: 0,
    qos: 0,
    region: 0,
    id: 0,
    reset_high: true,
    valid: false,
    ready: false,
};

pub const VALID: Clock = Clock { valid: true, ..QUIET };

/// A trace being made.
#[derive(Clone, Default)]
pub struct Trace(pub Vec<u8>);

impl Trace {
    pub fn new() -> Trace {
        Trace::default()
    }

    fn put(mut self, sequence: u32, record: Record<&[u8]>) -> Trace {
        encode(&record, sequence, &mut self.0);
        self
    }

    pub fn raw(mut self, bytes: &[u8]) -> Trace {
        self.0.extend_from_slice(bytes);
        self
    }

    pub fn cf(self, sequence: u32, width: u16, beats: u16) -> Trace {
        self.put(sequence, Record::Settings { width, beats })
    }

    pub fn mm(self, sequence: u32, address: u32, bytes: &[u8]) -> Trace {
        self.put(sequence, Record::Memory { address, bytes })
    }

    pub fn sw(self, sequence: u32, start: u32, length: u32) -> Trace {
        self.put(sequence, Record::Window { start, length })
    }

    pub fn wr(self, sequence: u32, offset: u16, value: u32) -> Trace {
        self.put(sequence, Record::Write { offset, value })
    }

    pub fn rd(self, sequence: u32, offset: u16) -> Trace {
        self.put(sequence, Record::Read { offset })
    }

    pub fn st(self, sequence: u32, steps: u16) -> Trace {
        self.put(sequence, Record::Steps { steps })
    }

    pub fn ar_bits(self, sequence: u32, bits: u8, clock: &Clock) -> Trace {
        self.put(sequence, Record::Bus(Bus { bits, ..Bus::from(clock) }))
    }

    pub fn ar(self, sequence: u32, clock: &Clock) -> Trace {
        self.put(sequence, Record::Bus(Bus::from(clock)))
    }
}

/// Records of a trace with two engines.
impl Trace {
    fn put_of(self, mark: &[u8; 2], sequence: u32, engine: u8) -> Trace {
        self.raw(mark).raw(&sequence.to_le_bytes()).raw(&[engine])
    }

    pub fn c2(self, sequence: u32, width: u16, beats: u16) -> Trace {
        let trace = self.raw(b"C2").raw(&sequence.to_le_bytes());
        trace.raw(&width.to_le_bytes()).raw(&beats.to_le_bytes())
    }

    pub fn wr_of(self, sequence: u32, engine: u8, offset: u16, value: u32) -> Trace {
        let trace = self.put_of(b"WR", sequence, engine);
        trace.raw(&offset.to_le_bytes()).raw(&value.to_le_bytes())
    }

    pub fn rd_of(self, sequence: u32, engine: u8, offset: u16) -> Trace {
        self.put_of(b"RD", sequence, engine).raw(&offset.to_le_bytes())
    }

    pub fn st_of(self, sequence: u32, engine: u8, steps: u16) -> Trace {
        self.put_of(b"ST", sequence, engine).raw(&steps.to_le_bytes())
    }
}

/// A random trace of good records, mostly about a small stretch of memory.
pub fn some_trace(random: &mut Random) -> Trace {
    let mut trace = Trace::new();
    let mut sequence = 0;
    if random.one_in(2) {
        sequence += random.below(2);
        let width = random.pick(&WIDTHS) as u16;
        trace = trace.cf(sequence, width, random.pick(&BEATS) as u16);
    }
    let mut windows = 0;
    for _ in 0..random.below(60) {
        sequence += 1 + random.below(3);
        trace = match random.below(16) {
            0..=3 => {
                let at = random.below(8) * 64;
                let stale = if random.one_in(6) { 1 << 31 } else { 0 };
                let bytes = descriptor(
                    random.below(8) * 64,
                    random.below(5000),
                    if random.one_in(8) { random.u32() } else { random.below(33000) },
                    if random.one_in(8) { 0 } else { random.below(300) },
                    stale,
                );
                trace.mm(sequence, at, &bytes)
            }
            4 if windows < 3 => {
                windows += 1;
                trace.sw(sequence, random.below(33000), random.below(20))
            }
            5 => trace.wr(sequence, 0, random.pick(&[0, 8, 8, 0x5000, 0x5008, 4, 16, 32, 56])),
            6 => trace.wr(sequence, 4, random.pick(&[1 << 12, 1 << 14, u32::MAX])),
            7 => trace.wr(sequence, 8, random.below(8) * 64),
            8 => trace.wr(sequence, 16, random.below(8) * 64),
            9 => trace.wr(sequence, 24, random.below(33000)),
            10 => trace.wr(sequence, 32, random.below(33000)),
            11 => trace.wr(sequence, 40, random.below(400)),
            12 => trace.rd(sequence, random.below(46) as u16),
            13 => trace.st(sequence, random.below(30) as u16),
            14 => {
                // From a reset into a chain, or now and then into a simple move, sides fixed or not.
                sequence += 5;
                let fixed = random.pick(&[0, 0, 16, 32, 48]);
                if random.one_in(3) {
                    let kept = if random.one_in(2) { !127 } else { u32::MAX };
                    trace
                        .wr(sequence - 5, 0, 4)
                        .wr(sequence - 4, 0, fixed)
                        .wr(sequence - 3, 24, random.below(33000) & kept)
                        .wr(sequence - 2, 32, random.below(33000) & kept)
                        .wr(sequence - 1, 40, random.below(400) & kept)
                        .st(sequence, random.below(8) as u16)
                } else {
                    trace
                        .wr(sequence - 4, 0, 4)
                        .wr(sequence - 3, 0, 8 | fixed)
                        .wr(sequence - 2, 8, random.below(8) * 64)
                        .wr(sequence - 1, 16, random.below(8) * 64)
                        .st(sequence, random.below(30) as u16)
                }
            }
            _ => {
                let clock = Clock {
                    reset_high: !random.one_in(9),
                    valid: !random.one_in(3),
                    ready: random.one_in(2),
                    address: random.below(9000),
                    length: random.below(40),
                    size: random.below(4),
                    burst: random.below(4),
                    cache: random.below(16),
                    id: random.below(3),
                    ..VALID
                };
                trace.ar(sequence, &clock)
            }
        };
    }
    trace
}

/// The replay again through the public interface, with the standard library's formatting: a
/// check of the printing and of the ST loop. The beats are those without CF or C2.
pub fn slow_listing(bytes: &[u8], mut beats: u32, default_line: &str) -> String {
    let mut text = format!("{HEADER}{default_line}");
    let mut width = 4;
    let two_engines = bytes.starts_with(b"C2");
    let mut engines = [Engine::fresh(width, beats), Engine::fresh(width, beats)];
    let mut monitor = Monitor::fresh();
    let mut memory = vec![0u8; 32768];
    let mut windows = Vec::new();
    let half = |at: usize| u32::from(u16::from_le_bytes(bytes[at..at + 2].try_into().unwrap()));
    let full = |at: usize| u32::from_le_bytes(bytes[at..at + 4].try_into().unwrap());
    let mut at = 0;
    while at < bytes.len() {
        let n = full(at + 2);
        let mark: &[u8; 2] = bytes[at..at + 2].try_into().unwrap();
        let mut body = at + 6;
        let mut number = 1;
        if two_engines && [b"WR", b"RD", b"ST"].contains(&mark) {
            number = usize::from(bytes[body]);
            body += 1;
        }
        let engine = &mut engines[number - 1];
        at = match mark {
            b"CF" | b"C2" => {
                (width, beats) = (half(body), half(body + 2));
                engines = [Engine::fresh(width, beats), Engine::fresh(width, beats)];
                text += &format!("{n} set {width} {beats}\n");
                body + 4
            }
            b"MM" => {
                let (address, length) = (full(body) as usize, half(body + 4) as usize);
                memory[address..address + length]
                    .copy_from_slice(&bytes[body + 6..body + 6 + length]);
                text += &format!("{n} memory {address} {length}\n");
                body + 6 + length
            }
            b"SW" => {
                windows.push((full(body), full(body + 4)));
                text += &format!("{n} window {} {}\n", full(body), full(body + 4));
                body + 8
            }
            b"WR" => {
                let answer = engine.write(half(body), full(body + 2));
                text += &format!("{n} write {} {answer}\n", half(body));
                body + 6
            }
            b"RD" => {
                let (answer, value) = engine.read(half(body));
                text += &match answer {
                    0 => format!("{n} read {} {value}\n", half(body)),
                    _ => format!("{n} noread {} {answer}\n", half(body)),
                };
                body + 2
            }
            b"ST" => {
                let mut steps = 0;
                while steps < half(body) && engine.phase != Phase::Idle {
                    let (answer, event) = engine.step(&mut memory, &windows);
                    assert_eq!(answer, 0);
                    steps += 1;
                    text += &match event {
                        Event::None => panic!("a busy engine did nothing"),
                        Event::Fetch { current } => format!("{n} fetch {current} 0\n"),
                        Event::Move { start, bytes } => format!("{n} move {start} {bytes}\n"),
                        Event::Fault { place, bit } => format!("{n} fault {place} {bit}\n"),
                        Event::Update { current, word } => format!("{n} update {current} {word}\n"),
                        Event::Halt { current, bit } => format!("{n} halt {current} {bit}\n"),
                    };
                }
                let idle = engine.read(4).1 >> 1 & 1;
                text += &format!("{n} stop {steps} {idle}\n");
                body + 2
            }
            b"AR" => {
                let clock = Clock {
                    reset_high: bytes[body] & 1 != 0,
                    valid: bytes[body] & 2 != 0,
                    ready: bytes[body] & 4 != 0,
                    length: bytes[body + 1].into(),
                    size: bytes[body + 2].into(),
                    burst: bytes[body + 3].into(),
                    cache: bytes[body + 4].into(),
                    prot: bytes[body + 5].into(),
                    qos: bytes[body + 6].into(),
                    region: bytes[body + 7].into(),
                    id: full(body + 8),
                    address: full(body + 12),
                };
                assert_eq!(monitor.clock(width, beats, &clock), 0);
                let lowest = (0..64).find(|n| monitor.flags >> n & 1 == 1).unwrap_or(0);
                text += &format!("{n} bus {} {lowest}\n", monitor.count());
                body + 16
            }
            _ => panic!(),
        };
    }
    text
}

/// Changes or cuts a trace that is not empty, in one to three places.
pub fn damage(random: &mut Random, trace: &mut Vec<u8>) {
    for _ in 0..1 + random.below(3) {
        let at = random.below(trace.len() as u32) as usize;
        match random.below(3) {
            0 => trace[at] = random.u32() as u8,
            1 => trace.truncate(at + 1),
            _ => trace[at] ^= 1 << random.below(8),
        }
    }
}

/// Gives its bytes in pieces of any length, and is interrupted now and then.
pub struct Pieces<'a> {
    pub rest: &'a [u8],
    pub most: u32,
    pub random: Random,
}

impl Read for Pieces<'_> {
    fn read(&mut self, room: &mut [u8]) -> io::Result<usize> {
        if self.random.one_in(10) {
            return Err(io::ErrorKind::Interrupted.into());
        }
        let count =
            (1 + self.random.below(self.most) as usize).min(self.rest.len()).min(room.len());
        room[..count].copy_from_slice(self.rest.split_off(..count).unwrap());
        Ok(count)
    }
}

/// Gives one byte a read, and is interrupted before each.
struct Slow<'a> {
    rest: &'a [u8],
    interrupted: bool,
}

impl Read for Slow<'_> {
    fn read(&mut self, room: &mut [u8]) -> io::Result<usize> {
        self.interrupted = !self.interrupted;
        if self.interrupted {
            return Err(io::ErrorKind::Interrupted.into());
        }
        let count = room.len().min(1);
        self.rest.read(&mut room[..count])
    }
}

/// Gives the bytes of a trace to `take` from streams: cut in two at all places, byte by byte, and
/// in pieces of any length.
pub fn from_all_streams(trace: &[u8], mut take: impl FnMut(&mut dyn Read)) {
    for at in 0..=trace.len() {
        take(&mut trace[..at].chain(&trace[at..]));
    }
    take(&mut Slow { rest: trace, interrupted: false });
    for most in [1, 2, 3, 12, 100] {
        take(&mut Pieces { rest: trace, most, random: Random::new(most.into(), 7) });
    }
}

/// The 32 bytes of a descriptor, with upper halves of no account.
pub fn descriptor(next: u32, source: u32, destination: u32, control: u32, status: u32) -> Vec<u8> {
    shared::record::descriptor(next, source, destination, control, status, 0xeeee_eeee)
}

pub fn put(memory: &mut [u8], at: u32, bytes: &[u8]) {
    memory[at as usize..at as usize + bytes.len()].copy_from_slice(bytes);
}

// ---- Engines ----

pub fn fresh() -> Engine {
    Engine::fresh(4, 16)
}

/// A chain engine started at `first` with `tail`.
pub fn chain(first: u32, tail: u32) -> Engine {
    let mut engine = fresh();
    assert_eq!(engine.write(CDMACR, CHAIN), 0);
    assert_eq!(engine.write(CURDESC, first), 0);
    assert_eq!(engine.write(TAILDESC, tail), 0);
    engine
}

/// A simple engine started.
pub fn simple(source: u32, destination: u32, count: u32) -> Engine {
    let mut engine = fresh();
    assert_eq!(engine.write(SA, source), 0);
    assert_eq!(engine.write(DA, destination), 0);
    assert_eq!(engine.write(BTT, count), 0);
    engine
}

/// Sets the first error bit, the second and so on; none for a number beyond them, or for 0.
pub fn set_error(engine: &mut Engine, error: u32) {
    if let Some(bit) = [4, 5, 6, 8, 9, 10].get((error as usize).wrapping_sub(1)) {
        engine.errors = 1 << bit;
    }
}

/// An address, mostly in or near a small memory.
fn address(random: &mut Random, near: u32) -> u32 {
    match random.below(12) {
        0 => random.u32(),
        1 => u32::MAX - random.below(200),
        _ => random.below(near + 40),
    }
}

/// An engine in any state, well formed or not, that works in or near a small memory.
pub fn some_engine(random: &mut Random, near: u32) -> Engine {
    let mut engine = Engine::fresh(random.pick(&WIDTHS), random.pick(&BEATS));
    engine.sg_mode = random.one_in(2);
    engine.key_hole_read = random.one_in(4);
    engine.key_hole_write = random.one_in(4);
    engine.ioc_irq = random.one_in(2);
    engine.err_irq = random.one_in(2);
    engine.ioc_enable = random.one_in(2);
    engine.err_enable = random.one_in(2);
    engine.current = address(random, near) & !63;
    engine.tail = if random.one_in(2) { engine.current } else { address(random, near) & !63 };
    engine.next = address(random, near) & !63;
    engine.held_next = address(random, near) & !63;
    engine.sa = random.u32();
    engine.btt = random.below(0x80_0000);
    let outcomes = [Outcome::Complete, Outcome::Internal, Outcome::Slave, Outcome::Decode];
    engine.phase = match random.below(10) {
        0 => Phase::Idle,
        1..=2 => Phase::Fetch,
        3..=4 => Phase::Update(random.pick(&outcomes)),
        _ => {
            let total =
                if random.one_in(2) { 1 + random.below(300) } else { 1 + random.below(0x7f_ffff) };
            Phase::Move(Transfer {
                source: address(random, near),
                destination: address(random, near),
                total,
                moved: if random.one_in(2) { 0 } else { random.below(total.min(400)) },
            })
        }
    };
    if random.one_in(15) {
        set_error(&mut engine, 1 + random.below(6));
    }
    engine
}

/// Memory with a descriptor at every other of its places, some of them stale or of count 0, and
/// some with source, destination or count at a multiple of every width.
pub fn some_memory(random: &mut Random, length: u32) -> Vec<u8> {
    let mut memory = random.bytes(length);
    for at in (0..length.saturating_sub(31)).step_by(64) {
        if random.one_in(2) {
            let all = random.one_in(2);
            let kept = [(); 3].map(|()| if all || random.one_in(2) { !127 } else { u32::MAX });
            let bytes = descriptor(
                address(random, length),
                address(random, length) & kept[0],
                address(random, length) & kept[1],
                if random.one_in(4) { 0xff80_0000 } else { random.below(400) & kept[2] },
                if random.one_in(4) { random.u32() } else { 0 },
            );
            put(&mut memory, at, &bytes);
        }
    }
    memory
}

pub fn some_windows(random: &mut Random, near: u32) -> Vec<Window> {
    let mut windows = Vec::new();
    for _ in 0..random.pick(&[0, 0, 1, 2, 16]) {
        let size = if random.one_in(20) { random.u32() } else { random.below(30) };
        windows.push((address(random, near), size));
    }
    windows
}
