// Tests of fixed sides: RULES.md, "Descriptor and steps" (6.10). The two bits of CDMACR, queues drained,
// filled and copied, starts and counts off the multiples of W, what is judged and in which order
// bytes are read and written, and the lines of a trace. Worked out by hand from the rules.

mod common;

use common::{descriptor, fresh, put, set_error, Trace};
use independent::answer;
use independent::engine::{Engine, Event, Outcome, Phase, Transfer};
use independent::memory::{verdict_of_bytes, Verdict, Window};
use independent::record::Record;
use independent::trace::{replay, replay_before, Observer, Replay};
use shared::random::Random;
use shared::registers::{BTT, CDMACR, CDMASR, CHAIN, CURDESC, DA, RESET, SA, TAILDESC};
use shared::settings::{listed, BEATS, WIDTHS};

// Bits of CDMACR.
const READ: u32 = 1 << 4;
const WRITE: u32 = 1 << 5;
const BOTH: u32 = READ | WRITE;
const IOC_ENABLE: u32 = 1 << 12;
const ERR_ENABLE: u32 = 1 << 14;

// Values of CDMASR: idle after a good end, and idle with DMAIntErr and Err_Irq.
const DONE_WELL: u32 = 0x0001_100a;
const INTERNAL_ERROR: u32 = 0x0001_401a;

fn read(engine: &Engine, offset: u32) -> u32 {
    let (answer, value) = engine.read(offset);
    assert_eq!(answer, 0);
    value
}

/// An idle engine with these bits of CDMACR.
fn idle(width: u32, beats: u32, control: u32) -> Engine {
    let mut engine = Engine::fresh(width, beats);
    assert_eq!(engine.write(CDMACR, control), 0);
    engine
}

/// A simple engine after its BTT write, which is never refused here.
fn written(settings: (u32, u32), control: u32, transfer: (u32, u32, u32)) -> Engine {
    let mut engine = idle(settings.0, settings.1, control);
    assert_eq!(engine.write(SA, transfer.0), 0);
    assert_eq!(engine.write(DA, transfer.1), 0);
    assert_eq!(engine.write(BTT, transfer.2), 0);
    engine
}

/// A simple engine that moves: settings, bits of CDMACR, then source, destination and count.
fn moving(settings: (u32, u32), control: u32, transfer: (u32, u32, u32)) -> Engine {
    let engine = written(settings, control, transfer);
    let (source, destination, total) = transfer;
    assert_eq!(engine.phase, Phase::Move(Transfer { source, destination, total, moved: 0 }));
    engine
}

/// A chain engine in its fetch phase, with W=4 and L=16.
fn chain(control: u32, first: u32, tail: u32) -> Engine {
    let mut engine = idle(4, 16, CHAIN | control);
    assert_eq!(engine.write(CURDESC, first), 0);
    assert_eq!(engine.write(TAILDESC, tail), 0);
    engine
}

fn moved(start: u32, bytes: u32) -> Event {
    Event::Move { start, bytes }
}

fn fault(place: u32, bit: u32) -> Event {
    Event::Fault { place, bit }
}

/// One step that is not refused.
fn step(engine: &mut Engine, memory: &mut [u8], windows: &[Window]) -> Event {
    let (answer, event) = engine.step(memory, windows);
    assert_eq!(answer, 0);
    assert!(engine.well_formed());
    event
}

/// All events until idle, which must be those of one run too.
fn finish(engine: &mut Engine, memory: &mut [u8], windows: &[Window]) -> Vec<Event> {
    let (mut ran, mut lent) = (engine.clone(), memory.to_vec());
    let mut events = Vec::new();
    while engine.phase != Phase::Idle {
        events.push(step(engine, memory, windows));
    }
    let steps = events.len() as u16;
    assert_eq!(ran.run_events(&mut lent, windows, u16::MAX), (0, steps, events.clone()));
    assert_eq!(ran, *engine);
    assert!(lent == memory, "a run leaves the memory of its steps");
    events
}

/// The numbers from 1 on, of which no two near each other are the same.
fn counted(count: u32) -> Vec<u8> {
    (0..count).map(|k| (k % 251 + 1) as u8).collect()
}

// ---- The two bits ----

#[test]
fn the_bits_are_read_back() {
    for (control, key_hole_read, key_hole_write) in
        [(0, false, false), (READ, true, false), (WRITE, false, true), (BOTH, true, true)]
    {
        for others in [0, CHAIN, IOC_ENABLE, ERR_ENABLE, CHAIN | IOC_ENABLE | ERR_ENABLE] {
            let engine = idle(4, 16, control | others);
            assert_eq!(engine.read(CDMACR), (0, 0x0001_0002 | control | others));
            let expected = Engine {
                key_hole_read,
                key_hole_write,
                sg_mode: others & CHAIN != 0,
                ioc_enable: others & IOC_ENABLE != 0,
                err_enable: others & ERR_ENABLE != 0,
                ..fresh()
            };
            assert_eq!(engine, expected);
            assert_eq!(read(&engine, CDMASR), 0x0001_000a);
        }
    }
}

#[test]
fn reset_clears_the_bits() {
    let mut engine = idle(8, 4, BOTH | CHAIN);
    assert_eq!(engine.write(CDMACR, RESET | BOTH), 0);
    assert_eq!(engine, Engine::fresh(8, 4));
    assert_eq!(read(&engine, CDMACR), 0x0001_0002);
    // While busy too, whether the bits change or not, and in error.
    for written in [0, READ, WRITE, BOTH, BOTH | CHAIN] {
        let mut engine = moving((4, 16), BOTH, (0, 64, 8));
        assert_eq!(engine.write(CDMACR, RESET | written), 0);
        assert_eq!(engine, fresh());
    }
    let mut engine = Engine { errors: 1 << 5, ..idle(4, 16, BOTH) };
    assert_eq!(engine.write(CDMACR, RESET), 0);
    assert_eq!(engine, fresh());
}

/// Every busy phase, every kept value of bits 3, 4 and 5, and every write of these and the enables.
#[test]
fn a_change_while_busy_gets_4_and_nothing_of_it_is_kept() {
    let transfer = Transfer { source: 0, destination: 64, total: 128, moved: 64 };
    let phases = [
        Phase::Fetch,
        Phase::Move(transfer),
        Phase::Update(Outcome::Complete),
        Phase::Update(Outcome::Internal),
        Phase::Update(Outcome::Slave),
        Phase::Update(Outcome::Decode),
    ];
    for phase in phases {
        for kept in [0, READ, WRITE, BOTH].into_iter().flat_map(|kept| [kept, kept | CHAIN]) {
            if kept & CHAIN == 0 && !matches!(phase, Phase::Move(_)) {
                continue;
            }
            for kept_enables in [0, IOC_ENABLE | ERR_ENABLE] {
                let before = Engine { phase, ..idle(4, 16, kept | kept_enables) };
                assert!(before.well_formed());
                for bits in (0..8).map(|number| number << 3) {
                    for enables in [0, IOC_ENABLE, ERR_ENABLE, IOC_ENABLE | ERR_ENABLE] {
                        let mut engine = before.clone();
                        let answer = engine.write(CDMACR, bits | enables);
                        if bits == kept {
                            assert_eq!(answer, 0);
                            assert_eq!(read(&engine, CDMACR), 0x0001_0002 | kept | enables);
                            assert_eq!(engine, Engine { phase, ..idle(4, 16, kept | enables) });
                        } else {
                            assert_eq!(answer, answer::BUSY);
                            assert_eq!(engine, before);
                        }
                    }
                }
            }
        }
    }
}

#[test]
fn a_change_is_allowed_when_idle_and_in_error() {
    for error in 0..7 {
        for kept in [0, READ, WRITE, BOTH] {
            for bits in (0..8).map(|number| number << 3) {
                let mut engine = idle(4, 16, kept);
                set_error(&mut engine, error);
                engine.err_irq = true;
                let (errors, err_irq) = (engine.errors, engine.err_irq);
                assert_eq!(engine.write(CDMACR, bits | IOC_ENABLE), 0);
                let expected = idle(4, 16, bits | IOC_ENABLE);
                assert_eq!(engine, Engine { errors, err_irq, ..expected });
            }
        }
    }
}

/// The bits count for the transfer that starts under them, and for no other.
#[test]
fn each_transfer_goes_by_the_bits_of_its_start() {
    let mut memory = vec![0; 256];
    put(&mut memory, 0, &counted(8));
    let mut engine = moving((4, 16), READ, (0, 64, 8));
    assert_eq!(finish(&mut engine, &mut memory, &[]), [moved(64, 8)]);
    assert_eq!(engine.write(CDMACR, 0), 0);
    assert_eq!(engine.write(DA, 128), 0);
    assert_eq!(engine.write(BTT, 8), 0);
    assert_eq!(finish(&mut engine, &mut memory, &[]), [moved(128, 8)]);
    assert_eq!(engine.write(CDMACR, WRITE), 0);
    assert_eq!(engine.write(DA, 192), 0);
    assert_eq!(engine.write(BTT, 8), 0);
    assert_eq!(finish(&mut engine, &mut memory, &[]), [moved(192, 8)]);
    assert_eq!(memory[64..72], [1, 2, 3, 4, 1, 2, 3, 4]);
    assert_eq!(memory[128..136], [1, 2, 3, 4, 5, 6, 7, 8]);
    assert_eq!(memory[192..200], [5, 6, 7, 8, 0, 0, 0, 0]);
}

// ---- A queue drained to memory ----

#[test]
fn a_queue_is_drained() {
    let mut memory = vec![0; 1024];
    put(&mut memory, 0x100, &[1, 2, 3, 4, 9, 9]);
    let mut expected = memory.clone();
    put(&mut expected, 0x200, &[1, 2, 3, 4].repeat(32));
    let mut engine = moving((4, 16), READ, (0x100, 0x200, 128));
    let all = finish(&mut engine, &mut memory, &[]);
    assert_eq!(all, [moved(0x200, 64), moved(0x240, 64)]);
    assert_eq!(memory, expected);
    assert_eq!(read(&engine, CDMASR), DONE_WELL);
    // What was written stays, and so do the bits.
    assert_eq!((engine.sa, engine.da, engine.btt), (0x100, 0x200, 128));
    assert_eq!(read(&engine, CDMACR), 0x0001_0012);
}

/// The second burst starts with byte 61 of the transfer, which is the queue's second.
#[test]
fn bytes_are_counted_from_the_start_of_the_transfer() {
    let mut memory = vec![0; 1024];
    put(&mut memory, 256, &[1, 2, 3, 4]);
    let mut expected = memory.clone();
    // As P4: sixteen words from the one of 515 on end at 576.
    let mut engine = moving((4, 16), READ, (256, 515, 72));
    assert_eq!(step(&mut engine, &mut memory, &[]), moved(515, 61));
    let transfer = Transfer { source: 256, destination: 515, total: 72, moved: 61 };
    assert_eq!(engine.phase, Phase::Move(transfer));
    put(&mut expected, 515, &[1, 2, 3, 4].repeat(15));
    put(&mut expected, 575, &[1]);
    assert_eq!(memory, expected);
    // The queue has something new by then.
    put(&mut memory, 256, &[5, 6, 7, 8]);
    put(&mut expected, 256, &[5, 6, 7, 8]);
    assert_eq!(step(&mut engine, &mut memory, &[]), moved(576, 11));
    put(&mut expected, 576, &[6, 7, 8, 5, 6, 7, 8, 5, 6, 7, 8]);
    assert_eq!(memory, expected);
    assert_eq!(read(&engine, CDMASR), DONE_WELL);
}

#[test]
fn a_wider_queue_is_drained_off_the_word() {
    let mut memory = vec![0; 1024];
    put(&mut memory, 0x100, &counted(8));
    let mut expected = memory.clone();
    // Two words of eight bytes from the one of 0x205 on end at 0x210, eleven bytes on.
    let mut engine = moving((8, 2), READ, (0x100, 0x205, 24));
    assert_eq!(finish(&mut engine, &mut memory, &[]), [moved(0x205, 11), moved(0x210, 13)]);
    put(&mut expected, 0x205, &[1, 2, 3, 4, 5, 6, 7, 8, 1, 2, 3]);
    put(&mut expected, 0x210, &[4, 5, 6, 7, 8, 1, 2, 3, 4, 5, 6, 7, 8]);
    assert_eq!(memory, expected);
}

/// With a fixed source alone the cut is that of every transfer: pages, and all beats.
#[test]
fn a_drained_queue_is_cut_by_the_destination() {
    let cases = [
        ((4, 16), 4088, 16, vec![moved(4088, 8), moved(4096, 8)]),
        ((4, 16), 0, 68, vec![moved(0, 64), moved(64, 4)]),
        ((4, 2), 2, 16, vec![moved(2, 6), moved(8, 8), moved(16, 2)]),
        ((4, 256), 0, 1024, vec![moved(0, 1024)]),
        ((4, 32), 0, 256, vec![moved(0, 128), moved(128, 128)]),
        ((128, 256), 0, 8192, vec![moved(0, 4096), moved(4096, 4096)]),
        ((128, 32), 4095, 128, vec![moved(4095, 1), moved(4096, 127)]),
    ];
    for (settings, destination, count, bursts) in cases {
        let width = settings.0;
        let mut memory = vec![0; 16384];
        put(&mut memory, 8192, &counted(width));
        let mut expected = memory.clone();
        put(&mut expected, destination, &counted(width).repeat((count / width) as usize));
        let mut engine = moving(settings, READ, (8192, destination, count));
        assert_eq!(finish(&mut engine, &mut memory, &[]), bursts);
        assert!(memory == expected, "{settings:?} to {destination}");
    }
}

// ---- Memory pushed to a queue ----

#[test]
fn a_block_is_pushed_to_a_queue() {
    let mut memory = vec![0; 1024];
    put(&mut memory, 0x101, &counted(148));
    let mut expected = memory.clone();
    let mut engine = moving((4, 16), WRITE, (0x101, 0x200, 148));
    // Sixteen beats of four bytes, the same again, and the 20 bytes that are left; each leaves its
    // last four.
    for (bytes, word, moved_then) in
        [(64, [61, 62, 63, 64], 64), (64, [125, 126, 127, 128], 128), (20, [145, 146, 147, 148], 0)]
    {
        assert_eq!(step(&mut engine, &mut memory, &[]), moved(0x200, bytes));
        put(&mut expected, 0x200, &word);
        assert_eq!(memory, expected);
        let transfer =
            Transfer { source: 0x101, destination: 0x200, total: 148, moved: moved_then };
        let phase = if bytes == 20 { Phase::Idle } else { Phase::Move(transfer) };
        assert_eq!(engine.phase, phase);
    }
    assert_eq!(read(&engine, CDMASR), DONE_WELL);
    assert_eq!((engine.sa, engine.da, engine.btt), (0x101, 0x200, 148));
}

#[test]
fn pieces_have_at_most_sixteen_beats() {
    // Whole pieces of 148 bytes, and what is left.
    let cases = [
        (2, 8, 18, 4),
        (4, 16, 9, 4),
        (8, 32, 4, 20),
        (16, 64, 2, 20),
        (32, 64, 2, 20),
        (64, 64, 2, 20),
        (128, 64, 2, 20),
        (256, 64, 2, 20),
    ];
    for (beats, piece, whole, rest) in cases {
        for control in [WRITE, BOTH] {
            let mut memory = vec![0; 1024];
            let mut events = vec![moved(512, piece); whole];
            events.push(moved(512, rest));
            let mut engine = moving((4, beats), control, (256, 512, 148));
            assert_eq!(finish(&mut engine, &mut memory, &[]), events);
        }
    }
}

#[test]
fn the_last_beat_of_every_width_stays() {
    for width in WIDTHS {
        for beats in BEATS {
            let piece = width * beats.min(16);
            let count = 2 * piece + width;
            let bytes = counted(count);
            let mut memory = vec![0; 12288];
            put(&mut memory, 4001, &bytes);
            let mut expected = memory.clone();
            let mut engine = moving((width, beats), WRITE, (4001, 256, count));
            for (piece, end) in [(piece, piece), (piece, 2 * piece), (width, count)] {
                assert_eq!(step(&mut engine, &mut memory, &[]), moved(256, piece));
                put(&mut expected, 256, &bytes[(end - width) as usize..end as usize]);
                assert!(memory == expected, "{width} {beats}, {end} bytes");
            }
            assert_eq!(read(&engine, CDMASR), DONE_WELL);
        }
    }
}

#[test]
fn a_piece_knows_no_page() {
    let bytes = counted(4096);
    for (settings, queue, source, count, pieces) in [
        ((4, 16), 4092, 8192, 64, vec![64]),
        ((4, 16), 4092, 8190, 72, vec![64, 8]),
        ((128, 16), 3968, 8200, 4096, vec![2048, 2048]),
        ((128, 256), 3968, 12200, 2176, vec![2048, 128]),
        ((64, 2), 4032, 8000, 192, vec![128, 64]),
    ] {
        let mut memory = vec![0; 20480];
        put(&mut memory, source, &bytes[..count as usize]);
        let mut expected = memory.clone();
        put(&mut expected, queue, &bytes[(count - settings.0) as usize..count as usize]);
        let mut engine = moving(settings, WRITE, (source, queue, count));
        let events: Vec<Event> = pieces.iter().map(|&bytes| moved(queue, bytes)).collect();
        assert_eq!(finish(&mut engine, &mut memory, &[]), events);
        assert!(memory == expected, "{settings:?} to {queue}");
    }
}

/// A run stops within a transfer, and goes on from there.
#[test]
fn runs_of_pieces() {
    let mut memory = vec![0; 1024];
    put(&mut memory, 256, &counted(200));
    let mut engine = moving((4, 16), WRITE, (256, 512, 200));
    assert_eq!(engine.run(&mut memory, &[], 0), (0, 0));
    assert_eq!(engine.run(&mut memory, &[], 1), (0, 1));
    assert_eq!(memory[512..516], [61, 62, 63, 64]);
    assert_eq!(engine.run(&mut memory, &[], 2), (0, 2));
    assert_eq!(memory[512..516], [189, 190, 191, 192]);
    assert!(!engine.idle());
    assert_eq!(engine.run(&mut memory, &[], 9), (0, 1));
    assert_eq!(memory[512..516], [197, 198, 199, 200]);
    assert!(engine.idle());
}

/// ceil(count / (W times the smaller of L and 16)).
#[test]
fn the_number_of_pieces() {
    let mut random = Random::new(61, 0);
    let mut memory = vec![0; 32768];
    for _ in 0..400 {
        let (width, beats) = listed(&mut random);
        let count = width * (1 + random.below(16384 / width));
        let control = if random.one_in(2) { WRITE } else { BOTH };
        let mut engine = moving((width, beats), control, (128, 256, count));
        let pieces = count.div_ceil(width * beats.min(16));
        assert_eq!(engine.run(&mut memory, &[], u16::MAX), (0, pieces as u16));
        assert_eq!(read(&engine, CDMASR), DONE_WELL);
    }
    // The longest count at W=4: 8,388,604 bytes are 131,072 pieces, the last one of 60 bytes.
    let mut memory = vec![0; 8_388_608];
    let mut engine = moving((4, 256), WRITE, (1, 0, 8_388_604));
    assert_eq!(engine.run(&mut memory, &[], 65_535), (0, 65_535));
    assert_eq!(engine.run(&mut memory, &[], 65_535), (0, 65_535));
    assert_eq!(engine.run_events(&mut memory, &[], 9), (0, 2, vec![moved(0, 64), moved(0, 60)]));
}

// ---- Queue to queue ----

#[test]
fn a_queue_is_copied_to_a_queue() {
    let mut memory = vec![0; 1024];
    let mut expected = memory.clone();
    let mut engine = moving((8, 4), BOTH, (0x100, 0x200, 80));
    // Four beats of eight bytes, again, and the 16 bytes left: the source word each time.
    for (bytes, first) in [(32, 1), (32, 21), (16, 41)] {
        let word: Vec<u8> = (first..first + 8).collect();
        put(&mut memory, 0x100, &word);
        put(&mut expected, 0x100, &word);
        put(&mut expected, 0x200, &word);
        assert_eq!(step(&mut engine, &mut memory, &[]), moved(0x200, bytes));
        assert_eq!(memory, expected);
    }
    assert_eq!(read(&engine, CDMASR), DONE_WELL);
    // As many pieces as there would be with an incrementing source.
    let mut engine = moving((8, 256), BOTH, (0x100, 0x200, 136));
    let all = finish(&mut engine, &mut memory, &[]);
    assert_eq!(all, [moved(0x200, 128), moved(0x200, 8)]);
}

// ---- Starts and counts that are no multiples of W ----

/// A BTT write that ends in DMAIntErr at once.
fn refused_start(settings: (u32, u32), control: u32, transfer: (u32, u32, u32)) {
    let engine = written(settings, control, transfer);
    let (sa, da, btt) = transfer;
    let expected = Engine {
        sa,
        da,
        btt,
        errors: 1 << 4,
        err_irq: true,
        ..idle(settings.0, settings.1, control)
    };
    assert_eq!(engine, expected, "{settings:?} {control:#x} {transfer:?}");
    assert_eq!(read(&engine, CDMASR), INTERNAL_ERROR);
    assert_eq!(read(&engine, BTT), transfer.2);
}

#[test]
fn a_simple_start_needs_multiples_on_its_fixed_sides() {
    for width in WIDTHS {
        for beats in [2, 16, 256] {
            let settings = (width, beats);
            for off in 1..width {
                // The fixed side's start.
                refused_start(settings, READ, (width + off, 512, width));
                refused_start(settings, WRITE, (512, width + off, width));
                refused_start(settings, BOTH, (width + off, 512, width));
                refused_start(settings, BOTH, (512, width + off, width));
                // The count, below W and above it.
                for control in [READ, WRITE, BOTH] {
                    refused_start(settings, control, (512, 1024, off));
                    refused_start(settings, control, (512, 1024, 2 * width + off));
                }
                // Both.
                refused_start(settings, READ, (off, 512, off));
                refused_start(settings, WRITE, (512, off, off));
                refused_start(settings, BOTH, (off, off, off));
                // Start and count off by parts that make a multiple together.
                refused_start(settings, READ, (off, 512, width - off));
                refused_start(settings, WRITE, (512, off, width - off));
                // The other side's start is not tested.
                moving(settings, READ, (512, off, width));
                moving(settings, WRITE, (off, 512, width));
                // Nor is anything with both sides incrementing.
                moving(settings, 0, (off, off, off));
            }
            for control in [READ, WRITE, BOTH] {
                moving(settings, control, (0, 512, width));
                moving(settings, control, (width, 3 * width, 3 * width));
                moving(settings, control, (u32::MAX - 127, 0, 8_388_480));
                moving(settings, control, (0, u32::MAX - 127, 8_388_480));
                refused_start(settings, control, (0, 0, 8_388_607));
            }
        }
    }
}

#[test]
fn after_a_simple_start_off_the_multiples() {
    let mut engine = written((8, 16), READ | ERR_ENABLE, (12, 64, 16));
    assert!(engine.interrupt_line());
    let mut memory = counted(256);
    assert_eq!(engine.step(&mut memory, &[]), (0, Event::None));
    assert_eq!(engine.run(&mut memory, &[], 9), (0, 0));
    assert_eq!(memory, counted(256));
    // An error bit stands: 5. And an interrupt cleared does not lift it.
    assert_eq!(engine.write(SA, 8), answer::ERROR);
    assert_eq!(engine.write(CDMASR, 1 << 14), 0);
    assert_eq!(engine.write(BTT, 16), answer::ERROR);
    assert_eq!(read(&engine, CDMASR), 0x0001_001a);
    assert_eq!(read(&engine, BTT), 16);
    // IOC_Irq and Err_Irq stay as they were.
    let mut engine = Engine { ioc_irq: true, ..idle(4, 16, WRITE) };
    assert_eq!(engine.write(BTT, 6), 0);
    assert_eq!(read(&engine, CDMASR), INTERNAL_ERROR | 1 << 12);
}

/// 5 and 4 come before the test, and it looks at the 23 bits that are kept.
#[test]
fn the_order_of_a_simple_start() {
    for off in [2, 8] {
        let mut engine = Engine { errors: 1 << 6, ..idle(4, 16, WRITE) };
        let before = engine.clone();
        assert_eq!(engine.write(BTT, off), answer::ERROR);
        assert_eq!(engine, before);
        let mut engine = moving((4, 16), WRITE, (1, 0, 8));
        let before = engine.clone();
        assert_eq!(engine.write(BTT, off), answer::BUSY);
        assert_eq!(engine, before);
        let mut engine = idle(4, 16, WRITE | CHAIN);
        let before = engine.clone();
        assert_eq!(engine.write(BTT, off), answer::BUSY);
        assert_eq!(engine, before);
    }
    let mut engine = idle(8, 16, READ);
    assert_eq!(engine.write(BTT, 0xff80_0008), 0);
    assert_eq!(engine.phase, moving((8, 16), READ, (0, 0, 8)).phase);
    let mut engine = idle(8, 16, READ);
    assert_eq!(engine.write(BTT, 0xff80_000c), 0);
    assert_eq!((engine.read(BTT), engine.read(CDMASR)), ((0, 12), (0, INTERNAL_ERROR)));
}

#[test]
fn count_0_with_a_fixed_side() {
    for control in [READ, WRITE, BOTH] {
        for start in [0, 3] {
            for count in [0, 0x0080_0000] {
                let mut engine = idle(4, 16, control);
                engine.btt = 8;
                engine.write(SA, start);
                engine.write(DA, start);
                assert_eq!(engine.write(BTT, count), 0);
                assert_eq!((engine.read(BTT), engine.read(CDMASR)), ((0, 0), (0, INTERNAL_ERROR)));
                assert!(engine.idle());
            }
            let mut memory = vec![0; 256];
            put(&mut memory, 64, &descriptor(128, start, start, 0, 0));
            let mut engine = chain(control, 64, 64);
            assert_eq!(
                finish(&mut engine, &mut memory, &[]),
                [Event::Fetch { current: 64 }, Event::Update { current: 64, word: 0x1000_0000 }]
            );
            assert_eq!(read(&engine, CDMASR), INTERNAL_ERROR);
        }
    }
}

#[test]
fn a_descriptor_off_the_multiples() {
    // Bits, source, destination, count, at W=4.
    for (control, source, destination, count) in [
        (READ, 1026, 512, 8),
        (READ, 1024, 512, 6),
        (READ, 1025, 512, 3),
        (WRITE, 1024, 513, 8),
        (WRITE, 1024, 512, 9),
        (BOTH, 1027, 512, 8),
        (BOTH, 1024, 514, 8),
        (BOTH, 1024, 512, 1),
    ] {
        let mut memory = vec![7; 2048];
        put(&mut memory, 64, &descriptor(192, source, destination, count, 0x0123_4567));
        let mut expected = memory.clone();
        let mut engine = chain(control, 64, 192);
        assert_eq!(step(&mut engine, &mut memory, &[]), Event::Fetch { current: 64 });
        // Busy, and no error bit until the update.
        assert_eq!(engine.phase, Phase::Update(Outcome::Internal));
        assert_eq!(read(&engine, CDMASR), 0x0001_0008);
        assert_eq!((engine.current, engine.next, engine.held_next), (64, 64, 192));
        assert_eq!(memory, expected);
        // Its update fails on its own: that error alone.
        let mut sick = engine.clone();
        assert_eq!(step(&mut sick, &mut memory, &[(95, 1)]), Event::Halt { current: 64, bit: 9 });
        assert_eq!(read(&sick, CDMASR), 0x0001_420a);
        let update = Event::Update { current: 64, word: 0x1000_0000 };
        assert_eq!(step(&mut engine, &mut memory, &[]), update);
        put(&mut expected, 64 + 0x1c, &[0, 0, 0, 0x10]);
        assert_eq!(memory, expected);
        assert_eq!(read(&engine, CDMASR), INTERNAL_ERROR);
        assert_eq!((engine.current, engine.next), (64, 64));
    }
}

/// The other side's start is not tested in chain mode either.
#[test]
fn a_descriptor_at_the_multiples() {
    for (control, source, destination, count) in [
        (0, 1025, 513, 7),
        (READ, 1024, 513, 8),
        (WRITE, 1025, 512, 8),
        (BOTH, 1024, 512, 8),
        // Bits above the 23 of the count do not matter.
        (BOTH, 1024, 512, 0xff80_0008),
    ] {
        let mut memory = vec![7; 2048];
        put(&mut memory, 64, &descriptor(192, source, destination, count, 0));
        let mut engine = chain(control, 64, 64);
        let all = finish(&mut engine, &mut memory, &[]);
        let bytes = count & 0x7f_ffff;
        assert_eq!(
            all,
            [
                Event::Fetch { current: 64 },
                moved(destination, bytes),
                Event::Update { current: 64, word: 0x8000_0000 },
            ]
        );
        assert_eq!(read(&engine, CDMASR), DONE_WELL);
    }
}

/// Decode, slave and stale come before it, and halt at once.
#[test]
fn the_order_of_a_fetch() {
    let mut memory = vec![0; 256];
    put(&mut memory, 64, &descriptor(0, 1, 1, 1, 0));
    put(&mut memory, 128, &descriptor(0, 1, 1, 1, 0x8000_0000));
    let mut engine = chain(BOTH, 64, 64);
    assert_eq!(step(&mut engine, &mut memory, &[(64, 1)]), Event::Halt { current: 64, bit: 9 });
    let mut engine = chain(BOTH, 64, 64);
    assert_eq!(step(&mut engine, &mut memory[..95], &[]), Event::Halt { current: 64, bit: 10 });
    let mut engine = chain(BOTH, 128, 128);
    assert_eq!(step(&mut engine, &mut memory, &[]), Event::Halt { current: 128, bit: 8 });
    assert_eq!(read(&engine, CDMASR), 0x0001_410a);
}

// ---- Chains ----

/// Every descriptor goes by the bits, and fetch and update never do: they reach beyond one word.
#[test]
fn a_chain_of_queues() {
    let mut memory = vec![0; 4096];
    put(&mut memory, 64, &descriptor(128, 1024, 2050, 8, 0));
    put(&mut memory, 128, &descriptor(192, 1028, 3000, 4, 0));
    put(&mut memory, 192, &descriptor(256, 1030, 3100, 4, 0));
    put(&mut memory, 1024, &[1, 2, 3, 4, 5, 6, 7, 8]);
    let mut expected = memory.clone();
    let mut engine = chain(READ, 64, 256);
    let all = finish(&mut engine, &mut memory, &[]);
    assert_eq!(
        all,
        [
            Event::Fetch { current: 64 },
            moved(2050, 8),
            Event::Update { current: 64, word: 0x8000_0000 },
            Event::Fetch { current: 128 },
            moved(3000, 4),
            Event::Update { current: 128, word: 0x8000_0000 },
            Event::Fetch { current: 192 },
            Event::Update { current: 192, word: 0x1000_0000 },
        ]
    );
    put(&mut expected, 2050, &[1, 2, 3, 4, 1, 2, 3, 4]);
    put(&mut expected, 3000, &[5, 6, 7, 8]);
    put(&mut expected, 64 + 0x1c, &[0, 0, 0, 0x80]);
    put(&mut expected, 128 + 0x1c, &[0, 0, 0, 0x80]);
    put(&mut expected, 192 + 0x1c, &[0, 0, 0, 0x10]);
    assert_eq!(memory, expected);
    // IOC_Irq of the good updates stays beside the error.
    assert_eq!(read(&engine, CDMASR), INTERNAL_ERROR | 1 << 12);
}

#[test]
fn a_chain_to_one_queue() {
    let mut memory = vec![0; 4096];
    put(&mut memory, 0, &descriptor(64, 1025, 2048, 68, 0));
    put(&mut memory, 64, &descriptor(0, 1200, 2048, 4, 0));
    put(&mut memory, 1025, &counted(68));
    put(&mut memory, 1200, &[91, 92, 93, 94]);
    let mut expected = memory.clone();
    let mut engine = chain(WRITE, 0, 64);
    let (ended, events) = ([0, 0, 0, 0x80], [moved(2048, 64), moved(2048, 4), moved(2048, 4)]);
    for (at, pieces, word) in
        [(0, &events[..2], [65, 66, 67, 68]), (64, &events[2..], [91, 92, 93, 94])]
    {
        assert_eq!(step(&mut engine, &mut memory, &[]), Event::Fetch { current: at });
        for &piece in pieces {
            assert_eq!(step(&mut engine, &mut memory, &[]), piece);
        }
        assert_eq!(engine.phase, Phase::Update(Outcome::Complete));
        let update = Event::Update { current: at, word: 0x8000_0000 };
        assert_eq!(step(&mut engine, &mut memory, &[]), update);
        put(&mut expected, 2048, &word);
        put(&mut expected, at + 0x1c, &ended);
        assert_eq!(memory, expected);
    }
    assert_eq!(read(&engine, CDMASR), DONE_WELL);
}

/// A fault in a chain waits for its update; the event names the source byte, a sick one or the
/// first past the memory's end, and not the queue.
#[test]
fn faults_of_a_chain() {
    for (windows, length, place, bit, mark) in
        [(vec![(1100, 1)], 4096, 1100, 5, 29), (vec![(1100, 1)], 1120, 1120, 6, 30)]
    {
        let mut memory = vec![0; length];
        put(&mut memory, 0, &descriptor(64, 1026, 512, 100, 0));
        let mut engine = chain(WRITE, 0, 0);
        assert_eq!(
            finish(&mut engine, &mut memory, &windows),
            [
                Event::Fetch { current: 0 },
                moved(512, 64),
                fault(place, bit),
                Event::Update { current: 0, word: 1 << mark },
            ]
        );
        assert_eq!(read(&engine, CDMASR), 0x0001_400a | 1 << bit);
    }
}

// ---- What is judged ----

/// The destination is just below a page end, so the first burst uses three bytes of the queue's
/// eight and the second the other five.
#[test]
fn a_short_burst_judges_its_part_of_the_source_word() {
    for sick in 0x0fe..0x10a {
        let mut memory = vec![0; 8192];
        put(&mut memory, 0x100, &counted(8));
        let before = memory.clone();
        let windows = [(sick, 1)];
        let mut engine = moving((8, 16), READ, (0x100, 4093, 8));
        let all = finish(&mut engine, &mut memory, &windows);
        let mut expected = before.clone();
        match sick {
            0x100..=0x102 => {
                assert_eq!(all, [fault(sick, 5)]);
                assert_eq!(read(&engine, CDMASR), 0x0001_402a);
            }
            0x103..=0x107 => {
                assert_eq!(all, [moved(4093, 3), fault(sick, 5)]);
                put(&mut expected, 4093, &[1, 2, 3]);
                assert_eq!(read(&engine, CDMASR), 0x0001_402a);
            }
            _ => {
                assert_eq!(all, [moved(4093, 3), moved(4096, 5)]);
                put(&mut expected, 4093, &counted(8));
                assert_eq!(read(&engine, CDMASR), DONE_WELL);
            }
        }
        assert_eq!(memory, expected);
    }
}

/// The same with the memory's end within the queue's word.
#[test]
fn a_source_word_partly_past_the_end() {
    for (length, all) in [
        (8192, vec![fault(8192, 6)]),
        (8193, vec![fault(8193, 6)]),
        (8194, vec![fault(8194, 6)]),
        (8195, vec![moved(4093, 3), fault(8195, 6)]),
        (8199, vec![moved(4093, 3), fault(8199, 6)]),
        (8200, vec![moved(4093, 3), moved(4096, 5)]),
    ] {
        let mut memory = vec![0; length];
        let mut engine = moving((8, 16), READ, (8192, 4093, 8));
        assert_eq!(finish(&mut engine, &mut memory, &[]), all);
        let status = if length == 8200 { DONE_WELL } else { 0x0001_404a };
        assert_eq!(read(&engine, CDMASR), status);
    }
}

/// A piece of 64 bytes uses four: what is behind the word is nothing to it.
#[test]
fn a_fixed_side_is_its_word_alone() {
    for (control, source, destination) in [(READ, 252, 64), (WRITE, 64, 252), (BOTH, 248, 252)] {
        // The word is the memory's last, and both its neighbours are sick if they are not used.
        let mut memory = vec![0; 256];
        put(&mut memory, 64, &counted(64));
        let windows = match control {
            BOTH => vec![(0, 248), (256, 1000)],
            _ => vec![(240, 12), (256, u32::MAX)],
        };
        let start = destination;
        let mut engine = moving((4, 16), control, (source, destination, 64));
        assert_eq!(finish(&mut engine, &mut memory, &windows), [moved(start, 64)]);
        // One byte less memory, or one sick byte in the word.
        let mut engine = moving((4, 16), control, (source, destination, 64));
        let before = memory.clone();
        assert_eq!(finish(&mut engine, &mut memory[..255], &[]), [fault(255, 6)]);
        for sick in 252..256 {
            let mut engine = moving((4, 16), control, (source, destination, 64));
            assert_eq!(finish(&mut engine, &mut memory, &[(sick, 1)]), [fault(sick, 5)]);
            assert_eq!(memory, before);
        }
    }
}

/// Decode wins over slave, whichever side gives it, and that side's byte is named.
#[test]
fn both_sides_are_judged_together() {
    for (control, source, destination) in
        [(READ, 64, 300), (READ, 300, 64), (WRITE, 64, 300), (WRITE, 300, 64), (BOTH, 300, 64)]
    {
        let mut memory = vec![3; 256];
        let mut engine = moving((4, 16), control, (source, destination, 8));
        assert_eq!(finish(&mut engine, &mut memory, &[(64, 4)]), [fault(300, 6)]);
        assert_eq!(read(&engine, CDMASR), 0x0001_404a);
        assert_eq!(memory, [3; 256]);
    }
}

#[test]
fn a_group_of_bytes_in_any_order() {
    let windows = [(5, 0), (10, 2), (u32::MAX, u32::MAX)];
    let judge = |places: &[u64]| verdict_of_bytes(20, &windows, places);
    assert_eq!(judge(&[]), Verdict::Okay);
    assert_eq!(judge(&[19, 5, 0, 12, 9]), Verdict::Okay);
    assert_eq!(judge(&[0, 11, 0]), Verdict::Slave);
    assert_eq!(judge(&[10]), Verdict::Slave);
    assert_eq!(judge(&[10, 20, 3]), Verdict::Decode);
    assert_eq!(judge(&[20, 10]), Verdict::Decode);
    assert_eq!(judge(&[1 << 32]), Verdict::Decode);
    assert_eq!(judge(&[(1 << 32) + 3]), Verdict::Decode);
}

/// Pieces written before a fault stay, and the fault names the byte, whichever side it is of.
#[test]
fn a_fault_in_a_later_piece() {
    let mut memory = vec![0; 1024];
    put(&mut memory, 257, &counted(200));
    let mut expected = memory.clone();
    let mut engine = moving((4, 16), WRITE, (257, 512, 200));
    // Byte 130 of the source is in the third piece.
    let all = finish(&mut engine, &mut memory, &[(257 + 130, 1)]);
    assert_eq!(all, [moved(512, 64), moved(512, 64), fault(387, 5)]);
    put(&mut expected, 512, &[125, 126, 127, 128]);
    assert_eq!(memory, expected);
    assert_eq!(read(&engine, CDMASR), 0x0001_402a);
    // With a fixed source, byte 130 of the destination.
    let mut engine = moving((4, 16), READ, (256, 512, 200));
    let all = finish(&mut engine, &mut memory, &[(512 + 130, 1)]);
    assert_eq!(all, [moved(512, 64), moved(576, 64), fault(642, 5)]);
}

#[test]
fn queues_past_the_end_of_memory() {
    let top = 0xffff_fffc;
    for length in [0, 64, 1024] {
        for queue in [1024, 1028, 0x8000_0000, top] {
            for count in [4, 64, 128, 8_388_604] {
                let mut memory = vec![0; length];
                let mut engine = moving((4, 16), READ, (queue, 0, count));
                assert_eq!(finish(&mut engine, &mut memory, &[]), [fault(queue, 6)]);
                for control in [WRITE, BOTH] {
                    let mut engine = moving((4, 16), control, (0, queue, count));
                    // Without any memory the source fails too.
                    let place = if length == 0 { 0 } else { queue };
                    assert_eq!(finish(&mut engine, &mut memory, &[]), [fault(place, 6)]);
                    assert_eq!(read(&engine, CDMASR), 0x0001_404a);
                }
            }
        }
    }
}

// ---- Sides that overlap ----

#[test]
fn a_piece_is_read_before_any_of_it_is_written() {
    // The source runs over the queue it is pushed to.
    let mut memory = vec![0; 512];
    put(&mut memory, 254, &counted(8));
    let mut engine = moving((4, 16), WRITE, (254, 256, 8));
    assert_eq!(finish(&mut engine, &mut memory, &[]), [moved(256, 8)]);
    assert_eq!(memory[252..264], [0, 0, 1, 2, 5, 6, 7, 8, 7, 8, 0, 0]);
    // A queue is drained over itself.
    let mut memory = vec![0; 512];
    put(&mut memory, 256, &[1, 2, 3, 4]);
    let mut engine = moving((4, 16), READ, (256, 257, 8));
    assert_eq!(finish(&mut engine, &mut memory, &[]), [moved(257, 8)]);
    assert_eq!(memory[255..266], [0, 1, 1, 2, 3, 4, 1, 2, 3, 4, 0]);
    // One word is both queues.
    let mut memory = vec![0; 512];
    put(&mut memory, 256, &[1, 2, 3, 4]);
    let mut engine = moving((4, 2), BOTH, (256, 256, 16));
    assert_eq!(finish(&mut engine, &mut memory, &[]), [moved(256, 8), moved(256, 8)]);
    assert_eq!(memory[255..262], [0, 1, 2, 3, 4, 0, 0]);
}

#[test]
fn a_later_piece_reads_what_an_earlier_one_wrote() {
    // Two beats: 7 bytes up to the end of the second word, and then byte 7, which is the queue's
    // fourth and was written over with 3.
    let mut memory = vec![0; 512];
    put(&mut memory, 256, &[1, 2, 3, 4]);
    let mut engine = moving((4, 2), READ, (256, 257, 8));
    assert_eq!(finish(&mut engine, &mut memory, &[]), [moved(257, 7), moved(264, 1)]);
    assert_eq!(memory[255..266], [0, 1, 1, 2, 3, 4, 1, 2, 3, 3, 0]);
    // The first piece leaves bytes 4 to 7 in the queue at 256, where bytes 12 to 15 are read.
    let mut memory = vec![0; 512];
    put(&mut memory, 244, &counted(16));
    let mut engine = moving((4, 2), WRITE, (244, 256, 16));
    assert_eq!(finish(&mut engine, &mut memory, &[]), [moved(256, 8), moved(256, 8)]);
    assert_eq!(memory[256..260], [5, 6, 7, 8]);
}

// ---- Moving states off the multiples, which no trace reaches ----

fn off_the_multiples(settings: (u32, u32), control: u32, transfer: Transfer) -> Engine {
    let engine = idle(settings.0, settings.1, control);
    let engine = Engine { phase: Phase::Move(transfer), ..engine };
    assert!(engine.well_formed());
    engine
}

#[test]
fn a_fixed_destination_off_the_multiples() {
    let mut memory = vec![0; 256];
    put(&mut memory, 64, &[10, 11, 12, 13, 14, 15]);
    let mut expected = memory.clone();
    // Bytes 1 to 5 go to 130, 131, 132, 129 and 130 again, where byte 5 stays.
    let transfer = Transfer { source: 64, destination: 129, total: 6, moved: 1 };
    let mut engine = off_the_multiples((4, 16), WRITE, transfer);
    assert_eq!(finish(&mut engine, &mut memory, &[]), [moved(129, 5)]);
    put(&mut expected, 129, &[14, 15, 12, 13]);
    assert_eq!(memory, expected);
    assert_eq!(read(&engine, CDMASR), DONE_WELL);
    // Less than a word: bytes 2 and 3, then none.
    let mut memory = vec![0; 256];
    put(&mut memory, 64, &[10, 11, 12, 13]);
    let transfer = Transfer { source: 64, destination: 128, total: 4, moved: 2 };
    let mut engine = off_the_multiples((4, 16), WRITE, transfer);
    assert_eq!(finish(&mut engine, &mut memory, &[]), [moved(128, 2)]);
    assert_eq!(memory[126..134], [0, 0, 0, 0, 12, 13, 0, 0]);
    // Pieces are counted from where it stands: 8 bytes from byte 3, 8 from byte 11, and byte 19.
    let mut memory = vec![0; 256];
    put(&mut memory, 64, &counted(20));
    let transfer = Transfer { source: 64, destination: 130, total: 20, moved: 3 };
    let mut engine = off_the_multiples((4, 2), WRITE, transfer);
    assert_eq!(step(&mut engine, &mut memory, &[]), moved(130, 8));
    // Bytes 7 to 10 stay: 7 is the word's fourth.
    assert_eq!(memory[129..135], [0, 9, 10, 11, 8, 0]);
    assert_eq!(step(&mut engine, &mut memory, &[]), moved(130, 8));
    assert_eq!(memory[129..135], [0, 17, 18, 19, 16, 0]);
    assert_eq!(step(&mut engine, &mut memory, &[]), moved(130, 1));
    assert_eq!(memory[129..135], [0, 17, 18, 19, 20, 0]);
    assert!(engine.idle());
}

#[test]
fn a_fixed_source_off_the_multiples() {
    let mut memory = vec![0; 256];
    put(&mut memory, 66, &counted(8));
    let mut expected = memory.clone();
    // Bytes 6 to 9 of a word of eight: its last two and its first two, to 200 + 6 and on.
    let transfer = Transfer { source: 66, destination: 200, total: 10, moved: 6 };
    let mut engine = off_the_multiples((8, 16), READ | CHAIN, transfer);
    assert_eq!(step(&mut engine, &mut memory, &[]), moved(206, 4));
    assert_eq!(engine.phase, Phase::Update(Outcome::Complete));
    put(&mut expected, 206, &[7, 8, 1, 2]);
    assert_eq!(memory, expected);
}

#[test]
fn both_sides_off_the_multiples() {
    let mut memory = vec![0; 256];
    put(&mut memory, 101, &[1, 2, 3, 4, 5]);
    let mut expected = memory.clone();
    // Bytes 3 to 8 are 4, 1, 2, 3, 4, 1. All are read before the word one place below is written:
    // bytes 5 to 8 stay there, byte 8 at its first place.
    let transfer = Transfer { source: 101, destination: 100, total: 9, moved: 3 };
    let mut engine = off_the_multiples((4, 16), BOTH, transfer);
    assert_eq!(finish(&mut engine, &mut memory, &[]), [moved(100, 6)]);
    put(&mut expected, 100, &[1, 2, 3, 4]);
    assert_eq!(memory, expected);
}

/// Only the bytes that are used are judged, be they a word's two ends.
#[test]
fn what_is_judged_off_the_multiples() {
    let transfer = Transfer { source: 64, destination: 200, total: 10, moved: 6 };
    for sick in 62..74 {
        let mut engine = off_the_multiples((8, 16), READ, transfer);
        let used = [70, 71, 64, 65].contains(&sick);
        let expected = if used { fault(sick, 5) } else { moved(206, 4) };
        assert_eq!(finish(&mut engine, &mut vec![0; 256], &[(sick, 1)]), [expected]);
    }
    let transfer = Transfer { source: 200, destination: 64, total: 10, moved: 6 };
    for sick in 62..74 {
        let mut engine = off_the_multiples((8, 16), WRITE, transfer);
        let used = [70, 71, 64, 65].contains(&sick);
        let expected = if used { fault(sick, 5) } else { moved(64, 4) };
        assert_eq!(finish(&mut engine, &mut vec![0; 256], &[(sick, 1)]), [expected]);
    }
    // A word that runs past the memory's end, of which two bytes are used.
    let transfer = Transfer { source: 0, destination: 253, total: 2, moved: 0 };
    let mut engine = off_the_multiples((8, 16), WRITE, transfer);
    assert_eq!(finish(&mut engine, &mut vec![0; 255], &[]), [moved(253, 2)]);
    let mut engine = off_the_multiples((8, 16), WRITE, transfer);
    assert_eq!(finish(&mut engine, &mut vec![0; 254], &[]), [fault(254, 6)]);
    // And one that runs past the last address.
    for control in [READ, WRITE, BOTH] {
        let transfer =
            Transfer { source: u32::MAX - 1, destination: u32::MAX - 1, total: 300, moved: 1 };
        let mut engine = off_the_multiples((8, 16), control, transfer);
        // Byte 1 is at the last address. A piece of 128 bytes goes round a fixed source, down to
        // its start; with a fixed source alone the burst ends with the page, after one byte.
        let place = if control == BOTH { u32::MAX - 1 } else { u32::MAX };
        assert_eq!(finish(&mut engine, &mut vec![0; 256], &[]), [fault(place, 6)]);
    }
}

/// The rule of a well-formed state knows no key hole: what was moved is added on a fixed side too.
#[test]
fn well_formed_knows_no_key_hole() {
    let (good, bad) = (u32::MAX - 64, u32::MAX - 63);
    for control in [0, READ, WRITE, BOTH] {
        for (source, destination) in [(good, good), (bad, good), (good, bad), (bad, bad)] {
            let transfer = Transfer { source, destination, total: 128, moved: 64 };
            let mut engine = Engine { phase: Phase::Move(transfer), ..idle(4, 16, control) };
            if (source, destination) == (good, good) {
                assert_eq!(engine.read(CDMACR), (0, 0x0001_0002 | control));
                // Both sides fail, and the source is named: byte 64 of a fixed one is its first.
                let place = if control & READ == 0 { u32::MAX } else { good };
                assert_eq!(engine.step(&mut [], &[]), (0, fault(place, 6)));
            } else {
                assert_eq!(engine.read(CDMACR), (answer::STATE, 0));
                assert_eq!(engine.write(CDMACR, control), answer::STATE);
                assert_eq!(engine.step(&mut [], &[]), (answer::STATE, Event::None));
            }
        }
    }
}

// ---- Through a trace ----

/// Looks at each step, so that the replay takes them one by one; keeps the last memory.
#[derive(Default)]
struct Looker(Vec<u8>);

impl Observer for Looker {
    fn carried_out(&mut self, replay: &Replay, _: &Record<&[u8]>) {
        self.0 = replay.memory.to_vec();
    }
}

/// Checks a sound listing, with its steps as one run and one by one, and gives the memory.
fn lists(trace: &Trace, expected: &str) -> Vec<u8> {
    let (mut alone, mut watched, mut looker) = (Vec::new(), Vec::new(), Looker::default());
    assert!(replay(&trace.0, &mut alone));
    assert!(replay_before(&trace.0, &mut watched, &mut looker));
    let expected = format!("seq event first second\n{expected}");
    assert_eq!(String::from_utf8(alone).unwrap(), expected);
    assert_eq!(String::from_utf8(watched).unwrap(), expected);
    looker.0
}

#[test]
fn a_trace_drains_and_fills_queues() {
    let trace = Trace::new()
        .cf(1, 8, 16)
        .mm(2, 256, &counted(8))
        .wr(3, 0, READ)
        .rd(4, 0)
        .wr(5, 24, 256)
        .wr(6, 32, 4093)
        .wr(7, 40, 16)
        .st(8, 1)
        .wr(9, 0, 0)
        .wr(10, 0, READ | IOC_ENABLE)
        .rd(11, 0)
        .st(12, 5)
        .rd(13, 4)
        .wr(14, 0, WRITE)
        .wr(15, 24, 4093)
        .wr(16, 32, 512)
        .wr(17, 40, 16)
        .st(18, 5)
        .wr(19, 40, 12)
        .rd(20, 40)
        .rd(21, 4)
        .st(22, 5)
        .wr(23, 0, BOTH)
        .wr(24, 0, 4)
        .rd(25, 0);
    let memory = lists(
        &trace,
        "1 set 8 16\n2 memory 256 8\n3 write 0 0\n4 read 0 65554\n5 write 24 0\n6 write 32 0\n\
         7 write 40 0\n8 move 4093 3\n8 stop 1 0\n9 write 0 4\n10 write 0 0\n11 read 0 69650\n\
         12 move 4096 13\n12 stop 1 1\n13 read 4 69642\n14 write 0 0\n15 write 24 0\n\
         16 write 32 0\n17 write 40 0\n18 move 512 16\n18 stop 1 1\n19 write 40 0\n\
         20 read 40 12\n21 read 4 86042\n22 stop 0 1\n23 write 0 0\n24 write 0 0\n\
         25 read 0 65538\n",
    );
    assert_eq!(memory[4092..4110], [0, 1, 2, 3, 4, 5, 6, 7, 8, 1, 2, 3, 4, 5, 6, 7, 8, 0]);
    assert_eq!(memory[511..521], [0, 1, 2, 3, 4, 5, 6, 7, 8, 0]);
}

#[test]
fn a_trace_of_pieces() {
    // Without a CF: W=4, L=64, and a piece has sixteen beats.
    let trace = Trace::new()
        .mm(1, 257, &counted(148))
        .wr(2, 0, WRITE)
        .wr(3, 24, 257)
        .wr(4, 32, 4092)
        .wr(5, 40, 148)
        .st(6, 2)
        .st(7, 9);
    let memory = lists(
        &trace,
        "0 set 4 64\n1 memory 257 148\n2 write 0 0\n3 write 24 0\n4 write 32 0\n5 write 40 0\n\
         6 move 4092 64\n6 move 4092 64\n6 stop 2 0\n7 move 4092 20\n7 stop 1 1\n",
    );
    assert_eq!(memory[4091..4097], [0, 145, 146, 147, 148, 0]);
    // The second piece's source is sick: a fault at its byte, bit 5.
    let trace = Trace::new()
        .sw(1, 330, 1)
        .wr(2, 0, WRITE)
        .wr(3, 24, 257)
        .wr(4, 32, 4092)
        .wr(5, 40, 148)
        .st(6, 9)
        .rd(7, 4);
    lists(
        &trace,
        "0 set 4 64\n1 window 330 1\n2 write 0 0\n3 write 24 0\n4 write 32 0\n5 write 40 0\n\
         6 move 4092 64\n6 fault 330 5\n6 stop 2 1\n7 read 4 81962\n",
    );
    // A queue past the program's memory: bit 6.
    let trace = Trace::new().wr(1, 0, BOTH).wr(2, 32, 32768).wr(3, 40, 148).st(4, 9);
    lists(
        &trace,
        "0 set 4 64\n1 write 0 0\n2 write 32 0\n3 write 40 0\n4 fault 32768 6\n4 stop 1 1\n",
    );
    // And one that is its last word.
    let trace = Trace::new().wr(1, 0, BOTH).wr(2, 32, 32764).wr(3, 40, 68).st(4, 9);
    lists(
        &trace,
        "0 set 4 64\n1 write 0 0\n2 write 32 0\n3 write 40 0\n\
         4 move 32764 64\n4 move 32764 4\n4 stop 2 1\n",
    );
}

#[test]
fn a_trace_of_a_chain() {
    let trace = Trace::new()
        .cf(0, 4, 16)
        .mm(1, 64, &descriptor(128, 1024, 2050, 72, 0))
        .mm(2, 128, &descriptor(192, 1025, 3000, 8, 0))
        .mm(3, 1024, &[1, 2, 3, 4])
        .wr(4, 0, CHAIN | READ)
        .wr(5, 8, 64)
        .wr(6, 16, 128)
        .wr(7, 0, CHAIN)
        .wr(8, 0, CHAIN | BOTH)
        .wr(9, 0, READ)
        .st(10, 20)
        .rd(11, 4)
        .wr(12, 0, WRITE)
        .rd(13, 0);
    let memory = lists(
        &trace,
        "0 set 4 16\n1 memory 64 32\n2 memory 128 32\n3 memory 1024 4\n4 write 0 0\n5 write 8 0\n\
         6 write 16 0\n7 write 0 4\n8 write 0 4\n9 write 0 4\n\
         10 fetch 64 0\n10 move 2050 62\n10 move 2112 10\n10 update 64 2147483648\n\
         10 fetch 128 0\n10 update 128 268435456\n10 stop 6 1\n11 read 4 86042\n\
         12 write 0 0\n13 read 0 65570\n",
    );
    // Byte 62 is the queue's third.
    assert_eq!(memory[2049..2054], [0, 1, 2, 3, 4]);
    assert_eq!(memory[2110..2124], [1, 2, 3, 4, 1, 2, 3, 4, 1, 2, 3, 4, 0, 0]);
}
