// Tests of the engine: RULES.md, "Registers" and "Descriptor and steps", S1 to S3, answers
// 1, 2, 3, 4, 5, 6 and 9, and steps against a slow model that follows the text.

mod common;

use common::{
    chain, descriptor, fresh, put, set_error, simple, some_engine, some_memory, some_windows,
};
use independent::answer;
use independent::cut::brute_plan;
use independent::engine::{Engine, Event, Outcome, Phase, Transfer};
use independent::memory::Window;
use shared::random::Random;

const CONTROL: u32 = 0x00;
const STATUS: u32 = 0x04;
const CURRENT: u32 = 0x08;
const TAIL: u32 = 0x10;
const SA: u32 = 0x18;
const DA: u32 = 0x20;
const BTT: u32 = 0x28;

fn status(engine: &Engine) -> u32 {
    let (answer, value) = engine.read(STATUS);
    assert_eq!(answer, 0);
    value
}

fn word(memory: &[u8], at: u32) -> u32 {
    let at = at as usize;
    u32::from_le_bytes(memory[at..at + 4].try_into().unwrap())
}

/// All events of an engine until it is idle.
fn events(engine: &mut Engine, memory: &mut [u8], windows: &[Window]) -> Vec<Event> {
    let mut all = Vec::new();
    while engine.phase != Phase::Idle {
        let (answer, event) = engine.step(memory, windows);
        assert_eq!(answer, 0);
        assert!(engine.well_formed());
        all.push(event);
    }
    all
}

// ---- Worked cases ----

#[test]
fn s1_stale_first_descriptor() {
    let mut memory = vec![0; 256];
    put(&mut memory, 0, &descriptor(64, 128, 192, 4, 0x8000_0000));
    let before = memory.clone();
    let mut engine = chain(0, 0);
    assert_eq!(engine.clone().run(&mut memory, &[], 10), (0, 1));
    assert_eq!(engine.step(&mut memory, &[]), (0, Event::Halt { current: 0, bit: 8 }));
    assert_eq!(status(&engine), 0x0001_410a);
    assert_eq!(memory, before);
}

#[test]
fn s2_chain_of_one() {
    let mut memory = vec![0; 4096];
    put(&mut memory, 1024, &descriptor(1024, 2048, 0, 65, 0));
    for at in 0..65 {
        memory[2048 + at] = at as u8 + 1;
    }
    let mut engine = chain(1024, 1024);
    let mut copy = memory.clone();
    assert_eq!(engine.clone().run(&mut copy, &[], u16::MAX), (0, 4));
    assert_eq!(
        events(&mut engine, &mut memory, &[]),
        [
            Event::Fetch { current: 1024 },
            Event::Move { start: 0, bytes: 64 },
            Event::Move { start: 64, bytes: 1 },
            Event::Update { current: 1024, word: 0x8000_0000 },
        ]
    );
    assert_eq!(memory, copy);
    assert!((0..65).all(|at| memory[at] == at as u8 + 1));
    assert_eq!(memory[65], 0);
    assert_eq!(word(&memory, 1024 + 0x1c), 0x8000_0000);
    assert_eq!(status(&engine), 0x0001_100a);
}

#[test]
fn s3_overlap() {
    let mut memory = vec![1, 2, 3, 0];
    let mut engine = simple(0, 1, 3);
    assert_eq!(engine.step(&mut memory, &[]), (0, Event::Move { start: 1, bytes: 3 }));
    assert_eq!(memory, [1, 1, 2, 3]);
    assert_eq!(status(&engine), 0x0001_100a);
    // And the other way round.
    let mut memory = vec![9, 1, 2, 3];
    assert_eq!(simple(1, 0, 3).run(&mut memory, &[], 1), (0, 1));
    assert_eq!(memory, [1, 2, 3, 3]);
}

// ---- Registers ----

#[test]
fn fresh_registers() {
    let engine = fresh();
    assert_eq!(engine.read(CONTROL), (0, 0x0001_0002));
    assert_eq!(engine.read(STATUS), (0, 0x0001_000a));
    for offset in (8..=40).step_by(4) {
        assert_eq!(engine.read(offset), (0, 0));
    }
    assert!(engine.well_formed());
    assert!(!engine.interrupt_line());
}

#[test]
fn answer_3_for_every_other_offset() {
    let mut engine = fresh();
    for offset in (0..=100).chain([0x100, 0xffff, 0x8000_0000, u32::MAX, u32::MAX - 3]) {
        let good = offset <= 40 && offset % 4 == 0;
        let before = engine.clone();
        if !good {
            assert_eq!(engine.read(offset), (answer::OFFSET, 0));
            assert_eq!(engine.write(offset, 0), answer::OFFSET);
            assert_eq!(engine, before);
        } else {
            assert_eq!(engine.read(offset).0, 0);
        }
    }
}

#[test]
fn control_bits_kept() {
    for bits in 0..32u32 {
        let value = (bits & 7) << 3 | (bits >> 3 & 1) << 12 | (bits >> 4 & 1) << 14;
        for extra in [0, !(1 << 2 | 7 << 3 | 1 << 12 | 1 << 14)] {
            let mut engine = fresh();
            assert_eq!(engine.write(CONTROL, value | extra), 0);
            assert_eq!(engine.read(CONTROL), (0, 0x0001_0002 | value));
            assert_eq!(engine.write(CONTROL, 0), 0);
            assert_eq!(engine, fresh());
        }
    }
}

#[test]
fn reset_loses_the_other_bits_and_acts_at_once() {
    for started in [chain(64, 128), simple(1, 2, 3), {
        let mut failed = fresh();
        failed.write(BTT, 0);
        failed
    }] {
        let mut engine = started;
        engine.ioc_irq = true;
        assert_eq!(engine.write(CONTROL, u32::MAX), 0);
        assert_eq!(engine, fresh());
    }
    let mut engine = Engine::fresh(128, 256);
    engine.sa = 9;
    assert_eq!(engine.write(CONTROL, 4), 0);
    assert_eq!(engine, Engine::fresh(128, 256));
}

#[test]
fn mode_change_while_busy() {
    let mut engine = chain(64, 128);
    let before = engine.clone();
    assert_eq!(engine.write(CONTROL, 1 << 12 | 1 << 14), answer::BUSY);
    assert_eq!(engine, before);
    assert_eq!(engine.write(CONTROL, 1 << 3 | 1 << 12 | 1 << 14), 0);
    assert!(engine.ioc_enable && engine.err_enable && engine.sg_mode);
    let mut engine = simple(1, 2, 3);
    let before = engine.clone();
    assert_eq!(engine.write(CONTROL, 1 << 3), answer::BUSY);
    assert_eq!(engine, before);
    assert_eq!(engine.write(CONTROL, 1 << 14), 0);
    assert!(engine.err_enable && !engine.ioc_enable);
}

#[test]
fn mode_change_clears_no_pointer() {
    let mut engine = fresh();
    engine.write(CURRENT, 0x1000);
    engine.write(CONTROL, 8);
    engine.write(CONTROL, 0);
    assert_eq!(engine.read(CURRENT), (0, 0x1000));
    engine.write(CONTROL, 8);
    assert_eq!(engine.write(TAIL, 0x2000), 0);
    assert_eq!((engine.current, engine.phase), (0x1000, Phase::Fetch));
}

#[test]
fn status_write_clears_interrupts_only() {
    let mut engine = fresh();
    engine.write(BTT, 0);
    engine.ioc_irq = true;
    assert_eq!(status(&engine), 0x0001_501a);
    assert_eq!(engine.write(STATUS, !(1 << 12 | 1 << 14)), 0);
    assert_eq!(status(&engine), 0x0001_501a);
    assert_eq!(engine.write(STATUS, 1 << 12), 0);
    assert_eq!(status(&engine), 0x0001_401a);
    assert_eq!(engine.write(STATUS, 1 << 14), 0);
    assert_eq!(status(&engine), 0x0001_001a);
    // Clearing Err_Irq does not lift answer 5.
    assert_eq!(engine.write(SA, 1), answer::ERROR);
    // Also while busy.
    let mut engine = chain(0, 0);
    engine.ioc_irq = true;
    assert_eq!(engine.write(STATUS, u32::MAX), 0);
    assert_eq!((engine.ioc_irq, engine.phase), (false, Phase::Fetch));
}

#[test]
fn pointers_drop_six_bits() {
    let mut engine = fresh();
    assert_eq!(engine.write(CURRENT, 0x1234_567f), 0);
    assert_eq!(engine.read(CURRENT), (0, 0x1234_5640));
    assert_eq!((engine.current, engine.next, engine.held_next), (0x1234_5640, 0x1234_5640, 0));
    engine.write(CONTROL, 8);
    assert_eq!(engine.write(TAIL, u32::MAX), 0);
    assert_eq!(engine.read(TAIL), (0, 0xffff_ffc0));
    assert_eq!(engine.phase, Phase::Fetch);
    assert_eq!(engine.write(TAIL, 0x40), 0);
    assert_eq!((engine.tail, engine.phase), (0x40, Phase::Fetch));
}

#[test]
fn btt_keeps_23_bits() {
    let mut engine = simple(5, 6, 0xff80_0001);
    assert_eq!(engine.read(BTT), (0, 1));
    let moving = Phase::Move(Transfer { source: 5, destination: 6, total: 1, moved: 0 });
    assert_eq!(engine.phase, moving);
    assert_eq!(status(&engine), 0x0001_0008);
    for offset in [SA, DA, BTT, CURRENT, TAIL] {
        let before = engine.clone();
        assert_eq!(engine.write(offset, 0x100), answer::BUSY);
        assert_eq!(engine, before);
    }
    let mut engine = fresh();
    engine.btt = 77;
    assert_eq!(engine.write(BTT, 0x0080_0000), 0);
    assert_eq!(engine.read(BTT), (0, 0));
    assert_eq!(status(&engine), 0x0001_401a);
    assert_eq!(engine.phase, Phase::Idle);
    assert_eq!(engine.write(BTT, 4), answer::ERROR);
}

/// Every register write's answer, by mode, phase and error, in the text's words.
#[test]
fn write_answers_over_all_conditions() {
    let moving = Phase::Move(Transfer { source: 0, destination: 64, total: 9, moved: 3 });
    let phases = [
        Phase::Idle,
        Phase::Fetch,
        moving,
        Phase::Update(Outcome::Complete),
        Phase::Update(Outcome::Internal),
        Phase::Update(Outcome::Slave),
        Phase::Update(Outcome::Decode),
    ];
    for phase in phases {
        for sg_mode in [false, true] {
            for error in 0..7 {
                let mut engine = Engine { sg_mode, phase, ..fresh() };
                set_error(&mut engine, error);
                let busy = phase != Phase::Idle;
                let in_error = error > 0;
                let well = !(in_error && busy)
                    && (sg_mode || matches!(phase, Phase::Idle | Phase::Move(_)));
                assert_eq!(engine.well_formed(), well);
                for offset in 0..=44 {
                    for value in [0, 4, 8, 16, 32, 56, 64, 0x0080_0000, u32::MAX] {
                        let expected = if !well {
                            9
                        } else if offset > 40 || offset % 4 != 0 {
                            3
                        } else {
                            match offset {
                                0 if value & 4 == 0
                                    && busy
                                    && value & 56 != if sg_mode { 8 } else { 0 } =>
                                {
                                    4
                                }
                                8 | 16 | 24 | 32 | 40 if in_error => 5,
                                8 | 24 | 32 if busy => 4,
                                16 if !sg_mode => 4,
                                40 if busy || sg_mode => 4,
                                _ => 0,
                            }
                        };
                        let mut after = engine.clone();
                        assert_eq!(after.write(offset, value), expected);
                        if expected != 0 || matches!(offset, 12 | 20 | 28 | 36) {
                            assert_eq!(after, engine);
                        } else {
                            assert!(after.well_formed());
                        }
                        let read = engine.read(offset);
                        assert_eq!(
                            read.0,
                            if expected == 9 || expected == 3 { expected } else { 0 }
                        );
                        if read.0 != 0 || matches!(offset, 12 | 20 | 28 | 36) {
                            assert_eq!(read.1, 0);
                        }
                    }
                }
            }
        }
    }
}

#[test]
fn status_bits_one_by_one() {
    for (error, bit) in [(1, 4), (2, 5), (3, 6), (4, 8), (5, 9), (6, 10)] {
        let mut engine = fresh();
        set_error(&mut engine, error);
        assert_eq!(status(&engine), 0x0001_000a | 1 << bit);
    }
    assert_eq!(status(&Engine { ioc_irq: true, ..fresh() }), 0x0001_100a);
    assert_eq!(status(&Engine { err_irq: true, ..fresh() }), 0x0001_400a);
    assert_eq!(status(&chain(0, 0)), 0x0001_0008);
}

#[test]
fn interrupt_line_over_all_bits() {
    for bits in 0..16 {
        let engine = Engine {
            ioc_irq: bits & 1 != 0,
            ioc_enable: bits & 2 != 0,
            err_irq: bits & 4 != 0,
            err_enable: bits & 8 != 0,
            ..fresh()
        };
        assert_eq!(engine.interrupt_line(), bits & 3 == 3 || bits & 12 == 12);
    }
}

// ---- Well formed, and the order of refusals ----

fn ill_formed() -> Vec<Engine> {
    let moving = |source, destination, total, moved| {
        Phase::Move(Transfer { source, destination, total, moved })
    };
    vec![
        Engine { current: 1, ..fresh() },
        Engine { tail: 32, ..fresh() },
        Engine { next: 63, ..fresh() },
        Engine { held_next: 0xffff_ffff, ..fresh() },
        Engine { btt: 8_388_608, ..fresh() },
        Engine { phase: Phase::Fetch, ..fresh() },
        Engine { phase: Phase::Update(Outcome::Complete), ..fresh() },
        Engine { phase: moving(0, 0, 0, 0), ..fresh() },
        Engine { phase: moving(0, 0, 5, 5), ..fresh() },
        Engine { phase: moving(0, 0, 5, 6), ..fresh() },
        Engine { phase: moving(0, 0, 8_388_608, 0), ..fresh() },
        Engine { phase: moving(u32::MAX, 0, 5, 1), ..fresh() },
        Engine { phase: moving(0, u32::MAX, 5, 1), ..fresh() },
        Engine { sg_mode: true, phase: Phase::Fetch, errors: 1 << 10, ..fresh() },
        Engine { phase: moving(0, 0, 5, 0), errors: 1 << 4, ..fresh() },
    ]
}

#[test]
fn well_formed_at_its_edges() {
    for engine in ill_formed() {
        assert!(!engine.well_formed(), "{engine:?}");
    }
    let moving = |source, destination, total, moved| {
        Phase::Move(Transfer { source, destination, total, moved })
    };
    for engine in [
        Engine { current: 64, tail: 128, next: 0xffff_ffc0, held_next: 192, ..fresh() },
        Engine { btt: 8_388_607, ..fresh() },
        Engine { sg_mode: true, phase: Phase::Fetch, err_irq: true, ..fresh() },
        Engine { sg_mode: true, phase: Phase::Update(Outcome::Slave), ..fresh() },
        Engine { sg_mode: true, phase: moving(u32::MAX, u32::MAX, 8_388_607, 0), ..fresh() },
        Engine { phase: moving(u32::MAX - 4, u32::MAX - 4, 5, 4), ..fresh() },
        Engine { errors: 1 << 4 | 1 << 10, ..fresh() },
        Engine { width: 3, beats: 0, ..fresh() },
    ] {
        assert!(engine.well_formed(), "{engine:?}");
    }
}

#[test]
fn order_of_refusals_of_steps_and_runs() {
    let mut long = vec![0; 16_777_217];
    let many = [(0, 0); 17];
    for ill in ill_formed() {
        for width in [4, 6] {
            for memory in [16_777_216, 16_777_217] {
                for windows in [16, 17] {
                    for sound in [false, true] {
                        let start = if sound { fresh() } else { ill.clone() };
                        let mut engine = Engine { width, ..start };
                        let before = engine.clone();
                        let expected = if width == 6 {
                            answer::SETTINGS
                        } else if memory > 16_777_216 {
                            answer::MEMORY
                        } else if windows > 16 {
                            answer::WINDOWS
                        } else if !sound {
                            answer::STATE
                        } else {
                            0
                        };
                        let lent = &mut long[..memory];
                        assert_eq!(engine.step(lent, &many[..windows]), (expected, Event::None));
                        assert_eq!(engine.run(lent, &many[..windows], 9), (expected, 0));
                        assert_eq!(engine.run(lent, &many[..windows], 0), (expected, 0));
                        assert_eq!(engine, before);
                    }
                }
            }
        }
    }
    assert!(long.iter().all(|&byte| byte == 0));
}

#[test]
fn refusals_leave_a_busy_engine_and_memory() {
    let mut memory = vec![7; 256];
    let many = [(0, 0); 17];
    let mut engine = simple(0, 100, 10);
    let before = engine.clone();
    assert_eq!(engine.step(&mut memory, &many), (answer::WINDOWS, Event::None));
    assert_eq!(engine.run(&mut memory, &many, 5), (answer::WINDOWS, 0));
    assert_eq!(engine, before);
    engine.beats = 3;
    assert_eq!(engine.step(&mut memory, &[]), (answer::SETTINGS, Event::None));
    assert_eq!(memory, [7; 256]);
    // Sixteen windows, empty ones too, are allowed.
    engine.beats = 16;
    assert_eq!(engine.run(&mut memory, &many[..16], 5), (0, 1));
}

#[test]
fn order_of_refusals_of_accesses() {
    for ill in ill_formed() {
        // 1 before 9 before 3; Reset does not rescue.
        let mut engine = Engine { width: 5, ..ill.clone() };
        for offset in [0, 1, 8, 44] {
            assert_eq!(engine.read(offset), (answer::SETTINGS, 0));
            assert_eq!(engine.write(offset, 4), answer::SETTINGS);
        }
        let mut engine = ill.clone();
        for offset in [0, 1, 8, 12, 44] {
            assert_eq!(engine.read(offset), (answer::STATE, 0));
            assert_eq!(engine.write(offset, 4), answer::STATE);
        }
        assert_eq!(engine, ill);
    }
    // 3 before 5, and 5 before 4: in error with the wrong mode.
    let mut engine = Engine { errors: 1 << 10, ..fresh() };
    assert_eq!(engine.write(41, 0), answer::OFFSET);
    assert_eq!(engine.write(TAIL, 0), answer::ERROR);
    engine.sg_mode = true;
    assert_eq!(engine.write(BTT, 0), answer::ERROR);
    // Upper halves answer 0, in error too.
    for offset in [0x0c, 0x14, 0x1c, 0x24] {
        let before = engine.clone();
        assert_eq!(engine.write(offset, u32::MAX), 0);
        assert_eq!(engine, before);
        assert_eq!(engine.read(offset), (0, 0));
    }
    // Settings off the lists, for each.
    for (width, beats) in [(0, 16), (3, 16), (256, 16), (4, 0), (4, 1), (4, 512), (u32::MAX, 16)] {
        let mut engine = Engine::fresh(width, beats);
        assert_eq!(engine.read(0), (1, 0));
        assert_eq!(engine.write(0, 4), 1);
        assert_eq!(engine.step(&mut [], &[]), (1, Event::None));
        assert_eq!(engine.run(&mut [], &[], 1), (1, 0));
    }
}

// ---- Steps ----

#[test]
fn idle_steps_and_runs() {
    let mut engine = fresh();
    assert_eq!(engine.step(&mut [], &[]), (0, Event::None));
    assert_eq!(engine.run(&mut [], &[], u16::MAX), (0, 0));
    assert_eq!(engine, fresh());
    // A run of 0 steps on a busy engine, then of fewer than it needs.
    let mut engine = simple(0, 0, 200);
    let mut memory = vec![0; 256];
    assert_eq!(engine.run(&mut memory, &[], 0), (0, 0));
    assert_eq!(engine.run(&mut memory, &[], 3), (0, 3));
    assert_eq!(engine.run(&mut memory, &[], 3), (0, 1));
    assert_eq!(engine.run(&mut memory, &[], 3), (0, 0));
    // Empty memory.
    let mut engine = simple(0, 0, 1);
    assert_eq!(engine.step(&mut [], &[]), (0, Event::Fault { place: 0, bit: 6 }));
}

#[test]
fn fetch_failures_in_order() {
    let mut memory = vec![0; 224];
    put(&mut memory, 128, &descriptor(0, 0, 0, 0, 0x8000_0000));
    // Decode before slave: the last 16 bytes past the end, a window over the first.
    let sick = [(192, 1)];
    let mut engine = chain(192, 192);
    memory.truncate(208);
    assert_eq!(engine.step(&mut memory, &sick), (0, Event::Halt { current: 192, bit: 10 }));
    assert_eq!(status(&engine), 0x0001_440a);
    // Slave before stale, at the descriptor's last byte.
    let mut engine = chain(128, 0);
    assert_eq!(engine.step(&mut memory, &[(159, 1)]), (0, Event::Halt { current: 128, bit: 9 }));
    assert_eq!(status(&engine), 0x0001_420a);
    // Past its 32 bytes a window is nothing to it: stale, before the zero count.
    let mut engine = chain(128, 0);
    assert_eq!(
        engine.step(&mut memory, &[(160, 9), (0, 128)]),
        (0, Event::Halt { current: 128, bit: 8 })
    );
    assert_eq!((engine.held_next, engine.current), (0, 128));
    // Stale looks at bit 31 alone.
    put(&mut memory, 128, &descriptor(0, 0, 0, 1, 0x7fff_ffff));
    let mut engine = chain(128, 0);
    assert_eq!(engine.step(&mut memory, &[]), (0, Event::Fetch { current: 128 }));
    // At the top of the addresses.
    let mut engine = chain(u32::MAX, 0);
    assert_eq!(engine.step(&mut memory, &[]), (0, Event::Halt { current: 0xffff_ffc0, bit: 10 }));
}

#[test]
fn fetch_takes_the_fields() {
    let mut memory = vec![0; 128];
    put(&mut memory, 64, &descriptor(0x1234_56ff, 0xdead_beef, 0xcafe_f00d, 0xff80_0007, 0));
    let mut engine = chain(64, 0);
    assert_eq!(engine.step(&mut memory, &[]), (0, Event::Fetch { current: 64 }));
    assert_eq!(engine.held_next, 0x1234_56c0);
    assert_eq!(engine.next, 64);
    let moving =
        Phase::Move(Transfer { source: 0xdead_beef, destination: 0xcafe_f00d, total: 7, moved: 0 });
    assert_eq!(engine.phase, moving);
    assert_eq!(status(&engine), 0x0001_0008);
}

#[test]
fn zero_count_descriptor() {
    let mut memory = vec![0; 128];
    put(&mut memory, 64, &descriptor(0, 0, 0, 0xff80_0000, 0x00ff_ffff));
    let mut engine = chain(64, 64);
    assert_eq!(engine.step(&mut memory, &[]), (0, Event::Fetch { current: 64 }));
    assert_eq!(engine.phase, Phase::Update(Outcome::Internal));
    // Busy, and no error bit until the update.
    assert_eq!(status(&engine), 0x0001_0008);
    assert_eq!(engine.write(SA, 1), answer::BUSY);
    assert_eq!(engine.write(TAIL, 128), 0);
    assert_eq!(engine.step(&mut memory, &[]), (0, Event::Update { current: 64, word: 1 << 28 }));
    assert_eq!(word(&memory, 64 + 0x1c), 1 << 28);
    assert_eq!(status(&engine), 0x0001_401a);
    assert_eq!((engine.current, engine.next), (64, 64));
}

#[test]
fn chain_move_failures() {
    for (window, outcome, bit, mark) in
        [((700, 1), Outcome::Slave, 5, 29), ((0, 0), Outcome::Decode, 6, 30)]
    {
        let mut memory = vec![3; 1024];
        // Source at 636, 100 bytes: the second burst's source holds byte 700; or the
        // destination's second burst passes the end.
        let (destination, place) = if bit == 5 { (256, 700) } else { (960, 1024) };
        put(&mut memory, 0, &descriptor(64, 636, destination, 100, 0));
        let mut engine = chain(0, 0);
        let all = events(&mut engine, &mut memory, &[window]);
        assert_eq!(
            all,
            [
                Event::Fetch { current: 0 },
                Event::Move { start: destination, bytes: 64 },
                Event::Fault { place, bit },
                Event::Update { current: 0, word: 1 << mark },
            ],
            "{outcome:?}"
        );
        assert_eq!(status(&engine), 0x0001_400a | 1 << bit);
        assert_eq!(word(&memory, 0x1c), 1 << mark);
        assert_eq!((engine.current, engine.next, engine.held_next), (0, 0, 64));
    }
}

#[test]
fn source_and_destination_are_judged_together() {
    // Source slave error, destination decode error: decode. And the other way round.
    let mut memory = vec![0; 64];
    let mut engine = simple(0, 60, 8);
    assert_eq!(engine.step(&mut memory, &[(3, 1)]), (0, Event::Fault { place: 64, bit: 6 }));
    assert_eq!(status(&engine), 0x0001_404a);
    let mut engine = simple(60, 0, 8);
    assert_eq!(engine.step(&mut memory, &[(3, 1)]), (0, Event::Fault { place: 64, bit: 6 }));
    let mut engine = simple(16, 0, 8);
    assert_eq!(engine.step(&mut memory, &[(3, 1)]), (0, Event::Fault { place: 3, bit: 5 }));
    assert_eq!(status(&engine), 0x0001_402a);
    let mut engine = simple(0, 16, 8);
    assert_eq!(engine.step(&mut memory, &[(3, 1)]), (0, Event::Fault { place: 3, bit: 5 }));
    assert_eq!(memory, [0; 64]);
    // A source past 2^32 does not wrap.
    let mut engine = simple(u32::MAX, 0, 8);
    assert_eq!(engine.step(&mut memory, &[]), (0, Event::Fault { place: u32::MAX, bit: 6 }));
    // A destination whose end passes 2^32 starts, and ends by decode error.
    let mut engine = simple(0, u32::MAX - 3, 64);
    assert_eq!(engine.step(&mut memory, &[]), (0, Event::Fault { place: u32::MAX - 3, bit: 6 }));
}

#[test]
fn update_failures() {
    for outcome in [Outcome::Complete, Outcome::Internal, Outcome::Slave, Outcome::Decode] {
        let base = Engine {
            sg_mode: true,
            current: 64,
            tail: 64,
            held_next: 128,
            phase: Phase::Update(outcome),
            ..fresh()
        };
        // Slave: the last byte of the word. Nothing is written.
        let mut memory = vec![5; 128];
        let mut engine = base.clone();
        assert_eq!(engine.step(&mut memory, &[(95, 1)]), (0, Event::Halt { current: 64, bit: 9 }));
        assert_eq!(status(&engine), 0x0001_420a);
        assert_eq!((engine.current, engine.next), (64, 0));
        // Decode: the word's last byte is past the end.
        let mut engine = base.clone();
        assert_eq!(
            engine.step(&mut memory[..95], &[(92, 1)]),
            (0, Event::Halt { current: 64, bit: 10 })
        );
        assert_eq!(status(&engine), 0x0001_440a);
        assert_eq!(memory, [5; 128]);
        // Windows all round the word do not matter.
        let mut engine = base.clone();
        let (answer, event) = engine.step(&mut memory[..96], &[(0, 92), (96, 99)]);
        assert_eq!(answer, 0);
        assert!(matches!(event, Event::Update { current: 64, .. }));
    }
}

#[test]
fn chain_of_three_and_the_restart_at_next() {
    let mut memory = vec![0; 8192];
    put(&mut memory, 0, &descriptor(64, 4096, 5000, 4, 0));
    put(&mut memory, 64, &descriptor(256 + 5, 4096, 5004, 4, 0));
    put(&mut memory, 256, &descriptor(512, 4096, 5008, 4, 0));
    put(&mut memory, 4096, &[1, 2, 3, 4]);
    let mut engine = chain(0, 64);
    assert_eq!(engine.run(&mut memory, &[], 100), (0, 6));
    assert_eq!(engine.read(CURRENT), (0, 64));
    assert_eq!((engine.next, engine.tail), (256, 64));
    assert_eq!(status(&engine), 0x0001_100a);
    // The second run starts at the finished tail's next.
    assert_eq!(engine.write(TAIL, 256), 0);
    assert_eq!(engine.read(CURRENT), (0, 256));
    assert_eq!(
        events(&mut engine, &mut memory, &[]),
        [
            Event::Fetch { current: 256 },
            Event::Move { start: 5008, bytes: 4 },
            Event::Update { current: 256, word: 0x8000_0000 },
        ]
    );
    assert_eq!(memory[5000..5012], [1, 2, 3, 4, 1, 2, 3, 4, 1, 2, 3, 4]);
    // A tail moved on while busy carries the chain on.
    let mut memory = vec![0; 8192];
    put(&mut memory, 0, &descriptor(64, 4096, 5000, 4, 0));
    put(&mut memory, 64, &descriptor(0, 4096, 5004, 4, 0));
    let mut engine = chain(0, 0);
    assert_eq!(engine.run(&mut memory, &[], 2), (0, 2));
    assert_eq!(engine.write(TAIL, 64), 0);
    assert_eq!(engine.run(&mut memory, &[], 100), (0, 4));
    assert_eq!(engine.read(CURRENT), (0, 64));
    // And a loop halts as stale at the descriptor done.
    assert_eq!(engine.write(TAIL, 1024), 0);
    assert_eq!(engine.step(&mut memory, &[]), (0, Event::Halt { current: 0, bit: 8 }));
}

#[test]
fn steps_never_change_sa_da_btt_and_a_start_clears_no_interrupt() {
    let mut memory = vec![0; 4096];
    let mut engine = simple(100, 200, 300);
    engine.ioc_irq = true;
    engine.err_irq = true;
    engine.run(&mut memory, &[], 100);
    assert_eq!((engine.sa, engine.da, engine.btt), (100, 200, 300));
    assert_eq!(engine.write(BTT, 5), 0);
    assert!(engine.ioc_irq && engine.err_irq);
    engine.run(&mut memory, &[], 100);
    engine.write(CONTROL, 8);
    assert_eq!(engine.write(SA, 1), 0);
    assert_eq!(engine.write(DA, 2), 0);
    assert_eq!(engine.write(TAIL, 0), 0);
    assert!(engine.ioc_irq && engine.err_irq);
}

#[test]
fn later_bursts_read_what_earlier_ones_wrote() {
    let mut memory: Vec<u8> = (0..=255).collect();
    let mut engine = simple(0, 32, 128);
    let all = events(&mut engine, &mut memory, &[]);
    assert_eq!(all, [Event::Move { start: 32, bytes: 64 }, Event::Move { start: 96, bytes: 64 }]);
    let mut expected: Vec<u8> = (0..=255).collect();
    let first: Vec<u8> = expected[..64].to_vec();
    expected[32..96].copy_from_slice(&first);
    let second: Vec<u8> = expected[64..128].to_vec();
    expected[96..160].copy_from_slice(&second);
    assert_eq!(memory, expected);
}

#[test]
fn each_step_judges_what_it_is_lent() {
    let mut long = vec![1; 512];
    let mut short = vec![2; 64];
    let mut engine = simple(0, 128, 128);
    assert_eq!(engine.step(&mut long, &[]), (0, Event::Move { start: 128, bytes: 64 }));
    assert_eq!(engine.step(&mut short, &[]), (0, Event::Fault { place: 64, bit: 6 }));
}

// ---- Against a slow model of the text ----

fn byte_by_byte(memory: &[u8], windows: &[Window], group: &[u64]) -> u32 {
    let decode = group.iter().any(|&at| at >= memory.len() as u64);
    let slave = group.iter().any(|&at| {
        windows.iter().any(|&(s, l)| u64::from(s) <= at && at < u64::from(s) + u64::from(l))
    });
    if decode {
        2
    } else {
        u32::from(slave)
    }
}

/// Where a burst failed: the first byte that answers as the whole burst does, of its source bytes
/// and then of its destination bytes, each in rising order.
fn slow_place(memory: &[u8], windows: &[Window], sources: Vec<u64>, targets: Vec<u64>) -> u32 {
    let all = [sources.clone(), targets.clone()].concat();
    let together = byte_by_byte(memory, windows, &all);
    for mut side in [sources, targets] {
        side.sort();
        for at in side {
            if byte_by_byte(memory, windows, &[at]) == together {
                return at.try_into().unwrap();
            }
        }
    }
    panic!("no byte answers as the burst does");
}

fn group(start: u64, count: u64) -> Vec<u64> {
    (start..start + count).collect()
}

/// The places of bytes `moved` and on of a transfer whose side is fixed: round and round its word.
fn fixed_group(start: u32, width: u32, moved: u32, bytes: u32) -> Vec<u64> {
    let first = u64::from(start);
    let word = first..first + u64::from(width);
    word.cycle().skip(moved as usize).take(bytes as usize).collect()
}

/// Halt with the CDMASR bit of the number given.
fn halted(engine: &Engine, bit: u32) -> Engine {
    let mut after = engine.clone();
    assert!([4, 5, 6, 8, 9, 10].contains(&bit));
    after.errors |= 1 << bit;
    after.err_irq = true;
    after.phase = Phase::Idle;
    after
}

fn slow_step(engine: &Engine, memory: &[u8], windows: &[Window]) -> (Engine, Vec<u8>, Event) {
    let same = memory.to_vec();
    let current = engine.current;
    match engine.phase {
        Phase::Idle => (engine.clone(), same, Event::None),
        Phase::Fetch => {
            let bit = match byte_by_byte(memory, windows, &group(u64::from(current), 32)) {
                2 => 10,
                1 => 9,
                _ if word(memory, current + 0x1c) & 0x8000_0000 != 0 => 8,
                _ => 0,
            };
            if bit != 0 {
                return (halted(engine, bit), same, Event::Halt { current, bit });
            }
            let mut after = engine.clone();
            after.held_next = word(memory, current) / 64 * 64;
            let total = word(memory, current + 0x18) % 0x80_0000;
            let source = word(memory, current + 0x08);
            let destination = word(memory, current + 0x10);
            let off = |start: u32| start % engine.width + total % engine.width != 0;
            let fixed_off =
                engine.key_hole_read && off(source) || engine.key_hole_write && off(destination);
            after.phase = match total {
                0 => Phase::Update(Outcome::Internal),
                _ if fixed_off => Phase::Update(Outcome::Internal),
                _ => Phase::Move(Transfer { source, destination, total, moved: 0 }),
            };
            (after, same, Event::Fetch { current })
        }
        Phase::Move(Transfer { source, destination, total, moved }) => {
            let (start, bytes) = if engine.key_hole_write {
                (destination, (engine.width * engine.beats.min(16)).min(total - moved))
            } else {
                let start = destination + moved;
                // A burst never leaves its page: a cut of two pages is enough.
                let left = (total - moved).min(5000);
                (start, brute_plan(engine.width, engine.beats, start, left)[0].1)
            };
            let side = |start: u32, fixed: bool| match fixed {
                true => fixed_group(start, engine.width, moved, bytes),
                false => group(u64::from(start) + u64::from(moved), u64::from(bytes)),
            };
            let sources = side(source, engine.key_hole_read);
            let targets = side(destination, engine.key_hole_write);
            let both: Vec<u64> = sources.iter().chain(&targets).copied().collect();
            let bad = byte_by_byte(memory, windows, &both);
            if bad != 0 {
                let bit = 4 + bad;
                let event =
                    Event::Fault { place: slow_place(memory, windows, sources, targets), bit };
                if !engine.sg_mode {
                    return (halted(engine, bit), same, event);
                }
                let outcome = if bad == 2 { Outcome::Decode } else { Outcome::Slave };
                return (Engine { phase: Phase::Update(outcome), ..engine.clone() }, same, event);
            }
            let mut lent = same;
            let read: Vec<u8> = sources.iter().map(|&at| memory[at as usize]).collect();
            for (&at, &byte) in targets.iter().zip(&read) {
                lent[at as usize] = byte;
            }
            let mut after = engine.clone();
            after.phase = if moved + bytes < total {
                Phase::Move(Transfer { source, destination, total, moved: moved + bytes })
            } else if engine.sg_mode {
                Phase::Update(Outcome::Complete)
            } else {
                after.ioc_irq = true;
                Phase::Idle
            };
            (after, lent, Event::Move { start, bytes })
        }
        Phase::Update(outcome) => {
            let bad = byte_by_byte(memory, windows, &group(u64::from(current) + 0x1c, 4));
            if bad != 0 {
                let bit = 8 + bad;
                return (halted(engine, bit), same, Event::Halt { current, bit });
            }
            let (written, bit) = match outcome {
                Outcome::Complete => (0x8000_0000, 0),
                Outcome::Decode => (0x4000_0000, 6),
                Outcome::Slave => (0x2000_0000, 5),
                Outcome::Internal => (0x1000_0000, 4),
            };
            let mut lent = same;
            put(&mut lent, current + 0x1c, &u32::to_le_bytes(written));
            let after = if bit != 0 {
                halted(engine, bit)
            } else {
                let mut after = engine.clone();
                after.ioc_irq = true;
                after.next = engine.held_next;
                if current == engine.tail {
                    after.phase = Phase::Idle;
                } else {
                    after.current = engine.held_next;
                    after.phase = Phase::Fetch;
                }
                after
            };
            (after, lent, Event::Update { current, word: written })
        }
    }
}

#[test]
fn steps_are_those_of_the_slow_model() {
    let mut random = Random::new(5, 0);
    let mut kinds = [0; 7];
    let mut taken = 0;
    while taken < 60_000 {
        let length = if random.one_in(3) { 4096 + random.below(5000) } else { random.below(1200) };
        let mut engine = some_engine(&mut random, length);
        let mut memory = some_memory(&mut random, length);
        let windows = some_windows(&mut random, length);
        let well = engine.well_formed();
        for _ in 0..8 {
            if !well {
                let before = (engine.clone(), memory.clone());
                assert_eq!(engine.step(&mut memory, &windows), (9, Event::None));
                assert_eq!(engine.run(&mut memory, &windows, 9), (9, 0));
                assert_eq!((engine, memory), before);
                kinds[6] += 1;
                break;
            }
            let (after, lent, event) = slow_step(&engine, &memory, &windows);
            assert_eq!(engine.step(&mut memory, &windows), (0, event));
            assert_eq!(engine, after);
            assert_eq!(memory, lent);
            assert!(engine.well_formed());
            taken += 1;
            kinds[match event {
                Event::None => 0,
                Event::Fetch { .. } => 1,
                Event::Move { .. } => 2,
                Event::Fault { .. } => 3,
                Event::Update { .. } => 4,
                Event::Halt { .. } => 5,
            }] += 1;
            if event == Event::None {
                break;
            }
        }
    }
    assert!(kinds.iter().all(|&kind| kind > 500), "{kinds:?}");
}

#[test]
fn runs_are_their_steps() {
    let mut random = Random::new(6, 0);
    for _ in 0..4000 {
        let length = 1500;
        let mut engine = some_engine(&mut random, length);
        if !engine.well_formed() {
            continue;
        }
        let mut memory: Vec<u8> = (0..length).map(|_| random.below(3) as u8).collect();
        let (mut other, mut lent) = (engine.clone(), memory.clone());
        // Windows near what is moved, mostly beside it.
        let windows: Vec<Window> = (0..random.pick(&[0, 0, 1, 3, 16]))
            .map(|_| (random.below(2 * length), random.below(4)))
            .collect();
        let n = random.below(12) as u16;
        let mut steps = 0;
        while steps < n && other.phase != Phase::Idle {
            other.step(&mut lent, &windows);
            steps += 1;
        }
        assert_eq!(engine.run(&mut memory, &windows, n), (0, steps));
        assert_eq!((engine, memory), (other, lent));
    }
}
