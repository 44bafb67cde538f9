//! The note: which HALT leaves which, and everything that leaves none.

use reference::cpu::{run, step, Machine, RunOutcome, RunResult, StepOutcome, MEMORY_BYTES, PC};
use reference::generate::{self, Rng};
use reference::image::{pack_file, Layout};
use reference::instruction::{decode, encode, Instruction};
use reference::loader::{load, place_code};
use reference::refusal::Refusal;
use reference::traffic::Touched;
use reference::verifier::verify;
use Instruction::*;

/// A halfword that is defined and does nothing to memory: CMP R0, #0.
const COMPARE: u16 = 0x2800;

const HALTED: RunResult = ended(RunOutcome::Halted, 0);

fn memory_of(code: &[u16]) -> Vec<u8> {
    let mut memory = vec![0; MEMORY_BYTES];
    place_code(code, &mut memory);
    memory
}

fn noting(note: u8) -> Machine {
    Machine { note, ..Machine::default() }
}

/// The end of a run whose last step, if it made one, was no load or store.
const fn ended(outcome: RunOutcome, count: u32) -> RunResult {
    RunResult { outcome, count, touched: Touched::NoData }
}

fn spent(count: u32) -> RunResult {
    ended(RunOutcome::Spent, count)
}

/// Each note at a start with each note of a HALT.
fn all_pairs() -> impl Iterator<Item = (u8, u8)> {
    (0..=255).flat_map(|before| (0..=255).map(move |noted| (before, noted)))
}

#[test]
fn halt_leaves_its_low_byte_and_nothing_else() {
    let mut rng = Rng::new(21);
    let mut memory = generate::memory(&mut rng);
    for (before, noted) in all_pairs() {
        let start = Machine { note: before, ..generate::start(&mut rng) };
        place_code(&[noted.into()], &mut memory);
        let expected = Machine { note: noted, ..start };
        let mut stepped = start;
        assert_eq!(step(&mut stepped, &mut memory), StepOutcome::Halted);
        assert_eq!(stepped, expected);
        let mut ran = start;
        assert_eq!(run(&mut ran, &mut memory, 1 + u32::from(before)), HALTED);
        assert_eq!(ran, expected);
    }
}

#[test]
fn halt_leaves_memory_alone() {
    for note in 0..=255 {
        let code = [COMPARE, note];
        let mut memory = memory_of(&code);
        assert_eq!(run(&mut noting(1), &mut memory, 9).outcome, RunOutcome::Halted);
        assert!(memory == memory_of(&code));
    }
}

#[test]
fn a_budget_spent_just_before_leaves_the_note() {
    for (before, noted) in all_pairs() {
        let mut memory = memory_of(&[COMPARE, COMPARE, noted.into()]);
        let mut machine = noting(before);
        assert_eq!(run(&mut machine, &mut memory, 2), spent(2));
        assert_eq!((machine.note, machine.regs[PC]), (before, 4));
        // HALT is next, and no budget is left for it.
        let waiting = machine;
        assert_eq!(run(&mut machine, &mut memory, 0), spent(0));
        assert_eq!(machine, waiting);
        assert_eq!(run(&mut machine, &mut memory, 1), HALTED);
        assert_eq!(machine, Machine { note: noted, ..waiting });
    }
}

#[test]
fn a_second_run_notes_again() {
    for (between, noted) in all_pairs() {
        let mut memory = memory_of(&[noted.into()]);
        let mut machine = noting(!noted);
        for _ in 0..2 {
            assert_eq!(run(&mut machine, &mut memory, 1), HALTED);
            assert_eq!(machine.note, noted);
            machine.note = between;
        }
        assert_eq!(step(&mut machine, &mut memory), StepOutcome::Halted);
        assert_eq!(machine.note, noted);
        // Another HALT in its place has its own.
        place_code(&[between.into()], &mut memory);
        assert_eq!(run(&mut machine, &mut memory, 1), HALTED);
        assert_eq!(machine.note, between);
    }
}

/// From any machine, so that all instructions complete at some time.
#[test]
fn a_completed_step_keeps_the_note() {
    let mut rng = Rng::new(22);
    let mut memory = generate::memory(&mut rng);
    let mut completed = 0;
    for halfword in 0..=u16::MAX {
        if matches!(decode(halfword), None | Some(Halt { .. })) {
            continue;
        }
        for _ in 0..8 {
            let mut machine = generate::machine(&mut rng);
            let (pc, before) = (usize::from(machine.regs[PC] & !1), machine.note);
            memory[pc..pc + 2].copy_from_slice(&halfword.to_le_bytes());
            let outcome = step(&mut machine, &mut memory);
            completed += usize::from(matches!(outcome, StepOutcome::Completed(_)));
            assert_eq!(machine.note, before, "{halfword:#06X}");
        }
    }
    assert!(completed > 100_000, "{completed}");
}

#[test]
fn stops_keep_the_note() {
    let askew = encode(Ldr { offset: 0, rb: 0, rd: 1 }).unwrap();
    for before in 0..=255 {
        let note = u16::from(!before);
        // An odd fetch beside a HALT, what stands right above the HALTs, and a misaligned load.
        let cases = [(18, 1, note), (19, 0, 0x0100 | note), (19, 0, 0x1F00 | note), (20, 0, askew)];
        for (number, pc, halfword) in cases {
            let mut memory = memory_of(&[halfword]);
            let mut machine = noting(before);
            (machine.regs[0], machine.regs[PC]) = (2, pc);
            let start = machine;
            assert_eq!(step(&mut machine, &mut memory), StepOutcome::Stopped(number));
            let stopped = ended(RunOutcome::Stopped(number), 0);
            assert_eq!(run(&mut machine, &mut memory, 5), stopped);
            assert_eq!(machine, start);
        }
    }
}

#[test]
fn a_refusal_keeps_the_note() {
    let refusal = Refusal { number: 1, place: 0 };
    for (before, length) in (0..=255).flat_map(|note| [0, 2, 65_535, 65_537].map(|l| (note, l))) {
        // A HALT with another note is everywhere.
        let mut memory = vec![0; length];
        memory.iter_mut().step_by(2).for_each(|low| *low = !before);
        let mut machine = noting(before);
        assert_eq!(step(&mut machine, &mut memory), StepOutcome::Refused(refusal));
        for budget in [0, 1, 100] {
            let refused = ended(RunOutcome::Refused(refusal), 0);
            assert_eq!(run(&mut machine, &mut memory, budget), refused);
        }
        assert_eq!(machine, noting(before));
    }
}

#[test]
fn stops_behind_completed_steps_keep_the_note() {
    let mut memory = memory_of(&[COMPARE, COMPARE, 0x0100]);
    let mut machine = noting(77);
    assert_eq!(run(&mut machine, &mut memory, 9), ended(RunOutcome::Stopped(19), 2));
    assert_eq!(machine.note, 77);
}

/// The last instruction of an image may note anything; the halfword above the HALTs is undefined.
#[test]
fn images_that_end_in_a_note() {
    for last in 0..=0x0100 {
        let file = pack_file(&[COMPARE, 0x00AA, last], 256, 4).unwrap();
        let expected = match last {
            0x0100 => Err(Refusal { number: 9, place: 4 }),
            _ => Ok(Layout { c: 6, w: 256, l: 4 }),
        };
        assert_eq!(verify(&file), expected, "{last:#06X}");
        let mut memory = vec![0xEE; MEMORY_BYTES];
        assert_eq!(load(&file, &mut memory), expected, "{last:#06X}");
    }
    let alone = |only| verify(&pack_file(&[only], 256, 4).unwrap());
    assert_eq!(alone(0x00FF), Ok(Layout { c: 2, w: 256, l: 4 }));
    assert_eq!(alone(0x0100), Err(Refusal { number: 9, place: 0 }));
}

/// The first HALT that a run meets is the one that notes.
#[test]
fn a_loaded_program_notes_why_it_ended() {
    let code = [0xD002, 0x0011, 0x0022]; // BEQ +4, HALT #17, HALT #34
    let file = pack_file(&code, 256, 4).unwrap();
    let mut memory = vec![0; MEMORY_BYTES];
    load(&file, &mut memory).expect("it is fit");
    for (z, note) in [(false, 0x11), (true, 0x22)] {
        let mut machine = Machine { z, ..noting(99) };
        assert_eq!(run(&mut machine, &mut memory, 10), ended(RunOutcome::Halted, 1));
        assert_eq!(machine.note, note);
    }
}
