//! The note, with every byte as one: what sets it, and all that does not.

use Instruction::*;
use reference::cpu::{MEMORY_BYTES, Machine, PC, RunOutcome, RunResult, StepOutcome};
use reference::generate::{self, Rng};
use reference::image::{BLOCK_BYTES, Layout};
use reference::instruction::{Instruction, encode};
use reference::loader::place_code;
use reference::refusal::Refusal;
use reference::traffic::Touched;

use crate::support::{
    Guarded, Twins, answer, library_run, library_step, quick_machine, without_data,
};

/// CMP R0, #0: completes wherever it stands, and leaves memory alone.
const COMPARE: u16 = 0x2800;

const HALTED: RunResult = without_data(RunOutcome::Halted, 0);

fn spent(count: u32) -> RunResult {
    without_data(RunOutcome::Spent, count)
}

fn stopped(number: u8) -> RunResult {
    without_data(RunOutcome::Stopped(number), 0)
}

/// Every note of a HALT, each after every note at the start.
fn all_pairs() -> impl Iterator<Item = (u8, u8)> {
    (0..=u8::MAX).flat_map(|before| (0..=u8::MAX).map(move |noted| (before, noted)))
}

/// Every note of a HALT after notes of each class: its own, its neighbours, its complement, none.
fn chosen_pairs() -> impl Iterator<Item = (u8, u8)> {
    let classes = |n: u8| [n, n.wrapping_add(1), n.wrapping_sub(1), !n, 0, u8::MAX];
    (0..=u8::MAX).flat_map(move |noted| classes(noted).map(|before| (before, noted)))
}

/// A machine with a note at an even address, everything else of any kind.
fn noting(rng: &mut Rng, note: u8) -> Machine {
    let mut machine = Machine { note, ..quick_machine(rng) };
    machine.regs[PC] &= !1;
    machine
}

fn twins_of(code: &[u16]) -> Twins {
    let mut memory = vec![0; MEMORY_BYTES];
    place_code(code, &mut memory);
    Twins::new(&memory)
}

/// Anywhere in memory, by a step and by a run: the note, and nothing else.
#[test]
fn every_note_after_every_note() {
    let mut rng = Rng::new(701);
    let mut twins = Twins::new(&generate::memory(&mut rng));
    for (before, noted) in all_pairs() {
        let start = noting(&mut rng, before);
        let expected = Machine { note: noted, ..start };
        twins.plant(start.regs[PC].into(), noted.into());

        let mut stepped = start;
        assert_eq!(twins.step(&mut stepped), StepOutcome::Halted);
        assert_eq!(stepped, expected);

        let mut ran = start;
        let budget = rng.pick(&[1, 2, 1_000, u32::MAX]);
        assert_eq!(twins.run(&mut ran, budget), HALTED);
        assert_eq!(ran, expected);
    }
}

/// Up to and over the end of a budget, which is also tried with no step to HALT.
#[test]
fn a_budget_that_ends_just_before() {
    for steps in [0u16, 1, 2, 17, 300] {
        let mut twins = twins_of(&vec![COMPARE; steps.into()]);
        for (before, noted) in chosen_pairs() {
            twins.plant(usize::from(2 * steps), noted.into());
            let start = Machine { note: before, ..Machine::default() };
            let count = u32::from(steps);

            let mut machine = start;
            assert_eq!(twins.run(&mut machine, count), spent(count));
            assert_eq!((machine.note, machine.regs[PC]), (before, 2 * steps));
            let waiting = machine;
            assert_eq!(twins.run(&mut machine, 0), spent(0));
            assert_eq!(machine, waiting);
            assert_eq!(twins.run(&mut machine, 1), HALTED);
            assert_eq!(machine, Machine { note: noted, ..waiting });

            let mut at_once = start;
            let ended = twins.run(&mut at_once, count + 1);
            assert_eq!(ended, without_data(RunOutcome::Halted, count));
            assert_eq!(at_once, machine);
        }
    }
}

#[test]
fn no_budget_on_a_halt() {
    let mut rng = Rng::new(702);
    let mut twins = Twins::new(&generate::memory(&mut rng));
    for (before, noted) in all_pairs() {
        let start = noting(&mut rng, before);
        twins.plant(start.regs[PC].into(), noted.into());
        let mut machine = start;
        assert_eq!(twins.run(&mut machine, 0), spent(0));
        assert_eq!(machine, start);
    }
}

/// A second run from where the first one ended, with whatever note the caller has put there.
#[test]
fn a_second_run_on_the_same_halt() {
    let mut rng = Rng::new(703);
    let mut twins = Twins::new(&generate::memory(&mut rng));
    for (between, noted) in chosen_pairs() {
        let mut machine = noting(&mut rng, !noted);
        let pc = usize::from(machine.regs[PC]);
        twins.plant(pc, noted.into());
        for _ in 0..3 {
            assert_eq!(twins.run(&mut machine, 5), HALTED);
            assert_eq!(machine.note, noted);
            machine.note = between;
        }
        assert_eq!(twins.step(&mut machine), StepOutcome::Halted);
        assert_eq!(machine.note, noted);
        // Another HALT in the same place says its own.
        twins.plant(pc, between.into());
        assert_eq!(twins.run(&mut machine, 5), HALTED);
        assert_eq!(machine.note, between);
    }
}

/// Steps and runs, expecting one stop and an unchanged machine.
fn assert_stops(twins: &mut Twins, start: Machine, number: u8) {
    let mut machine = start;
    assert_eq!(twins.step(&mut machine), StepOutcome::Stopped(number));
    assert_eq!(twins.run(&mut machine, 3), stopped(number));
    assert_eq!(twins.run(&mut machine, 0), spent(0));
    assert_eq!(machine, start);
}

/// In the middle of a HALT, and between two of them.
#[test]
fn odd_program_counters_keep_the_note() {
    let mut rng = Rng::new(704);
    let mut twins = Twins::new(&generate::memory(&mut rng));
    for (before, noted) in chosen_pairs() {
        let mut start = noting(&mut rng, before);
        twins.plant(start.regs[PC].into(), noted.into());
        start.regs[PC] |= 1;
        assert_stops(&mut twins, start, 18);
    }
}

/// All that differ from a HALT in the bits above its note only.
#[test]
fn undefined_halfwords_keep_the_note() {
    let mut rng = Rng::new(705);
    let mut twins = Twins::new(&generate::memory(&mut rng));
    for halfword in 0x0100..0x2000u16 {
        let start = noting(&mut rng, !halfword as u8);
        twins.plant(start.regs[PC].into(), halfword);
        assert_stops(&mut twins, start, 19);
    }
}

#[test]
fn misaligned_accesses_keep_the_note() {
    let mut rng = Rng::new(706);
    let mut twins = Twins::new(&generate::memory(&mut rng));
    let forms = [Ldr { offset: 3, rb: 2, rd: 1 }, Str { offset: 31, rb: 2, rd: 1 }];
    for (before, form) in (0..=u8::MAX).flat_map(|note| forms.map(|form| (note, form))) {
        for low_bits in 1..4 {
            let mut start = noting(&mut rng, before);
            start.regs[2] = start.regs[2] & !3 | low_bits;
            twins.plant(start.regs[PC].into(), encode(form).unwrap());
            assert_stops(&mut twins, start, 20);
        }
    }
}

/// Behind steps that were completed, right beside a HALT that was not met.
#[test]
fn stops_of_a_run_keep_the_note() {
    let undefined = 0x01FF;
    let jump_to_odd = encode(MovHigh { rs: 1, rd: 15 }).unwrap();
    let askew = encode(Ldr { offset: 0, rb: 1, rd: 0 }).unwrap();
    for (halfword, number, count) in [(jump_to_odd, 18, 3), (undefined, 19, 2), (askew, 20, 2)] {
        for (before, beside) in chosen_pairs() {
            let mut twins = twins_of(&[COMPARE, COMPARE, halfword, beside.into()]);
            let mut machine = Machine { note: before, ..Machine::default() };
            machine.regs[1] = 7; // within the HALT
            let ended = twins.run(&mut machine, 10);
            assert_eq!(ended, without_data(RunOutcome::Stopped(number), count));
            assert_eq!(machine.note, before);
        }
    }
}

/// Memories that hold nothing but HALTs of another note.
#[test]
fn memories_of_another_size_keep_the_note() {
    let refusal = Refusal { number: 1, place: 0 };
    for length in [0, 1, 2, 512, 65_534, 65_535, 65_537, 65_538, 131_072] {
        for (before, noted) in chosen_pairs().step_by(7) {
            let content: Vec<u8> = [noted, 0].into_iter().cycle().take(length).collect();
            let mut memory = Guarded::new(&content);
            let start = Machine { note: before, ..Machine::default() };
            let mut machine = start;
            let outcome = library_step(&mut machine, &mut memory);
            assert_eq!(outcome, StepOutcome::Refused(refusal));
            for budget in [0, 1, u32::MAX] {
                let ended = library_run(&mut machine, &mut memory, budget);
                let refused = without_data(RunOutcome::Refused(refusal), 0);
                assert_eq!(ended, refused);
            }
            assert_eq!(machine, start);
            assert!(memory[..] == content);
            memory.assert_guards();
        }
    }
}

/// A program that writes its own HALT: the note is what stands in memory when HALT is met.
#[test]
fn a_note_that_the_program_wrote() {
    let code = [encode(Strb { offset: 2, rb: 0, rd: 1 }).unwrap(), 0x0055];
    for written in 0..=u8::MAX {
        let mut machine = Machine { note: 0xAA, ..Machine::default() };
        machine.regs[1] = 0x9900 | u16::from(written);
        let ended = twins_of(&code).run(&mut machine, 2);
        let touched = Touched::Wrote { address: 2, bytes: 1 };
        assert_eq!(ended, RunResult { outcome: RunOutcome::Halted, count: 1, touched });
        assert_eq!(machine.note, written);
    }
    // Into the byte above, where all but 0 ends in a stop or in another instruction.
    let code = [encode(Strb { offset: 3, rb: 0, rd: 1 }).unwrap(), 0x0055];
    for written in 1..=u8::MAX {
        let mut machine = Machine { note: 0xAA, ..Machine::default() };
        machine.regs[1] = written.into();
        twins_of(&code).run(&mut machine, 2);
        assert_eq!(machine.note, 0xAA, "{written:#04x}");
    }
}

/// The image that both engines make of at most a block of code, and their answer to it.
fn judged(code: &[u16]) -> (Vec<u8>, Result<Layout, Refusal>) {
    let mut file = vec![0; BLOCK_BYTES];
    paw::pack(code, 512, 4, &mut file).expect("packed, not judged");
    assert!(Ok(&file) == reference::image::pack_file(code, 512, 4).as_ref());
    let expected = reference::verifier::verify(&file);
    assert_eq!(answer(paw::verify(&file)), expected, "{code:x?}");
    (file, expected)
}

/// Images that end in each HALT, and in the halfword above them, which is undefined there.
#[test]
fn images_that_end_in_each_note() {
    for last in 0x0000..=0x0100u16 {
        let (file, verdict) = judged(&[COMPARE, last]);
        let undefined = Err(Refusal { number: 9, place: 2 });
        let fit = Ok(Layout { c: 4, w: 512, l: 4 });
        assert_eq!(verdict, if last == 0x0100 { undefined } else { fit }, "{last:#06x}");
        // The file itself is in order, whatever its code.
        assert_eq!(answer(paw::check(&file)), fit);

        let mut memory = Guarded::new(&[0xEE; MEMORY_BYTES]);
        assert_eq!(answer(paw::load(&file, &mut memory)), verdict);
        memory.assert_guards();
        if verdict.is_err() {
            assert!(memory.iter().all(|&byte| byte == 0xEE));
            continue;
        }
        let mut machine = Machine { note: !last as u8, ..Machine::default() };
        let ended = Twins::new(&memory).run(&mut machine, 10);
        assert_eq!(ended, without_data(RunOutcome::Halted, 1));
        assert_eq!(u16::from(machine.note), last);
    }
}

/// HALT alone, in the middle, and as all of the code.
#[test]
fn halts_anywhere_in_an_image() {
    for note in 0..=0x00FFu16 {
        let above = note | 0x0100;
        assert!(judged(&[note]).1.is_ok());
        assert!(judged(&[note, COMPARE, note ^ 0x0080]).1.is_ok());
        assert!(judged(&[note; 249]).1.is_ok());
        let refused = |number, place| Err(Refusal { number, place });
        assert_eq!(judged(&[note, COMPARE]).1, refused(14, 2));
        assert_eq!(judged(&[COMPARE, above, note]).1, refused(9, 2));
        assert_eq!(judged(&[note, note, above]).1, refused(9, 4));
    }
}
