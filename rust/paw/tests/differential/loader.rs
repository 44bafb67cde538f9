//! The loader: answers and every byte of memory; then loaded programs at work, each step watched.

use std::collections::HashSet;

use Instruction::*;
use reference::audit::audit_with;
use reference::cpu::{Machine, RunOutcome, RunResult};
use reference::generate::{self, Rng};
use reference::image::{Layout, MAX_BLOCKS};
use reference::instruction::Instruction;
use reference::program::Program;
use reference::refusal::Refusal;

use crate::support::{
    Guarded, Twins, answer, library_machine, library_run, library_step, number, rounds,
};

/// Loads by both engines into memories that hold the same bytes before. Compares the answers and
/// every byte after; a refusal must leave the bytes from before.
fn loaded(file: &[u8], before: &[u8]) -> (Result<Layout, Refusal>, Guarded) {
    let mut expected_memory = before.to_vec();
    let expected = reference::loader::load(file, &mut expected_memory);
    let mut memory = Guarded::new(before);
    let answer = answer(paw::load(file, &mut memory));
    assert_eq!(answer, expected, "a file of {} bytes", file.len());
    assert!(memory[..] == expected_memory, "{answer:?}");
    assert!(answer.is_ok() || memory[..] == *before, "a refusal changed the memory");
    memory.assert_guards();
    (answer, memory)
}

#[test]
fn fit_images_of_every_number_of_blocks() {
    let mut rng = Rng::new(601);
    for blocks in 1..=MAX_BLOCKS {
        for _ in 0..rounds(5) {
            let file = generate::fit_image(&mut rng, blocks);
            let (answer, memory) = loaded(&file, &generate::memory(&mut rng));
            let Layout { c, w, l } = answer.expect("generated to be fit");
            let layout = paw::Layout { c, w, l };
            assert!(memory[layout.window()].iter().all(|&byte| byte == 0));
            let code = reference::image::code(&file);
            let bytes: Vec<u8> = code.iter().flat_map(|halfword| halfword.to_le_bytes()).collect();
            assert!(memory[layout.code()] == bytes);
        }
    }
}

#[test]
fn short_programs_fit_and_not() {
    let mut rng = Rng::new(602);
    let memories: Vec<Vec<u8>> = (0..8).map(|_| generate::memory(&mut rng)).collect();
    let mut tally = [0; 15];
    for round in 0..rounds(20_000) {
        let length = rng.between(1, 100);
        let fit = generate::fit_program(&mut rng, length);
        let program = match rng.below(3) {
            0 => fit,
            1 => generate::mutate(&mut rng, &fit),
            _ => {
                let number = rng.between(9, 14) as u8;
                generate::refused_program(&mut rng, length, number)
            }
        };
        let (answer, _) = loaded(&program.file().unwrap(), &memories[round % 8]);
        tally[number(&answer)] += 1;
    }
    assert!(tally[0] > 5_000, "{tally:?}");
    assert!(tally[9..].iter().all(|&count| count > 200), "{tally:?}");
}

#[test]
fn damaged_images() {
    let mut rng = Rng::new(603);
    let before = generate::memory(&mut rng);
    let mut tally = [0; 15];
    for round in 0..rounds(5_000) {
        let blocks = if round < MAX_BLOCKS { round + 1 } else { rng.between(1, 3) };
        let file = generate::fit_image(&mut rng, blocks);
        let (damaged, _) = generate::damage(&mut rng, &file);
        tally[number(&loaded(&damaged, &before).0)] += 1;
    }
    assert!(tally[2..=8].iter().all(|&count| count > 30), "{tally:?}");
    assert!(tally[0] > 200, "{tally:?}");
}

#[test]
fn every_end_of_a_window() {
    let mut rng = Rng::new(604);
    let before = generate::memory(&mut rng);
    for w in [4, 8, 252, 256, 260, 32_764, 32_768, 65_528, 65_532u16] {
        let room = w.wrapping_neg();
        for l in [4, 8, 12, room - 4, room] {
            let program = Program { code: vec![0x2000, 0], w, l };
            let Ok(file) = program.file() else { continue };
            let (answer, memory) = loaded(&file, &before);
            assert_eq!(answer, Ok(Layout { c: 4, w, l }));
            let end = usize::from(w) + usize::from(l);
            assert!(memory[usize::from(w)..end].iter().all(|&byte| byte == 0));
            assert!(memory[4..w.into()] == before[4..w.into()]);
            assert!(memory[end..] == before[end..]);
        }
    }
}

#[test]
fn memories_of_another_size_are_refused_first() {
    let mut rng = Rng::new(605);
    let fit = generate::fit_image(&mut rng, 2);
    let (damaged, _) = generate::damage(&mut rng, &fit);
    for length in [0, 1, 2, 512, 65_535, 65_537, 131_072] {
        let before: Vec<u8> = (0..length).map(|_| rng.u8()).collect();
        for file in [&fit[..], &damaged, &[], &fit[1..]] {
            let (answer, _) = loaded(file, &before);
            assert_eq!(answer, Err(Refusal { number: 1, place: 0 }));
        }
    }
}

/// Bytes outside code and window replaced by others.
fn with_other_surroundings(rng: &mut Rng, memory: &[u8], program: &Program) -> Vec<u8> {
    let mut other = generate::memory(rng);
    let Layout { c, w, l } = program.layout();
    let layout = paw::Layout { c, w, l };
    for part in [layout.code(), layout.window()] {
        other[part.clone()].copy_from_slice(&memory[part]);
    }
    other
}

/// Loads a fit program by the library, steps it by the library under the reference's eyes, and
/// runs it by the library in three more ways that must agree. Answers how the run ended, and with
/// which note.
fn watched(rng: &mut Rng, program: &Program, budget: u32) -> (RunResult, u8) {
    let (answer, memory) = loaded(&program.file().unwrap(), &generate::memory(rng));
    assert_eq!(answer, Ok(program.layout()), "generated to be fit");
    let mut memory = memory.to_vec();
    let window = usize::from(program.w)..usize::from(program.w) + usize::from(program.l);
    if rng.flip() {
        // A run may also start with a window that is not clear.
        memory[window.clone()].iter_mut().for_each(|byte| *byte = rng.u8());
    }
    let start = generate::start(rng);
    let (mut machine, mut audited) = (start, memory.clone());
    let ended = audit_with(library_step, program, &mut machine, &mut audited, budget)
        .unwrap_or_else(|message| panic!("{message}\n{program:x?}"));
    let same_end = |other: Machine, ended_other: RunResult, other_window: &[u8]| {
        assert_eq!((ended_other, other), (ended, machine), "{program:x?}");
        assert!(other_window == &audited[window.clone()]);
    };

    let mut twins = Twins::new(&memory);
    let mut by_run = start;
    let ended_run = twins.run(&mut by_run, budget);
    same_end(by_run, ended_run, &twins.library[window.clone()]);
    assert!(twins.library[..] == audited);

    let mut other_memory = with_other_surroundings(rng, &memory, program);
    let mut elsewhere = start;
    let ended_elsewhere = library_run(&mut elsewhere, &mut other_memory, budget);
    same_end(elsewhere, ended_elsewhere, &other_memory[window.clone()]);
    assert!(ended.outcome == RunOutcome::Halted || machine.note == start.note, "{program:x?}");
    (ended, machine.note)
}

#[test]
fn loaded_programs_do_no_harm() {
    let mut rng = Rng::new(606);
    let (mut halted, mut spent, mut steps) = (0, 0, 0);
    let mut notes = HashSet::new();
    for _ in 0..rounds(4_000) {
        let length = rng.between(1, 120);
        let program = generate::fit_program(&mut rng, length);
        let budget = rng.pick(&[0, 1, 2, 20, 150]);
        let (ended, note) = watched(&mut rng, &program, budget);
        match ended.outcome {
            RunOutcome::Halted => {
                halted += 1;
                notes.insert(note);
            }
            _ => spent += 1,
        }
        steps += ended.count as usize;
    }
    assert!(halted > rounds(300) && spent > rounds(300), "{halted} {spent}");
    assert!(notes.len() > 180, "{} notes", notes.len());
    assert!(steps > rounds(50_000), "{steps}");
}

/// Every byte as a note, from two memories that are alike in code and window only: the program ends
/// in one HALT or another by what it finds in its window.
#[test]
fn every_note_is_the_same_from_two_memories() {
    let mut rng = Rng::new(609);
    let mut ends = [0, 0];
    for (note, round) in (0..=u8::MAX).flat_map(|note| (0..rounds(8)).map(move |i| (note, i))) {
        let found_zero = Branch { cond: 0, offset: 2 };
        let program = [
            MovImm { rd: 0, imm: 64 },
            Ldrb { offset: 0, rb: 0, rd: 1 },
            CmpImm { rd: 1, imm: 0 },
            found_zero,
            Halt { note },
            Halt { note: !note },
        ];
        let program = Program::assemble(&program, 64, 4).unwrap();
        // Now and then the budget ends just before.
        let budget = 4 + u32::from(round % 4 != 0);
        let (ended, noted) = watched(&mut rng, &program, budget);
        assert_eq!(ended.count, 4);
        if ended.outcome == RunOutcome::Halted {
            assert!([note, !note].contains(&noted), "{noted}, not {note}");
            ends[usize::from(noted == note)] += 1;
        }
    }
    assert!(ends.iter().all(|&count| count > rounds(500)), "{ends:?}");
}

#[test]
fn changed_programs_that_stay_fit_do_no_harm() {
    let mut rng = Rng::new(607);
    let mut fit = 0;
    for _ in 0..rounds(3_000) {
        let length = rng.between(10, 80);
        let first = generate::fit_program(&mut rng, length);
        let program = generate::mutate(&mut rng, &first);
        if program.verify().is_ok() {
            fit += 1;
            watched(&mut rng, &program, 100);
        }
    }
    assert!(fit > rounds(500), "{fit}");
}

#[test]
fn long_programs_do_no_harm() {
    let mut rng = Rng::new(608);
    let mut steps = 0;
    for blocks in [2, 3, 8, 17, 33, 50, 63, 64] {
        for _ in 0..rounds(2) {
            let length = generate::code_length(&mut rng, blocks);
            let program = generate::fit_program(&mut rng, length);
            steps += watched(&mut rng, &program, 3_000).0.count;
        }
    }
    assert!(steps > 1_000, "{steps}");
}

#[test]
fn the_sample_at_work() {
    let program = Program { code: reference::table::SAMPLE.to_vec(), w: 256, l: 256 };
    let file = program.file().unwrap();
    for r0 in (0..=u16::MAX).step_by(17) {
        let mut memory = Guarded::new(&[0xEE; 65_536]);
        assert_eq!(paw::load(&file, &mut memory), Ok(paw::Layout { c: 14, w: 256, l: 256 }));
        let mut machine = library_machine(&Machine::default());
        machine.regs[0] = r0;
        let ended = paw::run(&mut machine, &mut memory, u32::MAX);
        let address = 256 + (r0 & 0xFC);
        let traffic = paw::Traffic::WroteHalfword(address);
        let halted = paw::Run { outcome: paw::RunOutcome::Halted, steps: 6, traffic };
        assert_eq!(ended, Ok(halted));
        assert_eq!(machine.regs[..3], [address, 0xFC, 256]);
        let written = usize::from(address);
        assert_eq!(memory[written], 0xFC);
        memory[written] = 0;
        assert!(memory[256..512].iter().all(|&byte| byte == 0));
        assert!(memory[512..].iter().all(|&byte| byte == 0xEE));
    }
}
