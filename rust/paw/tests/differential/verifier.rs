//! The verifier: number and place of every refusal, and what it answers to fit programs.

use Instruction::*;
use reference::audit::audit_with;
use reference::cpu::{MEMORY_BYTES, Machine};
use reference::domain::State;
use reference::generate::{self, Rng};
use reference::image::{Layout, MAX_BLOCKS, pack_file};
use reference::instruction::{Instruction, encode};
use reference::loader::place_code;
use reference::program::Program;
use reference::refusal::Refusal;
use reference::table::SAMPLE;

use crate::support::{answer, edges, library_step, number, rounds};

/// What both engines answer to a file.
fn verified_file(file: &[u8]) -> Result<Layout, Refusal> {
    let expected = reference::verifier::verify(file);
    assert_eq!(answer(paw::verify(file)), expected, "a file of {} bytes", file.len());
    expected
}

/// What both engines answer to a program.
fn verified(program: &Program) -> Result<Layout, Refusal> {
    let file = program.file().expect("the window passes check 8");
    let expected = reference::verifier::verify(&file);
    assert_eq!(answer(paw::verify(&file)), expected, "{program:x?}");
    expected
}

/// How often each answer came, a pass as number 0.
#[derive(Debug, Default)]
struct Tally([usize; 15]);

impl Tally {
    fn add(&mut self, answer: &Result<Layout, Refusal>) {
        self.0[number(answer)] += 1;
    }

    fn total(&self) -> usize {
        self.0.iter().sum()
    }

    fn assert_each(&self, numbers: impl IntoIterator<Item = usize>, least: usize) {
        for number in numbers {
            assert!(self.0[number] >= least, "answer {number}: {:?}", self.0);
        }
    }
}

#[test]
fn every_code_of_one_instruction_and_halt() {
    let windows =
        [(4, 4), (4, 65_532), (256, 256), (1_000, 24), (32_768, 32_768), (65_280, 32), (65_532, 4)];
    for (w, l) in windows {
        let mut tally = Tally::default();
        for first in 0..=u16::MAX {
            tally.add(&verified(&Program { code: vec![first, 0], w, l }));
        }
        assert_eq!((tally.0[0], tally.total()), (7_484, 65_536), "{w} {l}");
    }
}

#[test]
fn every_code_of_one_instruction() {
    let mut tally = Tally::default();
    for only in 0..=u16::MAX {
        tally.add(&verified(&Program { code: vec![only], w: 4, l: 65_532 }));
    }
    assert_eq!((tally.0[0], tally.0[9]), (256, 65_536 - 19_264));
    tally.assert_each([10, 12, 13, 14], 32);
}

#[test]
fn the_sample_with_any_one_halfword_replaced() {
    let mut tally = Tally::default();
    for place in 0..SAMPLE.len() {
        let mut code = SAMPLE.to_vec();
        for halfword in 0..=u16::MAX {
            code[place] = halfword;
            tally.add(&verified(&Program { code: code.clone(), w: 256, l: 256 }));
        }
    }
    assert_eq!(tally.total(), 7 * 65_536);
    tally.assert_each([0, 9, 10, 11, 12, 13, 14], 100);
}

#[test]
fn the_bench_table() {
    let judged = |code: &[u16], l| verified(&Program { code: code.to_vec(), w: 256, l });
    let refused = |number, place| Err(Refusal { number, place });
    assert_eq!(judged(&SAMPLE, 256), Ok(Layout { c: 14, w: 256, l: 256 }));
    assert_eq!(judged(&SAMPLE, 252), refused(10, 10));
    let with_first = |halfword| [&[halfword], &SAMPLE[1..]].concat();
    assert_eq!(judged(&with_first(0x21FD), 256), refused(11, 10));
    let branch_back = [&SAMPLE[..6], &[0xD0FF], &SAMPLE[6..]].concat();
    assert_eq!(judged(&branch_back, 256), refused(10, 10));
    assert_eq!(judged(&with_first(0x4687), 256), refused(12, 0));
    assert_eq!(judged(&[&[0x4687], &SAMPLE[..]].concat(), 256), refused(12, 0));
    assert_eq!(judged(&[0xD0FF, 0], 256), refused(13, 0));
}

#[test]
fn programs_made_to_pass_and_small_changes_of_them() {
    let mut rng = Rng::new(501);
    let (mut made, mut changed) = (Tally::default(), Tally::default());
    for _ in 0..rounds(30_000) {
        let length = rng.between(1, 70);
        let program = generate::fit_program(&mut rng, length);
        made.add(&verified(&program));
        for _ in 0..30 {
            let once = generate::mutate(&mut rng, &program);
            changed.add(&verified(&once));
            changed.add(&verified(&generate::mutate(&mut rng, &once)));
        }
    }
    assert_eq!(made.0[0], rounds(30_000));
    assert_eq!(changed.total(), rounds(1_800_000));
    changed.assert_each([0, 9, 10, 11, 12, 13, 14], 1_000);
}

#[test]
fn programs_made_to_fail_each_check() {
    let mut rng = Rng::new(502);
    for number in 9..=14 {
        let mut tally = Tally::default();
        for _ in 0..rounds(4_000) {
            let length = rng.between(45, 300);
            tally.add(&verified(&generate::refused_program(&mut rng, length, number)));
        }
        tally.assert_each([number.into()], rounds(3_000));
    }
}

#[test]
fn random_programs() {
    let mut rng = Rng::new(503);
    let mut tally = Tally::default();
    for _ in 0..rounds(200_000) {
        let length = rng.between(1, 12);
        let mut program = generate::random_program(&mut rng, length);
        if rng.flip() {
            program.code.push(0);
            (program.w, program.l) = generate::window(&mut rng, length + 1);
        }
        tally.add(&verified(&program));
    }
    tally.assert_each([0, 10, 12, 13, 14], 1_000);
}

/// A computation, then an access through register `rb`. The window's ends are where the reference
/// believes that the access may begin and end, or one place on, so that a bound that is off by a
/// little, or a count off by one, gives another answer.
fn sharp_program(rng: &mut Rng, computation: &[Instruction], rb: u8) -> Program {
    // Moves most pointers past the code, where a window may begin.
    let move_up = [MovImm { rd: 3, imm: rng.u8() | 64 }, AddHigh { rs: 3, rd: rb }];
    let mut code = [computation, &move_up].concat();
    let base = state_after(&code).get(rb, 0);
    let (offset, rd) = (rng.below(32) as u8, rng.below(3) as u8);
    let (access, scale, size) = match rng.below(4) {
        0 => (Str { offset, rb, rd }, 4, 2),
        1 => (Ldr { offset, rb, rd }, 4, 2),
        2 => (Strb { offset, rb, rd }, 1, 1),
        _ => (Ldrb { offset, rb, rd }, 1, 1),
    };
    code.extend([access, Halt { note: rng.u8() }]);
    let offset = u32::from(offset) * scale;
    let first = (u32::from(base.low) + offset) & !3;
    let end = (u32::from(base.high) + offset + size + 3) & !3;
    let code_end = 2 * code.len() as u32;
    let w = (first + rng.pick(&[0, 0, 0, 4])).clamp(code_end + 3, 65_532) & !3;
    let end = end.saturating_sub(rng.pick(&[0, 0, 0, 4])).clamp(w + 4, 65_536);
    Program::assemble(&code, w as u16, (end - w) as u16).unwrap()
}

/// What the reference knows behind code without branches.
fn state_after(code: &[Instruction]) -> State {
    let mut state = State::UNKNOWN;
    for (number, &instruction) in code.iter().enumerate() {
        state.apply(instruction, 2 * number as u16);
    }
    state
}

/// An instruction that the verifier follows, on R0 to R2, with R8 as a store.
fn computation(rng: &mut Rng) -> Instruction {
    let (rs, rd) = (rng.below(3) as u8, rng.below(3) as u8);
    let imm = match rng.below(3) {
        0 => rng.u8(),
        1 => 1 << rng.below(8),
        _ => rng.u8() & 0xFC,
    };
    match rng.below(14) {
        0..=3 => MovImm { rd, imm },
        4 => AddPc { rd, imm },
        5 => MovHigh { rs: rng.pick(&[rs, 8, 15]), rd: rng.pick(&[rd, 8]) },
        6..=8 => AddHigh { rs: rng.pick(&[rs, rs, 15]), rd },
        9 => And { rs, rd },
        10 => Eor { rs, rd },
        11 => Asr { rs, rd },
        12 => Neg { rs, rd },
        _ => rng.pick(&[Cmp { rs, rd }, Tst { rs, rd }, CmpImm { rd, imm }, And { rs, rd }]),
    }
}

#[test]
fn windows_at_the_very_bounds() {
    let mut rng = Rng::new(504);
    let mut tally = Tally::default();
    for _ in 0..rounds(1_000_000) {
        let length = rng.between(1, 8);
        let code: Vec<Instruction> = (0..length).map(|_| computation(&mut rng)).collect();
        // The register of which most is known.
        let state = state_after(&code);
        let rb = (0..3).min_by_key(|&register| state.get(register, 0).high).unwrap();
        tally.add(&verified(&sharp_program(&mut rng, &code, rb)));
    }
    tally.assert_each([0, 10, 11], rounds(50_000));
}

/// Puts a value into a register, with R3 as a helper.
fn constant(register: u8, value: u16) -> Vec<Instruction> {
    let [high, low] = value.to_be_bytes();
    let mut code = vec![MovImm { rd: register, imm: high }];
    code.extend([AddHigh { rs: register, rd: register }; 8]);
    code.extend([MovImm { rd: 3, imm: low }, AddHigh { rs: 3, rd: register }]);
    code
}

/// Every rule on operands at the values where rules change: R0 from 0 to one of them, and R2 equal
/// to another.
#[test]
fn bounds_where_the_rules_change() {
    let mut rng = Rng::new(508);
    let mut tally = Tally::default();
    let rules = [
        AddHigh { rs: 2, rd: 0 },
        And { rs: 2, rd: 0 },
        Eor { rs: 2, rd: 0 },
        Asr { rs: 2, rd: 0 },
        Neg { rs: 2, rd: 0 },
        MovHigh { rs: 2, rd: 0 },
    ];
    let edges = edges();
    for (&first, &second) in edges.iter().flat_map(|a| edges.iter().map(move |b| (a, b))) {
        let operands = [constant(1, first), vec![And { rs: 1, rd: 0 }], constant(2, second)];
        for rule in rules {
            let code = [operands.concat(), vec![rule]].concat();
            tally.add(&verified(&sharp_program(&mut rng, &code, 0)));
        }
    }
    assert_eq!(tally.total(), 96 * 96 * 6);
    tally.assert_each([0, 10, 11], 2_000);
}

#[test]
fn images_of_every_number_of_blocks() {
    let mut rng = Rng::new(505);
    let mut tally = Tally::default();
    for blocks in 1..=MAX_BLOCKS {
        let length = generate::code_length(&mut rng, blocks);
        let fit = generate::fit_program(&mut rng, length);
        assert_eq!(verified(&fit), Ok(fit.layout()));
        for number in 9..=14 {
            let length = generate::code_length(&mut rng, blocks);
            tally.add(&verified(&generate::refused_program(&mut rng, length, number)));
        }
        for _ in 0..rounds(10) {
            tally.add(&verified(&generate::mutate(&mut rng, &fit)));
            let (damaged, _) = generate::damage(&mut rng, &fit.file().unwrap());
            tally.add(&verified_file(&damaged));
        }
    }
    tally.assert_each(9..=14, 20);
    tally.assert_each(2..=7, 5);
}

#[test]
fn damaged_images() {
    let mut rng = Rng::new(506);
    let mut tally = Tally::default();
    for _ in 0..rounds(2_000) {
        let blocks = rng.between(1, 3);
        let file = generate::fit_image(&mut rng, blocks);
        for _ in 0..50 {
            let (damaged, _) = generate::damage(&mut rng, &file);
            tally.add(&verified_file(&damaged));
        }
    }
    tally.assert_each([0, 2, 3, 4, 5, 6, 7, 8, 9, 10], 500);
    assert_eq!(tally.total(), rounds(100_000));
}

/// Every distance from a branch to its target, at both ends and in the middle of long code.
#[test]
fn every_branch_distance() {
    let mut tally = Tally::default();
    for length in [1usize, 2, 3, 64, 130, 300] {
        let middle = length / 2;
        for place in [0, 1, middle, length.saturating_sub(2), length - 1] {
            for offset in 0..=255 {
                let mut code = vec![encode(CmpImm { rd: 0, imm: 0 }).unwrap(); length];
                code[length - 1] = 0;
                code[place.min(length - 1)] = encode(Branch { cond: 13, offset }).unwrap();
                tally.add(&verified(&Program { code, w: 1_000, l: 4 }));
            }
        }
    }
    tally.assert_each([0, 13, 14], 300);
}

/// A pointer, a load through it, and a branch from anywhere to anywhere: facts are forgotten where
/// some branch goes, and nowhere else.
#[test]
fn every_pair_of_branch_and_target() {
    let known = [MovImm { rd: 0, imm: 200 }, Ldrb { offset: 0, rb: 0, rd: 1 }];
    let chunks: Vec<Instruction> = known.repeat(20);
    let length = chunks.len() as u16 + 2;
    let mut tally = Tally::default();
    for place in 0..length - 1 {
        for target in 0..length {
            let mut code = chunks.clone();
            let offset = target.wrapping_sub(place) as u8;
            code.insert(place.into(), Branch { cond: 3, offset });
            code.push(Halt { note: place as u8 });
            let program = Program::assemble(&code, 200, 4).unwrap();
            let answer = verified(&program);
            // The loads stand at odd places before the branch and at even ones behind it.
            let is_load =
                if target < place { target % 2 == 1 } else { target > place && target % 2 == 0 };
            let at_branch = target == place && place % 2 == 1;
            let forgets = (is_load && target < length - 1) || at_branch;
            assert_eq!(answer.is_err(), forgets, "{place} {target}");
            tally.add(&answer);
        }
    }
    tally.assert_each([0, 10], 500);
}

#[test]
fn files_that_are_no_images() {
    let mut rng = Rng::new(507);
    assert_eq!(verified_file(&[]), Err(Refusal { number: 2, place: 0 }));
    for length in [1, 2, 256, 511, 512, 513, 1_024, 32_768, 33_280, 70_000] {
        for _ in 0..rounds(50) {
            let bytes: Vec<u8> = (0..length).map(|_| rng.u8()).collect();
            let expected = if length % 512 == 0 && length <= 32_768 { 3 } else { 2 };
            assert_eq!(number(&verified_file(&bytes)), expected);
        }
    }
    // An image with its first block's sum wrong is refused for that, whatever its code.
    let mut file = pack_file(&[0x0100], 256, 256).unwrap();
    assert_eq!(number(&verified_file(&file)), 9);
    file[511] ^= 0x80;
    assert_eq!(number(&verified_file(&file)), 4);
}

/// Programs that a verifier with one check missing or weakened would pass, each with a start from
/// which its run breaks demand 3. Both engines refuse them, and the audit says what the check bars.
#[test]
fn what_weaker_verifiers_would_pass() {
    /// Code, window, the refusal, R0, R1 and Z at the start, and what the run then does.
    type Case = (&'static [u16], (u16, u16), (u8, u16), (u16, u16, bool), &'static str);
    let cases: [Case; 4] = [
        // Facts kept at a landing place: BEQ +2 skips MOV R0, #16; STR R1, [R0]; HALT.
        (
            &[0xD002, 0x2010, 0x6001, 0x0000],
            (16, 4),
            (10, 4),
            (0, 0xABCD, true),
            "after 1 steps: access outside the window to 0",
        ),
        // Check 10 by sums that wrap: STRB R1, [R0, #31] with any R0; HALT.
        (
            &[0x77C1, 0x0000],
            (8, 24),
            (10, 0),
            (0xFFE1, 0xAB, false),
            "after 0 steps: access outside the window to 0",
        ),
        // No check 14: MOV R0, #0 and no HALT.
        (&[0x2000], (4, 4), (14, 0), (0, 0, false), "after 1 steps: fetch outside the code at 2"),
        // No check 12: MOV R15, R0; HALT.
        (&[0x4687, 0x0000], (4, 4), (12, 0), (1, 0, false), "after 1 steps: odd fetch at 1"),
    ];
    for (code, (w, l), (number, place), (r0, r1, z), breaks) in cases {
        let program = Program { code: code.to_vec(), w, l };
        assert_eq!(verified(&program), Err(Refusal { number, place }), "{program:x?}");
        let mut memory = vec![0; MEMORY_BYTES];
        place_code(code, &mut memory);
        let mut machine = Machine { z, ..Machine::default() };
        (machine.regs[0], machine.regs[1]) = (r0, r1);
        let said = audit_with(library_step, &program, &mut machine, &mut memory, 10).unwrap_err();
        assert!(said.starts_with(breaks), "{program:x?}: {said}");
    }
}
