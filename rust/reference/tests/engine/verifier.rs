use reference::generate::{self, Rng};
use reference::image::Layout;
use reference::instruction::{encode, Instruction};
use reference::program::Program;
use reference::refusal::Refusal;
use reference::table::SAMPLE;
use reference::verifier::{verify, verify_code};
use Instruction::*;

const HALT: Instruction = Halt { note: 200 };

fn refused<T>(number: u8, place: u16) -> Result<T, Refusal> {
    Err(Refusal { number, place })
}

fn judged(instructions: &[Instruction], w: u16, l: u16) -> Result<(), Refusal> {
    let code: Vec<u16> = instructions.iter().map(|&i| encode(i).unwrap()).collect();
    verify_code(&code, w, l)
}

/// Doubles a register eight times.
fn shift_up(register: u8) -> [Instruction; 8] {
    [AddHigh { rs: register, rd: register }; 8]
}

#[test]
fn the_sample() {
    let program = |code: &[u16], l| Program { code: code.to_vec(), w: 256, l };
    assert_eq!(program(&SAMPLE, 256).verify(), Ok(Layout { c: 14, w: 256, l: 256 }));
    assert_eq!(program(&SAMPLE, 252).verify(), refused(10, 10));

    let mut odd_mask = SAMPLE;
    odd_mask[0] = 0x21FD;
    assert_eq!(program(&odd_mask, 256).verify(), refused(11, 10));

    let branch_back = [&SAMPLE[..6], &[0xD0FF], &SAMPLE[6..]].concat();
    assert_eq!(program(&branch_back, 256).verify(), refused(10, 10));

    let mut replaced = SAMPLE;
    replaced[0] = 0x4687;
    assert_eq!(program(&replaced, 256).verify(), refused(12, 0));
    let in_front = [&[0x4687], &SAMPLE[..]].concat();
    assert_eq!(program(&in_front, 256).verify(), refused(12, 0));

    assert_eq!(program(&[0xD0FF, 0], 256).verify(), refused(13, 0));
    assert_eq!(program(&[0xD0FF], 256).verify(), refused(13, 0));
}

#[test]
fn checks_of_files_come_first() {
    let mut file = Program { code: vec![0x0100], w: 256, l: 256 }.file().unwrap();
    assert_eq!(verify(&file), refused(9, 0));
    file[300] ^= 1;
    assert_eq!(verify(&file), refused(4, 0));
    assert_eq!(verify(&file[1..]), refused(2, 0));
    assert_eq!(verify(&[]), refused(2, 0));
}

#[test]
fn undefined_instructions() {
    assert_eq!(verify_code(&[0x0100, 0], 64, 4), refused(9, 0));
    assert_eq!(verify_code(&[0x2000, 0xFFFF, 0], 64, 4), refused(9, 2));
    assert_eq!(verify_code(&[0x2000, 0x4500], 64, 4), refused(9, 2));
    // Reached or not, all code counts.
    assert_eq!(verify_code(&[0x0000, 0xE000, 0], 64, 4), refused(9, 2));
}

/// Each access through R0 = base, in a window from 256 to 512.
#[test]
fn ends_of_the_window() {
    let word_cases = [(64, 0, true), (63, 1, true), (33, 31, true), (32, 31, false)];
    for (base, offset, fits) in word_cases {
        assert_eq!(access_at(4 * base, Ldr { offset, rb: 0, rd: 1 }), fits, "{base} {offset}");
        assert_eq!(access_at(4 * base, Str { offset, rb: 0, rd: 1 }), fits, "{base} {offset}");
    }
    assert!(access_at(508, Ldr { offset: 0, rb: 0, rd: 0 }));
    assert!(!access_at(508, Ldr { offset: 1, rb: 0, rd: 0 }));
    assert!(!access_at(512, Ldr { offset: 0, rb: 0, rd: 0 }));
    let byte_cases = [(256, 0, true), (255, 0, false), (255, 1, true), (225, 31, true)];
    let upper_cases = [(224, 31, false), (511, 0, true), (511, 1, false), (481, 31, false)];
    for (base, offset, fits) in byte_cases.into_iter().chain(upper_cases) {
        assert_eq!(access_at(base, Ldrb { offset, rb: 0, rd: 1 }), fits, "{base} {offset}");
        assert_eq!(access_at(base, Strb { offset, rb: 0, rd: 1 }), fits, "{base} {offset}");
    }
}

/// Whether the only possible complaint, check 10, is not made.
fn access_at(base: u16, access: Instruction) -> bool {
    let mut code = vec![MovImm { rd: 0, imm: (base >> 8) as u8 }];
    code.extend(shift_up(0));
    code.extend([MovImm { rd: 1, imm: base as u8 }, AddHigh { rs: 1, rd: 0 }]);
    code.extend([access, HALT]);
    match judged(&code, 256, 256) {
        Ok(()) => true,
        refusal => {
            assert_eq!(refusal, refused(10, 22));
            false
        }
    }
}

#[test]
fn sums_of_addresses_do_not_wrap() {
    // R0 = 0xFFFC, and 8 more would be address 4, where the window starts.
    let mut code = vec![MovImm { rd: 0, imm: 255 }];
    code.extend(shift_up(0));
    code.extend([MovImm { rd: 1, imm: 0xFC }, AddHigh { rs: 1, rd: 0 }]);
    let mut with = |access| {
        code.truncate(11);
        code.extend([access, HALT]);
        judged(&code, 28, 65_508)
    };
    assert_eq!(with(Ldr { offset: 0, rb: 0, rd: 1 }), Ok(()));
    assert_eq!(with(Ldr { offset: 8, rb: 0, rd: 1 }), refused(10, 22));
    assert_eq!(with(Ldrb { offset: 3, rb: 0, rd: 1 }), Ok(()));
    assert_eq!(with(Ldrb { offset: 4, rb: 0, rd: 1 }), refused(10, 22));
    assert_eq!(with(Strb { offset: 31, rb: 0, rd: 1 }), refused(10, 22));
}

#[test]
fn alignment_is_asked_after_the_window() {
    // R0 = 64 + (something up to 3).
    let pointer = [
        MovImm { rd: 1, imm: 3 },
        And { rs: 1, rd: 0 },
        MovImm { rd: 1, imm: 64 },
        AddHigh { rs: 1, rd: 0 },
    ];
    let with = |access, l| judged(&[&pointer[..], &[access, HALT]].concat(), 64, l);
    assert_eq!(with(Ldrb { offset: 0, rb: 0, rd: 1 }, 4), Ok(()));
    assert_eq!(with(Ldr { offset: 0, rb: 0, rd: 1 }, 4), refused(10, 8));
    assert_eq!(with(Ldr { offset: 0, rb: 0, rd: 1 }, 8), refused(11, 8));
    assert_eq!(with(Str { offset: 0, rb: 0, rd: 1 }, 8), refused(11, 8));
}

#[test]
fn two_known_zeros_are_enough() {
    // R0 is masked with 252 or 254, then 64 is added.
    let with = |mask, access| {
        let pointer = [
            MovImm { rd: 1, imm: mask },
            And { rs: 1, rd: 0 },
            MovImm { rd: 1, imm: 64 },
            AddHigh { rs: 1, rd: 0 },
        ];
        judged(&[&pointer[..], &[access, HALT]].concat(), 64, 1024)
    };
    assert_eq!(with(252, Ldr { offset: 3, rb: 0, rd: 1 }), Ok(()));
    assert_eq!(with(254, Ldr { offset: 3, rb: 0, rd: 1 }), refused(11, 8));
    assert_eq!(with(254, Ldrb { offset: 3, rb: 0, rd: 1 }), Ok(()));
}

#[test]
fn writes_to_the_pc() {
    for rs in 0..16 {
        assert_eq!(judged(&[AddHigh { rs, rd: 15 }, HALT], 64, 4), refused(12, 0));
        assert_eq!(judged(&[MovHigh { rs, rd: 15 }], 64, 4), refused(12, 0));
        assert_eq!(judged(&[AddHigh { rs, rd: 14 }, HALT], 64, 4), Ok(()));
    }
    assert_eq!(judged(&[CmpHigh { rs: 0, rd: 15 }, HALT], 64, 4), Ok(()));
}

#[test]
fn branches_stay_in_the_code() {
    let branch = |offset: i8| Branch { cond: 13, offset: offset as u8 };
    assert_eq!(judged(&[HALT, branch(-1), HALT], 64, 4), Ok(()));
    assert_eq!(judged(&[HALT, branch(-2), HALT], 64, 4), refused(13, 2));
    assert_eq!(judged(&[HALT, branch(1), HALT], 64, 4), Ok(()));
    assert_eq!(judged(&[HALT, branch(2), HALT], 64, 4), refused(13, 2));
    assert_eq!(judged(&[branch(-128), HALT], 64, 4), refused(13, 0));
    assert_eq!(judged(&[branch(127), HALT], 64, 4), refused(13, 0));
}

#[test]
fn the_last_is_halt() {
    assert_eq!(judged(&[HALT], 4, 4), Ok(()));
    assert_eq!(judged(&[MovImm { rd: 0, imm: 0 }], 4, 4), refused(14, 0));
    assert_eq!(judged(&[HALT, Branch { cond: 0, offset: 0 }], 4, 4), refused(14, 2));
    assert_eq!(judged(&[HALT, Branch { cond: 0, offset: 1 }], 4, 4), refused(13, 2));
    assert_eq!(judged(&[HALT, Ldr { offset: 0, rb: 0, rd: 0 }], 4, 4), refused(10, 2));
}

/// Code that makes R0 = 64, with something between that and a load through it.
fn load_after(between: &[Instruction]) -> Result<(), Refusal> {
    let load = Ldrb { offset: 0, rb: 0, rd: 1 };
    let code = [&[MovImm { rd: 0, imm: 64 }], between, &[load, HALT]].concat();
    judged(&code, 64, 4)
}

#[test]
fn branch_targets_forget() {
    let branch = |offset: i8| Branch { cond: 0, offset: offset as u8 };
    assert_eq!(load_after(&[]), Ok(()));
    assert_eq!(load_after(&[branch(-1)]), Ok(()), "falling past a branch");
    assert_eq!(load_after(&[branch(2)]), Ok(()), "a branch over the load");
    assert_eq!(load_after(&[branch(1)]), refused(10, 4), "a branch to the load");
}

#[test]
fn a_branch_to_itself_forgets_before_it_is_judged() {
    // R0 is known when the branch is reached, but not behind it.
    let code = [
        MovImm { rd: 0, imm: 64 },
        Branch { cond: 0, offset: 0 },
        Ldrb { offset: 0, rb: 0, rd: 1 },
        HALT,
    ];
    assert_eq!(judged(&code, 64, 4), refused(10, 4));
}

#[test]
fn later_branches_count_even_behind_a_fault() {
    let load = Ldrb { offset: 0, rb: 0, rd: 1 };
    let mut code: Vec<u16> = [MovImm { rd: 0, imm: 64 }, load].map(|i| encode(i).unwrap()).to_vec();
    code.extend([0xFFFF, 0xD0FE, 0x0000]);
    assert_eq!(verify_code(&code, 64, 4), refused(10, 2));
    code[3] = 0xD0FD;
    assert_eq!(verify_code(&code, 64, 4), refused(9, 4));
}

#[test]
fn high_registers_keep_pointers() {
    let copies = (8..15).flat_map(|high| {
        [MovHigh { rs: 0, rd: high }, MovImm { rd: 0, imm: 0 }, MovHigh { rs: high, rd: 0 }]
    });
    let copies: Vec<Instruction> = copies.collect();
    assert_eq!(load_after(&copies), Ok(()));
}

#[test]
fn pointers_from_the_pc() {
    let load = Ldr { offset: 0, rb: 0, rd: 1 };
    assert_eq!(judged(&[AddPc { rd: 0, imm: 2 }, load, HALT], 8, 4), Ok(()));
    assert_eq!(judged(&[HALT, AddPc { rd: 0, imm: 2 }, load, HALT], 8, 4), Ok(()));
    assert_eq!(judged(&[AddPc { rd: 0, imm: 3 }, load, HALT], 8, 4), refused(10, 2));
    let from_pc = |first| {
        let rest = [MovImm { rd: 1, imm: 10 }, AddHigh { rs: 1, rd: 0 }, load, HALT];
        judged(&[&[HALT, first][..], &rest].concat(), 12, 4)
    };
    assert_eq!(from_pc(MovHigh { rs: 15, rd: 0 }), Ok(()));
    let add_pc = [MovImm { rd: 0, imm: 10 }, AddHigh { rs: 15, rd: 0 }, load, HALT];
    assert_eq!(judged(&add_pc, 12, 4), Ok(()));
}

#[test]
fn the_longest_program() {
    let mut code = vec![0x2000; 15_935];
    code.push(0);
    let program = Program { code, w: 31_872, l: 4 };
    assert_eq!(program.verify(), Ok(Layout { c: 31_872, w: 31_872, l: 4 }));
    let mut last = program.clone();
    last.code[15_935] = 0x2000;
    assert_eq!(last.verify(), refused(14, 31_870));
    let mut beyond = program.clone();
    beyond.code[15_934] = 0xD002;
    assert_eq!(beyond.verify(), refused(13, 31_868));
}

#[test]
fn generated_faults() {
    let mut rng = Rng::new(8);
    for number in 9..=14 {
        let mut as_wanted = 0;
        for _ in 0..500 {
            let length = rng.between(60, 700);
            let program = generate::refused_program(&mut rng, length, number);
            assert_eq!(program.code.len(), length);
            match program.verify() {
                Err(refusal) if refusal.number == number => as_wanted += 1,
                Err(refusal) => assert!((9..=14).contains(&refusal.number)),
                Ok(layout) => assert_eq!(layout, program.layout()),
            }
        }
        assert!(as_wanted > 400, "check {number}: {as_wanted} of 500");
    }
}
