use reference::generate::{any_fields, instruction, undefined_halfword, Rng};
use reference::instruction::{branch_target, decode, encode, lookup, pc_relative, Instruction};
use reference::refusal::Refusal;
use Instruction::*;

use crate::naive;

const REFUSED: Result<u16, Refusal> = Err(Refusal { number: 17, place: 0 });

#[test]
fn known_halfwords() {
    let known = [
        (0x0000, Halt { note: 0 }),
        (0x0001, Halt { note: 1 }),
        (0x00FF, Halt { note: 255 }),
        (0x21FC, MovImm { rd: 1, imm: 0xFC }),
        (0x2F80, CmpImm { rd: 7, imm: 0x80 }),
        (0x4008, And { rs: 1, rd: 0 }),
        (0x4051, Eor { rs: 2, rd: 1 }),
        (0x409A, Asr { rs: 3, rd: 2 }),
        (0x40E3, Tst { rs: 4, rd: 3 }),
        (0x412C, Neg { rs: 5, rd: 4 }),
        (0x4175, Cmp { rs: 6, rd: 5 }),
        (0x4412, AddHigh { rs: 2, rd: 2 }),
        (0x44F8, AddHigh { rs: 15, rd: 8 }),
        (0x4540, CmpHigh { rs: 8, rd: 0 }),
        (0x4580, CmpHigh { rs: 0, rd: 8 }),
        (0x4687, MovHigh { rs: 0, rd: 15 }),
        (0x6001, Str { offset: 0, rb: 0, rd: 1 }),
        (0x6FD1, Ldr { offset: 31, rb: 2, rd: 1 }),
        (0x7051, Strb { offset: 1, rb: 2, rd: 1 }),
        (0x7C3F, Ldrb { offset: 16, rb: 7, rd: 7 }),
        (0xA001, AddPc { rd: 0, imm: 1 }),
        (0xD0FF, Branch { cond: 0, offset: 0xFF }),
        (0xDD7F, Branch { cond: 13, offset: 0x7F }),
    ];
    for (halfword, instruction) in known {
        assert_eq!(decode(halfword), Some(instruction), "{halfword:#06X}");
        assert_eq!(encode(instruction), Ok(halfword), "{instruction:?}");
    }
}

#[test]
fn undefined_halfwords() {
    let undefined = [
        0x0100, 0x0101, 0x0200, 0x0800, 0x0F00, 0x1000, 0x1FFF, 0x3000, 0x3FFF, 0x4180, 0x43FF,
        0x4500, 0x453F, 0x4700, 0x47FF, 0x4800, 0x5FFF, 0x8000, 0x9FFF, 0xA800, 0xAFFF, 0xB000,
        0xC000, 0xDE00, 0xDFFF, 0xE000, 0xFFFF,
    ];
    for halfword in undefined {
        assert_eq!(decode(halfword), None, "{halfword:#06X}");
    }
}

#[test]
fn decoding_agrees_with_bit_patterns() {
    for halfword in 0..=u16::MAX {
        assert_eq!(decode(halfword), naive::decode(halfword), "{halfword:#06X}");
        assert_eq!(lookup(halfword), decode(halfword), "{halfword:#06X}");
    }
}

#[test]
fn every_halfword_returns() {
    let mut defined = 0;
    for halfword in 0..=u16::MAX {
        if let Some(instruction) = decode(halfword) {
            defined += 1;
            assert_eq!(encode(instruction), Ok(halfword));
        }
    }
    assert_eq!(defined, 19_264);
}

/// Whether fields are those of a defined instruction.
fn is_defined(instruction: Instruction) -> bool {
    match instruction {
        MovImm { rd, .. } | CmpImm { rd, .. } | AddPc { rd, .. } => rd < 8,
        And { rs, rd } | Eor { rs, rd } | Asr { rs, rd } => rs < 8 && rd < 8,
        Tst { rs, rd } | Neg { rs, rd } | Cmp { rs, rd } => rs < 8 && rd < 8,
        AddHigh { rs, rd } | MovHigh { rs, rd } => rs < 16 && rd < 16,
        CmpHigh { rs, rd } => rs < 16 && rd < 16 && (rs > 7 || rd > 7),
        Str { offset, rb, rd }
        | Ldr { offset, rb, rd }
        | Strb { offset, rb, rd }
        | Ldrb { offset, rb, rd } => offset < 32 && rb < 8 && rd < 8,
        Branch { cond, .. } => cond < 14,
        Halt { .. } => true,
    }
}

/// Encodes and checks the answer. Answers whether the instruction is defined.
fn encodes_rightly(instruction: Instruction) -> bool {
    let encoded = encode(instruction);
    if is_defined(instruction) {
        let halfword = encoded.expect("defined");
        assert_eq!(decode(halfword), Some(instruction));
        return true;
    }
    assert_eq!(encoded, REFUSED, "{instruction:?}");
    false
}

#[test]
fn encoding_of_all_fields() {
    let mut defined = 0;
    for first in 0..=255u8 {
        defined += usize::from(encodes_rightly(Halt { note: first }));
        for second in 0..=255u8 {
            defined +=
                two_fields(first, second).into_iter().filter(|&i| encodes_rightly(i)).count();
            for third in 0..=255u8 {
                defined += three_fields(first, second, third)
                    .into_iter()
                    .filter(|&i| encodes_rightly(i))
                    .count();
            }
        }
    }
    assert_eq!(defined, 19_264);
}

fn two_fields(rs: u8, rd: u8) -> [Instruction; 13] {
    let imm = rs;
    [
        MovImm { rd, imm },
        CmpImm { rd, imm },
        And { rs, rd },
        Eor { rs, rd },
        Asr { rs, rd },
        Tst { rs, rd },
        Neg { rs, rd },
        Cmp { rs, rd },
        AddHigh { rs, rd },
        CmpHigh { rs, rd },
        MovHigh { rs, rd },
        AddPc { rd, imm },
        Branch { cond: rd, offset: imm },
    ]
}

fn three_fields(offset: u8, rb: u8, rd: u8) -> [Instruction; 4] {
    [
        Str { offset, rb, rd },
        Ldr { offset, rb, rd },
        Strb { offset, rb, rd },
        Ldrb { offset, rb, rd },
    ]
}

#[test]
fn generated_instructions() {
    let mut rng = Rng::new(1);
    let mut refused = 0;
    for _ in 0..20_000 {
        assert!(encodes_rightly(instruction(&mut rng)));
        assert_eq!(decode(undefined_halfword(&mut rng)), None);
        refused += usize::from(!encodes_rightly(any_fields(&mut rng)));
    }
    assert!((2_000..18_000).contains(&refused), "{refused}");
}

#[test]
fn addresses_of_branches_and_of_pc() {
    assert_eq!(branch_target(0, 0xFF), 0xFFFE);
    assert_eq!(branch_target(256, 0x80), 0);
    assert_eq!(branch_target(10, 0x7F), 264);
    assert_eq!(branch_target(0xFFFE, 1), 0);
    assert_eq!(branch_target(6, 0), 6);
    assert_eq!(pc_relative(6, 1), 8);
    assert_eq!(pc_relative(4, 255), 1024);
    assert_eq!(pc_relative(0xFFFE, 1), 0);
}
