//! The decoder and the encoder against the reference engine, on every input there is.

use paw::{Condition, Instruction as Proved};
use reference::instruction::Instruction as Expected;

use crate::support::refusal;

/// Makes an instruction of the same kind and fields for either engine.
macro_rules! both {
    ($($variant:ident { $($field:ident),* }),* $(,)?) => {
        /// The proved engine's instruction, as the reference writes it.
        fn translated(instruction: Proved) -> Expected {
            match instruction {
                $(Proved::$variant { $($field),* } => Expected::$variant { $($field),* },)*
                Proved::Branch { cond, offset } => {
                    Expected::Branch { cond: cond.number(), offset: offset as u8 }
                }
            }
        }
    };
}

both! {
    MovImm { rd, imm }, CmpImm { rd, imm },
    And { rs, rd }, Eor { rs, rd }, Asr { rs, rd }, Tst { rs, rd }, Neg { rs, rd }, Cmp { rs, rd },
    AddHigh { rs, rd }, CmpHigh { rs, rd }, MovHigh { rs, rd },
    Str { offset, rb, rd }, Ldr { offset, rb, rd }, Strb { offset, rb, rd }, Ldrb { offset, rb, rd },
    AddPc { rd, imm }, Halt { note },
}

fn same_encoding(instruction: Proved) {
    let expected = reference::instruction::encode(translated(instruction));
    let answer = paw::encode(instruction).map_err(refusal);
    assert_eq!(answer, expected, "{instruction:?}");
}

#[test]
fn every_halfword_decodes_alike() {
    let mut defined = 0;
    for halfword in 0..=u16::MAX {
        let answer = paw::decode(halfword);
        assert_eq!(
            answer.map(translated),
            reference::instruction::decode(halfword),
            "{halfword:#06x}"
        );
        if let Some(instruction) = answer {
            defined += 1;
            assert_eq!(paw::encode(instruction), Ok(halfword));
        }
    }
    assert_eq!(defined, 19_264);
}

/// The halfwords below 0x2000: 256 of them are HALT, each with its low byte, and the others none.
#[test]
fn every_halt() {
    for halfword in 0..0x2000 {
        let expected = u8::try_from(halfword).ok().map(|note| Proved::Halt { note });
        assert_eq!(paw::decode(halfword), expected, "{halfword:#06x}");
    }
    for note in 0..=u8::MAX {
        assert_eq!(paw::encode(Proved::Halt { note }), Ok(note.into()));
        same_encoding(Proved::Halt { note });
    }
}

#[test]
fn every_pair_of_fields_encodes_alike() {
    let forms: [fn(u8, u8) -> Proved; 12] = [
        |rd, imm| Proved::MovImm { rd, imm },
        |rd, imm| Proved::CmpImm { rd, imm },
        |rs, rd| Proved::And { rs, rd },
        |rs, rd| Proved::Eor { rs, rd },
        |rs, rd| Proved::Asr { rs, rd },
        |rs, rd| Proved::Tst { rs, rd },
        |rs, rd| Proved::Neg { rs, rd },
        |rs, rd| Proved::Cmp { rs, rd },
        |rs, rd| Proved::AddHigh { rs, rd },
        |rs, rd| Proved::CmpHigh { rs, rd },
        |rs, rd| Proved::MovHigh { rs, rd },
        |rd, imm| Proved::AddPc { rd, imm },
    ];
    for form in forms {
        for a in 0..=u8::MAX {
            for b in 0..=u8::MAX {
                same_encoding(form(a, b));
            }
        }
    }
}

/// Numbers that are no conditions have no instruction here; `tests/firmware.c` encodes them too.
#[test]
fn every_branch_encodes_alike() {
    for cond in Condition::ALL {
        for offset in i8::MIN..=i8::MAX {
            same_encoding(Proved::Branch { cond, offset });
        }
    }
}

#[test]
fn every_triple_of_fields_encodes_alike() {
    let forms: [fn(u8, u8, u8) -> Proved; 4] = [
        |offset, rb, rd| Proved::Str { offset, rb, rd },
        |offset, rb, rd| Proved::Ldr { offset, rb, rd },
        |offset, rb, rd| Proved::Strb { offset, rb, rd },
        |offset, rb, rd| Proved::Ldrb { offset, rb, rd },
    ];
    for form in forms {
        for word in 0..1 << 24 {
            let [_, a, b, c] = u32::to_be_bytes(word);
            same_encoding(form(a, b, c));
        }
    }
}
