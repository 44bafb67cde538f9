//! Instructions, and the words that carry them across the boundary: the kind in the top byte,
//! then the fields in their order.

use core::fmt;

use crate::{Condition, Refusal, ffi};

/// One instruction, its fields as the halfword holds them. `rd`, `rs` and `rb` are numbers of
/// registers, 0 to 7 unless it says more.
///
/// It is displayed in the manual's notation. Offsets are told in bytes, that of a branch from the
/// branch itself and with its sign. HALT's note is told even where it is 0.
///
/// ```
/// use paw::{Condition, Instruction};
///
/// let text = |halfword| paw::decode(halfword).unwrap().to_string();
/// assert_eq!(text(0x23FF), "MOV R3, #255");
/// assert_eq!(text(0x4540), "CMP R0, R8");
/// assert_eq!(text(0x6891), "LDR R1, [R2, #8]");
/// assert_eq!(text(0x7891), "LDRB R1, [R2, #2]");
/// assert_eq!(text(0xA001), "ADD R0, PC, #4");
/// assert_eq!(text(0xD0FE), "BEQ -4");
/// assert_eq!(text(0x0007), "HALT #7");
/// ```
#[derive(Clone, Copy, Debug, PartialEq, Eq, Hash)]
pub enum Instruction {
    /// MOV of an immediate.
    MovImm {
        /// The register that is set.
        rd: u8,
        /// The value.
        imm: u8,
    },
    /// CMP with an immediate.
    CmpImm {
        /// The register that is compared.
        rd: u8,
        /// What it is compared with.
        imm: u8,
    },
    /// AND.
    And {
        /// The second operand.
        rs: u8,
        /// The first operand, and where the result goes.
        rd: u8,
    },
    /// EOR.
    Eor {
        /// The second operand.
        rs: u8,
        /// The first operand, and where the result goes.
        rd: u8,
    },
    /// ASR.
    Asr {
        /// By how many bits: its low byte.
        rs: u8,
        /// What is shifted, and where the result goes.
        rd: u8,
    },
    /// TST.
    Tst {
        /// The second operand.
        rs: u8,
        /// The first operand.
        rd: u8,
    },
    /// NEG.
    Neg {
        /// What is negated.
        rs: u8,
        /// Where the result goes.
        rd: u8,
    },
    /// CMP of two low registers.
    Cmp {
        /// What is subtracted.
        rs: u8,
        /// What it is subtracted from.
        rd: u8,
    },
    /// ADD of two registers, each 0 to 15.
    AddHigh {
        /// The second operand.
        rs: u8,
        /// The first operand, and where the result goes.
        rd: u8,
    },
    /// CMP of two registers, each 0 to 15, at least one of them 8 or more.
    CmpHigh {
        /// What is subtracted.
        rs: u8,
        /// What it is subtracted from.
        rd: u8,
    },
    /// MOV between registers, each 0 to 15.
    MovHigh {
        /// What is copied.
        rs: u8,
        /// Where it goes.
        rd: u8,
    },
    /// STR.
    Str {
        /// 0 to 31, counting 4 bytes each.
        offset: u8,
        /// The base of the address.
        rb: u8,
        /// What is stored.
        rd: u8,
    },
    /// LDR.
    Ldr {
        /// 0 to 31, counting 4 bytes each.
        offset: u8,
        /// The base of the address.
        rb: u8,
        /// Where the halfword goes.
        rd: u8,
    },
    /// STRB.
    Strb {
        /// 0 to 31, counting bytes.
        offset: u8,
        /// The base of the address.
        rb: u8,
        /// Whose low byte is stored.
        rd: u8,
    },
    /// LDRB.
    Ldrb {
        /// 0 to 31, counting bytes.
        offset: u8,
        /// The base of the address.
        rb: u8,
        /// Where the byte goes.
        rd: u8,
    },
    /// ADD Rd, PC.
    AddPc {
        /// Where the sum goes.
        rd: u8,
        /// What is added, counting 4 bytes each.
        imm: u8,
    },
    /// A conditional branch.
    Branch {
        /// When it is taken.
        cond: Condition,
        /// Where it goes: instructions, 2 bytes each, from the branch itself.
        offset: i8,
    },
    /// HALT.
    Halt {
        /// Why the program ends, any byte: [`Machine::note`](crate::Machine::note) gets it.
        note: u8,
    },
}

use Instruction::*;

impl Instruction {
    /// The instruction's word.
    fn to_word(self) -> u32 {
        let (kind, a, b, c) = match self {
            MovImm { rd, imm } => (1, rd, imm, 0),
            CmpImm { rd, imm } => (2, rd, imm, 0),
            And { rs, rd } => (3, rs, rd, 0),
            Eor { rs, rd } => (4, rs, rd, 0),
            Asr { rs, rd } => (5, rs, rd, 0),
            Tst { rs, rd } => (6, rs, rd, 0),
            Neg { rs, rd } => (7, rs, rd, 0),
            Cmp { rs, rd } => (8, rs, rd, 0),
            AddHigh { rs, rd } => (9, rs, rd, 0),
            CmpHigh { rs, rd } => (10, rs, rd, 0),
            MovHigh { rs, rd } => (11, rs, rd, 0),
            Str { offset, rb, rd } => (12, offset, rb, rd),
            Ldr { offset, rb, rd } => (13, offset, rb, rd),
            Strb { offset, rb, rd } => (14, offset, rb, rd),
            Ldrb { offset, rb, rd } => (15, offset, rb, rd),
            AddPc { rd, imm } => (16, rd, imm, 0),
            Branch { cond, offset } => (17, cond.number(), offset as u8, 0),
            Halt { note } => (18, note, 0, 0),
        };
        u32::from_be_bytes([kind, a, b, c])
    }

    /// The instruction of a word, or nothing for the word 0.
    fn from_word(word: u32) -> Option<Self> {
        let [kind, a, b, c] = word.to_be_bytes();
        Some(match kind {
            0 => return None,
            1 => MovImm { rd: a, imm: b },
            2 => CmpImm { rd: a, imm: b },
            3 => And { rs: a, rd: b },
            4 => Eor { rs: a, rd: b },
            5 => Asr { rs: a, rd: b },
            6 => Tst { rs: a, rd: b },
            7 => Neg { rs: a, rd: b },
            8 => Cmp { rs: a, rd: b },
            9 => AddHigh { rs: a, rd: b },
            10 => CmpHigh { rs: a, rd: b },
            11 => MovHigh { rs: a, rd: b },
            12 => Str { offset: a, rb: b, rd: c },
            13 => Ldr { offset: a, rb: b, rd: c },
            14 => Strb { offset: a, rb: b, rd: c },
            15 => Ldrb { offset: a, rb: b, rd: c },
            16 => AddPc { rd: a, imm: b },
            17 => match Condition::from_number(a) {
                Some(cond) => Branch { cond, offset: b as i8 },
                None => panic!("libpaw.a decodes a branch with condition {a}"),
            },
            18 => Halt { note: a },
            _ => panic!("libpaw.a decodes to kind {kind}"),
        })
    }
}

impl fmt::Display for Instruction {
    fn fmt(&self, f: &mut fmt::Formatter<'_>) -> fmt::Result {
        match *self {
            MovImm { rd, imm } => write!(f, "MOV R{rd}, #{imm}"),
            CmpImm { rd, imm } => write!(f, "CMP R{rd}, #{imm}"),
            And { rs, rd } => write!(f, "AND R{rd}, R{rs}"),
            Eor { rs, rd } => write!(f, "EOR R{rd}, R{rs}"),
            Asr { rs, rd } => write!(f, "ASR R{rd}, R{rs}"),
            Tst { rs, rd } => write!(f, "TST R{rd}, R{rs}"),
            Neg { rs, rd } => write!(f, "NEG R{rd}, R{rs}"),
            Cmp { rs, rd } | CmpHigh { rs, rd } => write!(f, "CMP R{rd}, R{rs}"),
            AddHigh { rs, rd } => write!(f, "ADD R{rd}, R{rs}"),
            MovHigh { rs, rd } => write!(f, "MOV R{rd}, R{rs}"),
            Str { offset, rb, rd } => write!(f, "STR R{rd}, [R{rb}, #{}]", 4 * u16::from(offset)),
            Ldr { offset, rb, rd } => write!(f, "LDR R{rd}, [R{rb}, #{}]", 4 * u16::from(offset)),
            Strb { offset, rb, rd } => write!(f, "STRB R{rd}, [R{rb}, #{offset}]"),
            Ldrb { offset, rb, rd } => write!(f, "LDRB R{rd}, [R{rb}, #{offset}]"),
            AddPc { rd, imm } => write!(f, "ADD R{rd}, PC, #{}", 4 * u16::from(imm)),
            Branch { cond, offset } => write!(f, "B{cond} {:+}", 2 * i16::from(offset)),
            Halt { note } => write!(f, "HALT #{note}"),
        }
    }
}

/// The instruction that a halfword says, or nothing where it is undefined.
///
/// ```
/// use paw::{Condition, Instruction, decode};
///
/// assert_eq!(decode(0xA001), Some(Instruction::AddPc { rd: 0, imm: 1 }));
/// assert_eq!(decode(0xD1FE), Some(Instruction::Branch { cond: Condition::Ne, offset: -2 }));
/// assert_eq!(decode(0x0001), Some(Instruction::Halt { note: 1 }));
/// assert_eq!(decode(0x0100), None);
/// ```
#[must_use]
pub fn decode(halfword: u16) -> Option<Instruction> {
    Instruction::from_word(ffi::decode(halfword))
}

/// The halfword of an instruction; check 17 refuses fields that form none.
///
/// ```
/// use paw::{Check, Instruction};
///
/// assert_eq!(paw::encode(Instruction::Halt { note: 7 }), Ok(0x0007));
/// assert_eq!(paw::encode(Instruction::AddPc { rd: 0, imm: 1 }), Ok(0xA001));
/// let refusal = paw::encode(Instruction::AddPc { rd: 8, imm: 1 }).unwrap_err();
/// assert_eq!(refusal.check, Check::Fields);
/// ```
pub fn encode(instruction: Instruction) -> Result<u16, Refusal> {
    let answer = ffi::encode(instruction.to_word());
    let [number, halfword] = [answer as u16, (answer >> 16) as u16];
    match number {
        0 => Ok(halfword),
        1..=255 => Err(Refusal::from_numbers(number as u8, halfword)),
        _ => panic!("libpaw.a answers the encoder with {answer:#x}"),
    }
}
