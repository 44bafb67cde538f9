//! A second, slow opinion: encodings as bit patterns, the instruction pages followed line by line
//! in wide signed numbers, and memory behind a bus that logs every byte of data.

use reference::cpu::{Machine, StepOutcome};
use reference::instruction::Instruction;
use reference::traffic::Touched;
use Instruction::*;

type Make = fn(&Fields) -> Instruction;

/// Letters: s and S the parts of Rs (or the base), d and D those of Rd, i an immediate, an offset
/// or a note, c a condition.
const PATTERNS: [(&str, Make); 18] = [
    ("00000000iiiiiiii", |f| Halt { note: f.i }),
    ("00100dddiiiiiiii", |f| MovImm { rd: f.d, imm: f.i }),
    ("00101dddiiiiiiii", |f| CmpImm { rd: f.d, imm: f.i }),
    ("0100000000sssddd", |f| And { rs: f.s, rd: f.d }),
    ("0100000001sssddd", |f| Eor { rs: f.s, rd: f.d }),
    ("0100000010sssddd", |f| Asr { rs: f.s, rd: f.d }),
    ("0100000011sssddd", |f| Tst { rs: f.s, rd: f.d }),
    ("0100000100sssddd", |f| Neg { rs: f.s, rd: f.d }),
    ("0100000101sssddd", |f| Cmp { rs: f.s, rd: f.d }),
    ("01000100DSsssddd", |f| AddHigh { rs: 8 * f.high_s + f.s, rd: 8 * f.high_d + f.d }),
    ("01000101DSsssddd", |f| CmpHigh { rs: 8 * f.high_s + f.s, rd: 8 * f.high_d + f.d }),
    ("01000110DSsssddd", |f| MovHigh { rs: 8 * f.high_s + f.s, rd: 8 * f.high_d + f.d }),
    ("01100iiiiisssddd", |f| Str { offset: f.i, rb: f.s, rd: f.d }),
    ("01101iiiiisssddd", |f| Ldr { offset: f.i, rb: f.s, rd: f.d }),
    ("01110iiiiisssddd", |f| Strb { offset: f.i, rb: f.s, rd: f.d }),
    ("01111iiiiisssddd", |f| Ldrb { offset: f.i, rb: f.s, rd: f.d }),
    ("10100dddiiiiiiii", |f| AddPc { rd: f.d, imm: f.i }),
    ("1101cccciiiiiiii", |f| Branch { cond: f.c, offset: f.i }),
];

#[derive(Default)]
struct Fields {
    s: u8,
    high_s: u8,
    d: u8,
    high_d: u8,
    i: u8,
    c: u8,
}

pub fn decode(halfword: u16) -> Option<Instruction> {
    let text = format!("{halfword:016b}");
    let matches: Vec<Instruction> = PATTERNS
        .iter()
        .filter_map(|(pattern, make)| Some(make(&fields(&text, pattern)?)))
        .filter(|i| !matches!(i, Branch { cond: 14.., .. } | CmpHigh { rs: ..8, rd: ..8 }))
        .collect();
    assert!(matches.len() <= 1, "{matches:?}");
    matches.first().copied()
}

fn fields(text: &str, pattern: &str) -> Option<Fields> {
    let mut fields = Fields::default();
    for (bit, letter) in text.bytes().zip(pattern.bytes()) {
        let field = match letter {
            b's' => &mut fields.s,
            b'S' => &mut fields.high_s,
            b'd' => &mut fields.d,
            b'D' => &mut fields.high_d,
            b'i' => &mut fields.i,
            b'c' => &mut fields.c,
            fixed if fixed == bit => continue,
            _ => return None,
        };
        *field = *field << 1 | (bit - b'0');
    }
    Some(fields)
}

/// Memory, and the accesses to its data byte by byte.
struct Bus<'a> {
    memory: &'a mut [u8],
    log: Vec<(Access, usize)>,
}

#[derive(Clone, Copy, Debug, PartialEq)]
enum Access {
    Read,
    Write,
}

impl Bus<'_> {
    fn read(&mut self, address: usize) -> u8 {
        self.log.push((Access::Read, address));
        self.memory[address]
    }

    fn write(&mut self, address: usize, value: u8) {
        self.log.push((Access::Write, address));
        self.memory[address] = value;
    }

    /// All accesses as one, which they must form.
    fn traffic(mut self) -> Touched {
        self.log.sort_by_key(|&(_, address)| address);
        let Some(&(first, lowest)) = self.log.first() else {
            return Touched::NoData;
        };
        for (i, &entry) in self.log.iter().enumerate() {
            assert_eq!(entry, (first, lowest + i));
        }
        let (address, bytes) = (lowest as u16, self.log.len() as u8);
        match first {
            Access::Read => Touched::Read { address, bytes },
            Access::Write => Touched::Wrote { address, bytes },
        }
    }
}

/// One step in a memory of the right size.
pub fn step(machine: &mut Machine, memory: &mut [u8]) -> StepOutcome {
    let mut bus = Bus { memory, log: Vec::new() };
    let code = step_on(machine, &mut bus);
    let touched = bus.traffic();
    assert!(code == 0 || touched == Touched::NoData, "{code} {touched:?}");
    match code {
        0 => StepOutcome::Completed(touched),
        1 => StepOutcome::Halted,
        stop => StepOutcome::Stopped(stop),
    }
}

/// What became of a step: 0 for a completed one, 1 for HALT, otherwise the stop.
fn step_on(machine: &mut Machine, bus: &mut Bus) -> u8 {
    let pc = i32::from(machine.regs[15]);
    if pc % 2 == 1 {
        return 18;
    }
    // Not over the bus's log: a fetch is not data.
    let (low, high) = (bus.memory[pc as usize], bus.memory[pc as usize + 1]);
    let Some(instruction) = decode(u16::from(high) * 256 + u16::from(low)) else {
        return 19;
    };
    if let Str { offset, rb, .. } | Ldr { offset, rb, .. } = instruction {
        if (i32::from(machine.regs[usize::from(rb)]) + 4 * i32::from(offset)) % 4 != 0 {
            return 20;
        }
    }
    if high == 0 {
        // HALT, and the byte below is its note.
        machine.note = low;
        return 1;
    }
    let old = *machine;
    let mut next = pc + 2;
    execute(machine, bus, instruction, &mut next);
    let wrote_pc = matches!(instruction, AddHigh { rd: 15, .. } | MovHigh { rd: 15, .. });
    if !wrote_pc {
        assert_eq!(machine.regs[15], old.regs[15]);
        machine.regs[15] = wrap(next);
    }
    0
}

fn wrap(value: i32) -> u16 {
    value.rem_euclid(65_536) as u16
}

fn signed(value: i32) -> i32 {
    if value >= 32_768 {
        value - 65_536
    } else {
        value
    }
}

fn execute(m: &mut Machine, bus: &mut Bus, instruction: Instruction, next: &mut i32) {
    let old = *m;
    let reg = |r: u8| i32::from(old.regs[usize::from(r)]);
    match instruction {
        MovImm { rd, imm } => logical(m, Some(rd), imm.into()),
        MovHigh { rs, rd } => logical(m, Some(rd), reg(rs)),
        And { rs, rd } => logical(m, Some(rd), reg(rd) & reg(rs)),
        Eor { rs, rd } => logical(m, Some(rd), reg(rd) ^ reg(rs)),
        Tst { rs, rd } => logical(m, None, reg(rd) & reg(rs)),
        CmpImm { rd, imm } => subtract(m, None, reg(rd), imm.into()),
        Cmp { rs, rd } | CmpHigh { rs, rd } => subtract(m, None, reg(rd), reg(rs)),
        Neg { rs, rd } => subtract(m, Some(rd), 0, reg(rs)),
        AddHigh { rs, rd } => add(m, rd, reg(rd), reg(rs)),
        Asr { rs, rd } => shift(m, rd, reg(rd), reg(rs) % 256),
        Str { offset, rb, rd } => {
            let address = usize::from(wrap(reg(rb) + 4 * i32::from(offset)));
            bus.write(address + 1, (reg(rd) / 256) as u8);
            bus.write(address, (reg(rd) % 256) as u8);
        }
        Ldr { offset, rb, rd } => {
            let address = usize::from(wrap(reg(rb) + 4 * i32::from(offset)));
            let data = 256 * u16::from(bus.read(address + 1)) + u16::from(bus.read(address));
            m.regs[usize::from(rd)] = data;
        }
        Strb { offset, rb, rd } => {
            let address = usize::from(wrap(reg(rb) + i32::from(offset)));
            bus.write(address, (reg(rd) % 256) as u8);
        }
        Ldrb { offset, rb, rd } => {
            let address = usize::from(wrap(reg(rb) + i32::from(offset)));
            m.regs[usize::from(rd)] = bus.read(address).into();
        }
        AddPc { rd, imm } => {
            m.regs[usize::from(rd)] = wrap(reg(15) / 4 * 4 + 4 * i32::from(imm));
        }
        Branch { cond, offset } => {
            if holds(cond, &old) {
                let halfwords = i32::from(offset) - if offset > 127 { 256 } else { 0 };
                *next = reg(15) + 2 * halfwords;
            }
        }
        Halt { .. } => unreachable!("HALT is no step"),
    }
}

fn logical(m: &mut Machine, rd: Option<u8>, result: i32) {
    if let Some(rd) = rd {
        m.regs[usize::from(rd)] = wrap(result);
    }
    m.n = wrap(result) >= 0x8000;
    m.z = wrap(result) == 0;
}

fn subtract(m: &mut Machine, rd: Option<u8>, left: i32, right: i32) {
    logical(m, rd, left - right);
    m.c = left >= right;
    m.v = !(-32_768..=32_767).contains(&(signed(left) - signed(right)));
}

fn add(m: &mut Machine, rd: u8, left: i32, right: i32) {
    logical(m, Some(rd), left + right);
    m.c = left + right > 65_535;
    m.v = !(-32_768..=32_767).contains(&(signed(left) + signed(right)));
}

fn shift(m: &mut Machine, rd: u8, value: i32, amount: i32) {
    let mut result = value;
    for _ in 0..amount {
        m.c = result % 2 == 1;
        result = result / 2 + if result >= 32_768 { 32_768 } else { 0 };
    }
    logical(m, Some(rd), result);
}

fn holds(cond: u8, m: &Machine) -> bool {
    let names =
        ["eq", "ne", "cs", "cc", "mi", "pl", "vs", "vc", "hi", "ls", "ge", "lt", "gt", "le"];
    match names[usize::from(cond)] {
        "eq" => m.z,
        "ne" => !m.z,
        "cs" => m.c,
        "cc" => !m.c,
        "mi" => m.n,
        "pl" => !m.n,
        "vs" => m.v,
        "vc" => !m.v,
        "hi" => m.c && !m.z,
        "ls" => !m.c || m.z,
        "ge" => m.n == m.v,
        "lt" => m.n != m.v,
        "gt" => !m.z && m.n == m.v,
        "le" => m.z || m.n != m.v,
        name => unreachable!("{name}"),
    }
}
