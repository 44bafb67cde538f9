//! Which data a step touched, and which the last step of a run: as worked out by hand, as the
//! reference tells it, and as memory and registers show it.

use std::collections::HashSet;

use Instruction::*;
use paw::Traffic::{self, *};
use reference::cpu::{MEMORY_BYTES, Machine, PC, RunOutcome, RunResult, StepOutcome};
use reference::generate::{self, Rng};
use reference::instruction::{Instruction, encode};
use reference::loader::place_code;
use reference::refusal::Refusal;
use reference::traffic::Touched;

use crate::support::{
    Guarded, Twins, library_machine, library_run, library_step, long, quick_machine, rounds,
    touched, without_data,
};

fn halfword_of(instruction: Instruction) -> u16 {
    encode(instruction).unwrap()
}

fn memory_of(code: &[u16]) -> Vec<u8> {
    let mut memory = vec![0; MEMORY_BYTES];
    place_code(code, &mut memory);
    memory
}

fn ended(outcome: RunOutcome, count: u32, last: Traffic) -> RunResult {
    RunResult { outcome, count, touched: touched(last) }
}

// What can be asked of it can be asked at compile time.
const _: () = {
    let traffic = ReadHalfword(8);
    assert!(traffic.address().is_some() && traffic.bytes() == 2 && traffic.range().end == 10);
    assert!(traffic.is_read() && !traffic.is_write());
};

#[test]
fn in_numbers_and_words() {
    // Address, number of bytes, range and words.
    let cases = [
        (NoData, None, 0, 0..0, "no data"),
        (ReadByte(4), Some(4), 1, 4..5, "read 1 byte at 4"),
        (ReadByte(65_535), Some(65_535), 1, 65_535..65_536, "read 1 byte at 65535"),
        (ReadHalfword(0), Some(0), 2, 0..2, "read 2 bytes at 0"),
        (ReadHalfword(256), Some(256), 2, 256..258, "read 2 bytes at 256"),
        (WroteByte(0), Some(0), 1, 0..1, "wrote 1 byte at 0"),
        (WroteHalfword(256), Some(256), 2, 256..258, "wrote 2 bytes at 256"),
        (WroteHalfword(65_532), Some(65_532), 2, 65_532..65_534, "wrote 2 bytes at 65532"),
    ];
    for (traffic, address, bytes, range, words) in cases {
        assert_eq!((traffic.address(), traffic.bytes()), (address, bytes), "{traffic:?}");
        assert_eq!(traffic.is_read(), words.starts_with("read "), "{traffic:?}");
        assert_eq!(traffic.is_write(), words.starts_with("wrote "), "{traffic:?}");
        assert_eq!(traffic.range(), range, "{traffic:?}");
        assert_eq!(traffic.to_string(), words);
        let completed = paw::StepOutcome::Completed(traffic).to_string();
        match traffic {
            NoData => assert_eq!(completed, "completed"),
            _ => assert_eq!(completed, format!("completed, {words}")),
        }
    }
    assert_eq!(Traffic::default(), NoData);
}

/// Runs from R0 and R1 at address 0, whose answers no engine has been asked for.
#[test]
fn worked_out_by_hand() {
    use paw::RunOutcome::{Halted, Spent, Stopped};
    use paw::Stop::{Misaligned, OddPc, Undefined};
    /// Code, R0 and R1, the budget, how the run ends, how many steps it completes, and the data.
    type Case = (&'static [u16], [u16; 2], u32, paw::RunOutcome, u32, Traffic);
    let cases: [Case; 20] = [
        // LDRB R1, [R0, #5]: 65,535 + 5 is 65,540, and without 65,536 that is 4.
        (&[0x7941], [0xFFFF, 0], 1, Spent, 1, ReadByte(4)),
        // STRB R1, [R0, #5]
        (&[0x7141], [0xFFFF, 0], 1, Spent, 1, WroteByte(4)),
        // LDRB R1, [R0, #0]; STRB R1, [R0, #0]
        (&[0x7801], [0xFFFF, 0], 1, Spent, 1, ReadByte(0xFFFF)),
        (&[0x7001], [0xFFFF, 0], 1, Spent, 1, WroteByte(0xFFFF)),
        // STR R1, [R0, #0]
        (&[0x6001], [256, 7], 1, Spent, 1, WroteHalfword(256)),
        (&[0x6001], [0xFFFC, 7], 1, Spent, 1, WroteHalfword(0xFFFC)),
        // STR R1, [R0, #124]: 65,532 + 124 is 65,536 + 120.
        (&[0x67C1], [0xFFFC, 7], 1, Spent, 1, WroteHalfword(120)),
        // LDR R1, [R0, #4]; HALT #9
        (&[0x6841, 0x0009], [256, 0], 5, Halted, 1, ReadHalfword(260)),
        (&[0x6841, 0x0009], [0xFFFC, 0], 5, Halted, 1, ReadHalfword(0)),
        (&[0x6841, 0x0009], [256, 0], 0, Spent, 0, NoData),
        // STRB R1, [R0, #0]; LDR R1, [R0, #0] from an odd base, which is stopped.
        (&[0x7001, 0x6801], [257, 7], 5, Stopped(Misaligned), 1, WroteByte(257)),
        // That LDR at once.
        (&[0x6801], [257, 7], 5, Stopped(Misaligned), 0, NoData),
        // LDRB R1, [R0, #0]; an undefined halfword.
        (&[0x7801, 0x0100], [300, 0], 5, Stopped(Undefined), 1, ReadByte(300)),
        // LDRB R1, [R0, #0]; MOV R2, #1; HALT
        (&[0x7801, 0x2201, 0x0000], [300, 0], 1, Spent, 1, ReadByte(300)),
        (&[0x7801, 0x2201, 0x0000], [300, 0], 2, Spent, 2, NoData),
        (&[0x7801, 0x2201, 0x0000], [300, 0], 3, Halted, 2, NoData),
        // LDRB R1, [R0, #0]; MOV R15, R0, which is odd.
        (&[0x7801, 0x4687], [301, 0], 5, Stopped(OddPc), 2, NoData),
        // LDRB R0, [R0, #1] twice, of which the first loads 0x40, the low byte of the second.
        (&[0x7840, 0x7840], [1, 0], 1, Spent, 1, ReadByte(2)),
        (&[0x7840, 0x7840], [1, 0], 2, Spent, 2, ReadByte(0x41)),
        // HALT
        (&[0x0000], [256, 256], 5, Halted, 0, NoData),
    ];
    for (code, [r0, r1], budget, outcome, steps, traffic) in cases {
        let mut start = paw::Machine::default();
        (start.regs[0], start.regs[1]) = (r0, r1);
        let told = paw::run(&mut start.clone(), &mut memory_of(code), budget);
        assert_eq!(told, Ok(paw::Run { outcome, steps, traffic }), "{code:x?} {budget}");
        if steps == 1 {
            let told = paw::step(&mut start, &mut memory_of(code));
            assert_eq!(told, Ok(paw::StepOutcome::Completed(traffic)), "{code:x?}");
        }
    }
}

/// One of the four accesses.
#[derive(Clone, Copy)]
struct Access {
    form: fn(u8, u8, u8) -> Instruction,
    /// How many bytes its offset counts. It also has to divide the address.
    unit: u32,
    at: fn(u16) -> Traffic,
}

const ACCESSES: [Access; 4] = [
    Access { form: |offset, rb, rd| Str { offset, rb, rd }, unit: 4, at: WroteHalfword },
    Access { form: |offset, rb, rd| Ldr { offset, rb, rd }, unit: 4, at: ReadHalfword },
    Access { form: |offset, rb, rd| Strb { offset, rb, rd }, unit: 1, at: WroteByte },
    Access { form: |offset, rb, rd| Ldrb { offset, rb, rd }, unit: 1, at: ReadByte },
];

impl Access {
    /// What it touches, unless it is stopped.
    fn traffic(self, base: u16, offset: u8) -> Option<Traffic> {
        let address = (u32::from(base) + self.unit * u32::from(offset)) % 65_536;
        (address % self.unit == 0).then(|| (self.at)(address as u16))
    }
}

/// Each access with each offset.
fn every_offset() -> impl Iterator<Item = (Access, u8)> {
    ACCESSES.into_iter().flat_map(|access| (0..32).map(move |offset| (access, offset)))
}

/// Both engines at address 0 of a memory that is the same before each step.
struct Bench {
    twins: Twins,
    original: Vec<u8>,
    completed: usize,
    stopped: usize,
}

impl Bench {
    fn new(rng: &mut Rng) -> Self {
        let original = generate::memory(rng);
        Bench { twins: Twins::new(&original), original, completed: 0, stopped: 0 }
    }

    /// Steps an access and asserts what is told: by address arithmetic; by the register, whose
    /// bytes stand in the range told; and by memory, which is the same outside of a write.
    fn step(&mut self, access: Access, [offset, rb, rd]: [u8; 3], start: Machine) {
        let instruction = (access.form)(offset, rb, rd);
        self.plant(halfword_of(instruction));
        let mut after = start;
        let outcome = self.twins.step(&mut after);
        let Some(traffic) = access.traffic(start.regs[usize::from(rb)], offset) else {
            assert_eq!(outcome, StepOutcome::Stopped(20), "{instruction:?} from {start:x?}");
            self.stopped += 1;
            return self.put_back(NoData);
        };
        let completed = StepOutcome::Completed(touched(traffic));
        assert_eq!(outcome, completed, "{instruction:?} from {start:x?}");
        self.completed += 1;
        let holder = if traffic.is_read() { after } else { start };
        let bytes = holder.regs[usize::from(rd)].to_le_bytes();
        let data = &self.twins.library[traffic.range()];
        assert_eq!(*data, bytes[..data.len()], "{instruction:?} from {start:x?}");
        self.put_back(if traffic.is_write() { traffic } else { NoData });
    }

    fn plant(&mut self, halfword: u16) {
        self.twins.plant(0, halfword);
        place_code(&[halfword], &mut self.original);
    }

    /// Puts the original bytes where some were written; then there are no others.
    fn put_back(&mut self, written: Traffic) {
        let Bench { twins, original, .. } = self;
        for memory in [&mut twins.library[..], &mut twins.reference] {
            memory[written.range()].copy_from_slice(&original[written.range()]);
            assert!(memory == original, "other bytes changed than those told: {written}");
        }
    }
}

/// Misaligned ones included, and all from which some offset wraps.
#[test]
fn every_offset_from_many_bases() {
    let mut rng = Rng::new(901);
    let mut bench = Bench::new(&mut rng);
    let spread = (0..0xFF80).step_by(131);
    let bases: Vec<u16> = (0..40).chain(spread).chain(0xFF80..=0xFFFF).collect();
    for (access, offset) in every_offset() {
        let mut start = generate::start(&mut rng);
        for &base in &bases {
            start.regs[1] = base;
            start.regs[2] = rng.u16();
            bench.step(access, [offset, 1, 2], start);
        }
    }
    // As many accesses of bytes as of halfwords, of which 4 divides a quarter, one more or less.
    let half = 2 * 32 * bases.len();
    assert_eq!(bench.completed + bench.stopped, half + half);
    assert!(bench.completed.abs_diff(half + half / 4) <= 64, "{}", bench.completed);
}

/// A base that the load overwrites or the store stores included.
#[test]
fn every_register_with_every_offset() {
    let mut rng = Rng::new(902);
    let mut bench = Bench::new(&mut rng);
    let registers = (0..8).flat_map(|rb| (0..8).map(move |rd| (rb, rd)));
    for ((rb, rd), offset) in registers.flat_map(|pair| (0..32).map(move |o| (pair, o))) {
        for access in ACCESSES {
            let mut start = quick_machine(&mut rng);
            start.regs[PC] = 0;
            bench.step(access, [offset, rb, rd], start);
        }
    }
    assert!(bench.completed > 5_000 && bench.stopped > 1_000, "{}", bench.completed);
}

/// The access is at every place where its own code is, or right beside it.
#[test]
fn accesses_to_their_own_code() {
    let mut rng = Rng::new(903);
    let mut bench = Bench::new(&mut rng);
    for (access, offset) in every_offset() {
        for address in [0, 1, 2, 3, 4, 0xFFFE, 0xFFFF] {
            let mut start = generate::start(&mut rng);
            let distance = access.unit as u16 * u16::from(offset);
            start.regs[1] = u16::wrapping_sub(address, distance);
            bench.step(access, [offset, 1, 2], start);
        }
    }
    assert_eq!((bench.completed, bench.stopped), (2 * 32 * 9, 2 * 32 * 5));
}

/// R0 and R5 are aligned and R1 is not; R5 and R6 have the last addresses for data; R4 and R7 are
/// to jump to, R4 an odd one.
fn start() -> Machine {
    let mut machine = Machine::default();
    machine.regs[..8].copy_from_slice(&[512, 0xFFFE, 0x1111, 0x2222, 1_025, 0xFFFC, 0xFFFF, 768]);
    machine
}

/// Steps that are completed from [`start`], whichever of them came before: all four accesses,
/// plain, wrapped and at the end of memory, and one without data.
const STEPS: [(Instruction, Traffic); 13] = [
    (Str { offset: 2, rb: 0, rd: 3 }, WroteHalfword(520)),
    (Str { offset: 31, rb: 5, rd: 3 }, WroteHalfword(120)),
    (Str { offset: 0, rb: 5, rd: 3 }, WroteHalfword(0xFFFC)),
    (Ldr { offset: 3, rb: 0, rd: 2 }, ReadHalfword(524)),
    (Ldr { offset: 31, rb: 5, rd: 2 }, ReadHalfword(120)),
    (Ldr { offset: 0, rb: 5, rd: 2 }, ReadHalfword(0xFFFC)),
    (Strb { offset: 5, rb: 0, rd: 3 }, WroteByte(517)),
    (Strb { offset: 31, rb: 1, rd: 3 }, WroteByte(29)),
    (Strb { offset: 0, rb: 6, rd: 3 }, WroteByte(0xFFFF)),
    (Ldrb { offset: 9, rb: 0, rd: 2 }, ReadByte(521)),
    (Ldrb { offset: 31, rb: 1, rd: 2 }, ReadByte(29)),
    (Ldrb { offset: 0, rb: 6, rd: 2 }, ReadByte(0xFFFF)),
    (MovImm { rd: 2, imm: 9 }, NoData),
];

/// Accesses that are stopped from [`start`].
const MISALIGNED: [Instruction; 2] =
    [Str { offset: 1, rb: 1, rd: 2 }, Ldr { offset: 31, rb: 1, rd: 2 }];

/// A run of both engines from [`start`].
fn run_of(code: &[u16], budget: u32) -> RunResult {
    Twins::new(&memory_of(code)).run(&mut start(), budget)
}

#[test]
fn the_last_of_two_steps_counts() {
    for ((first, told_first), (second, told)) in
        STEPS.into_iter().flat_map(|first| STEPS.map(|second| (first, second)))
    {
        let code = [halfword_of(first), halfword_of(second), 0];
        let ends = [
            ended(RunOutcome::Spent, 0, NoData),
            ended(RunOutcome::Spent, 1, told_first),
            ended(RunOutcome::Spent, 2, told),
            ended(RunOutcome::Halted, 2, told),
        ];
        for (budget, end) in (0..).zip(ends) {
            assert_eq!(run_of(&code, budget), end, "{first:?} {second:?}");
        }
    }
}

/// The ends that may stand right behind a step: HALT, undefined halfwords, misaligned accesses.
fn ends() -> Vec<(u16, RunOutcome)> {
    let halts = [0x0000, 0x0001, 0x00FF].map(|halfword| (halfword, RunOutcome::Halted));
    let undefined = [0x0100, 0x1FFF, 0xFFFF].map(|halfword| (halfword, RunOutcome::Stopped(19)));
    let misaligned = MISALIGNED.map(|access| (halfword_of(access), RunOutcome::Stopped(20)));
    [&halts[..], &undefined, &misaligned].concat()
}

#[test]
fn every_end_behind_a_step() {
    for ((step, told), (end, outcome)) in
        STEPS.into_iter().flat_map(|step| ends().into_iter().map(move |end| (step, end)))
    {
        let code = [halfword_of(step), end];
        for budget in [2, 3, 1_000, u32::MAX] {
            assert_eq!(run_of(&code, budget), ended(outcome, 1, told), "{step:?} {end:#06x}");
        }
        // Part by part, each telling of its own steps only.
        let (mut twins, mut machine) = (Twins::new(&memory_of(&code)), start());
        let nothing = ended(RunOutcome::Spent, 0, NoData);
        assert_eq!(twins.run(&mut machine, 0), nothing);
        assert_eq!(twins.run(&mut machine, 1), ended(RunOutcome::Spent, 1, told));
        assert_eq!(twins.run(&mut machine, 0), nothing);
        assert_eq!(twins.run(&mut machine, 9), ended(outcome, 0, NoData));
    }
}

/// Only a jump leads to an odd address, and is the last step then.
#[test]
fn an_odd_address_behind_a_step() {
    for (step, told) in STEPS {
        for jump in [MovHigh { rs: 4, rd: 15 }, AddHigh { rs: 4, rd: 15 }] {
            let code = [halfword_of(step), halfword_of(jump)];
            assert_eq!(run_of(&code, 1), ended(RunOutcome::Spent, 1, told));
            assert_eq!(run_of(&code, 2), ended(RunOutcome::Spent, 2, NoData));
            assert_eq!(run_of(&code, 3), ended(RunOutcome::Stopped(18), 2, NoData));
        }
        let mut odd = start();
        odd.regs[PC] = 1;
        let mut twins = Twins::new(&memory_of(&[halfword_of(step); 2]));
        assert_eq!(twins.step(&mut odd), StepOutcome::Stopped(18));
        assert_eq!(twins.run(&mut odd, 9), ended(RunOutcome::Stopped(18), 0, NoData));
    }
}

/// Branches, taken and not, jumps, and what else touches no data. HALT is wherever they lead.
fn steps_without_data() -> Vec<Instruction> {
    let others = [
        MovImm { rd: 2, imm: 0 },
        MovHigh { rs: 0, rd: 2 },
        MovHigh { rs: 7, rd: 15 },
        AddHigh { rs: 7, rd: 15 },
        AddHigh { rs: 0, rd: 2 },
        Cmp { rs: 0, rd: 0 },
        CmpHigh { rs: 15, rd: 0 },
        CmpImm { rd: 0, imm: 0 },
        And { rs: 0, rd: 2 },
        Eor { rs: 0, rd: 2 },
        Asr { rs: 0, rd: 2 },
        Tst { rs: 0, rd: 2 },
        Neg { rs: 0, rd: 2 },
        AddPc { rd: 2, imm: 255 },
    ];
    let branches = (0..14).map(|cond| Branch { cond, offset: 4 });
    branches.chain(others).collect()
}

#[test]
fn no_data_behind_an_access() {
    for ((access, told), other) in
        STEPS.into_iter().flat_map(|step| steps_without_data().into_iter().map(move |o| (step, o)))
    {
        let memory = memory_of(&[access, other].map(halfword_of));
        for [n, z, c, v] in [[false; 4], [true; 4], [true, false, false, false]] {
            let told_of = |budget| {
                let mut machine = Machine { n, z, c, v, ..start() };
                Twins::new(&memory).run(&mut machine, budget)
            };
            assert_eq!(told_of(1), ended(RunOutcome::Spent, 1, told));
            assert_eq!(told_of(2), ended(RunOutcome::Spent, 2, NoData), "{access:?} {other:?}");
            assert_eq!(told_of(3), ended(RunOutcome::Halted, 2, NoData), "{access:?} {other:?}");
        }
    }
}

/// What is told is the base from before, and the next load has the new one.
#[test]
fn loads_that_overwrite_their_base() {
    let by_halfwords = Ldr { offset: 1, rb: 1, rd: 1 };
    let by_bytes = Ldrb { offset: 1, rb: 1, rd: 1 };
    let told_by_halfwords = [ReadHalfword(516), ReadHalfword(0), ReadHalfword(0xFFFC)];
    let told_by_bytes = [ReadByte(513), ReadByte(46), ReadByte(256)];
    for (load, told) in [(by_halfwords, told_by_halfwords), (by_bytes, told_by_bytes)] {
        let code = [load; 3].map(halfword_of);
        // The code starts at 8, since there are data at 0.
        let mut memory = memory_of(&[0xFFF8, 0, 0, 0, code[0], code[1], code[2]]);
        memory[516..518].copy_from_slice(&0xFFFC_u16.to_le_bytes());
        (memory[513], memory[46]) = (45, 255);
        for (budget, last) in (1..).zip(told) {
            let mut machine = Machine::default();
            (machine.regs[1], machine.regs[PC]) = (512, 8);
            let end = Twins::new(&memory).run(&mut machine, budget);
            assert_eq!(end, ended(RunOutcome::Spent, budget, last), "{load:?}");
        }
    }
}

/// Code that a store has just written is what comes next, and tells what it then does.
#[test]
fn stores_onto_code() {
    // STR R1, [R0, #4]; MOV R2, #0; in place of HALT what R1 holds; HALT
    let code = [Str { offset: 1, rb: 0, rd: 1 }, MovImm { rd: 2, imm: 0 }].map(halfword_of);
    let written = [
        (halfword_of(Ldrb { offset: 7, rb: 0, rd: 2 }), RunOutcome::Halted, 3, ReadByte(7)),
        (halfword_of(Str { offset: 1, rb: 0, rd: 1 }), RunOutcome::Halted, 3, WroteHalfword(4)),
        (halfword_of(MovImm { rd: 2, imm: 1 }), RunOutcome::Halted, 3, NoData),
        (0x0007, RunOutcome::Halted, 2, NoData),
        (0x0100, RunOutcome::Stopped(19), 2, NoData),
    ];
    for (halfword, outcome, count, last) in written {
        let mut machine = Machine::default();
        machine.regs[1] = halfword;
        let end = Twins::new(&memory_of(&code)).run(&mut machine, 9);
        assert_eq!(end, ended(outcome, count, last), "{halfword:#06x}");
    }
    // STRB R1, [R0, #3] makes HALT behind it undefined, STRB R1, [R0, #2] keeps it HALT.
    for (offset, outcome) in [(3, RunOutcome::Stopped(19)), (2, RunOutcome::Halted)] {
        let mut machine = Machine::default();
        machine.regs[1] = 0xFF;
        let code = [halfword_of(Strb { offset, rb: 0, rd: 1 })];
        let end = Twins::new(&memory_of(&code)).run(&mut machine, 9);
        assert_eq!(end, ended(outcome, 1, WroteByte(offset.into())));
    }
    // STR R1, [R0, #0] puts LDR R1, [R0, #0] in its own place, which then loads itself.
    let load = halfword_of(Ldr { offset: 0, rb: 0, rd: 1 });
    let mut twins = Twins::new(&memory_of(&[halfword_of(Str { offset: 0, rb: 0, rd: 1 })]));
    let mut machine = Machine::default();
    machine.regs[1] = load;
    assert_eq!(twins.run(&mut machine, 9), ended(RunOutcome::Halted, 1, WroteHalfword(0)));
    machine.regs[PC] = 0;
    assert_eq!(twins.run(&mut machine, 9), ended(RunOutcome::Halted, 1, ReadHalfword(0)));
    assert_eq!(machine.regs[1], load);
}

/// Memories that hold nothing but one access.
#[test]
fn memories_of_another_size_tell_no_data() {
    let refusal = Refusal { number: 1, place: 0 };
    for (step, _) in STEPS {
        for length in [0, 1, 2, 512, 65_535, 65_537, 131_072] {
            let bytes = halfword_of(step).to_le_bytes().into_iter().cycle();
            let content: Vec<u8> = bytes.take(length).collect();
            let (mut memory, mut machine) = (Guarded::new(&content), start());
            let outcome = library_step(&mut machine, &mut memory);
            assert_eq!(outcome, StepOutcome::Refused(refusal));
            for budget in [0, 1, u32::MAX] {
                let end = library_run(&mut machine, &mut memory, budget);
                assert_eq!(end, without_data(RunOutcome::Refused(refusal), 0));
                let expected = reference::cpu::run(&mut start(), &mut content.clone(), budget);
                assert_eq!(end, expected);
            }
            assert_eq!(machine, start());
            assert!(memory[..] == content);
        }
    }
}

/// A machine and a memory from which accesses of all kinds, and all ends, are likely.
fn busy_start(rng: &mut Rng) -> (Machine, Vec<u8>) {
    let memory = (0..MEMORY_BYTES / 2).flat_map(|_| busy_halfword(rng).to_le_bytes()).collect();
    let mut machine = generate::machine(rng);
    if rng.flip() {
        machine.regs = machine.regs.map(|value| value & !3);
    }
    (machine, memory)
}

fn busy_halfword(rng: &mut Rng) -> u16 {
    match rng.below(64) {
        0 => generate::undefined_halfword(rng),
        // Bits 15 to 13 make it a load or a store, and bit 12 one of bytes, which goes on.
        1..=8 => 0b011 << 13 | rng.u16() >> 3,
        9..=32 => 0b0111 << 12 | rng.u16() >> 4,
        _ => generate::defined_halfword(rng),
    }
}

/// What each step of both engines tells, up to the first that is not completed.
fn single_steps(mut machine: Machine, memory: &[u8], most: usize) -> Vec<StepOutcome> {
    let mut twins = Twins::new(memory);
    let mut outcomes = Vec::new();
    while outcomes.len() < most && !have_ended(&outcomes) {
        outcomes.push(twins.step(&mut machine));
    }
    twins.assert_alike();
    outcomes
}

/// Whether nothing comes behind these steps, whatever the budget.
fn have_ended(outcomes: &[StepOutcome]) -> bool {
    !matches!(outcomes.last(), None | Some(StepOutcome::Completed(_)))
}

/// The end of a run that makes these steps.
fn end_of(outcomes: &[StepOutcome]) -> RunResult {
    let mut end = without_data(RunOutcome::Spent, 0);
    for &outcome in outcomes {
        match outcome {
            StepOutcome::Completed(touched) => (end.count, end.touched) = (end.count + 1, touched),
            StepOutcome::Halted => end.outcome = RunOutcome::Halted,
            StepOutcome::Stopped(number) => end.outcome = RunOutcome::Stopped(number),
            StepOutcome::Refused(_) => panic!("the memory has its size"),
        }
    }
    end
}

/// What is told, but for the address.
fn kind_of(touched: Touched) -> (bool, u8) {
    match touched {
        Touched::NoData => (false, 0),
        Touched::Read { bytes, .. } => (false, bytes),
        Touched::Wrote { bytes, .. } => (true, bytes),
    }
}

/// At every budget that cuts a run short, and at some that do not.
#[test]
fn a_run_tells_what_the_last_of_its_steps_tells() {
    let mut rng = Rng::new(904);
    let (mut steps, mut seen) = (0, HashSet::new());
    for _ in 0..rounds(400) {
        let (machine, memory) = busy_start(&mut rng);
        let outcomes = single_steps(machine, &memory, 40);
        steps += outcomes.len();
        let told = |budget| Twins::new(&memory).run(&mut machine.clone(), budget);
        for cut in 0..=outcomes.len() {
            let end = told(cut as u32);
            assert_eq!(end, end_of(&outcomes[..cut]));
            seen.insert((format!("{:?}", end.outcome), kind_of(end.touched)));
        }
        if have_ended(&outcomes) {
            assert_eq!(told(u32::MAX), end_of(&outcomes));
        }
    }
    // Each end behind each of the five kinds, but stop 18, which is behind a jump or nothing.
    assert_eq!(seen.len(), 4 * 5 + 1, "{seen:?}");
    assert!(steps > rounds(3_000), "{steps}");
}

/// Parts of any length, each telling of its own steps only.
#[test]
fn a_run_in_parts() {
    let mut rng = Rng::new(905);
    for _ in 0..rounds(400) {
        let (mut machine, memory) = busy_start(&mut rng);
        let outcomes = single_steps(machine, &memory, 40);
        let (mut twins, mut done) = (Twins::new(&memory), 0);
        while done < outcomes.len() && !have_ended(&outcomes[..done]) {
            let budget = rng.below(4).min(outcomes.len() - done);
            let end = twins.run(&mut machine, budget as u32);
            assert_eq!(end, end_of(&outcomes[done..done + budget]));
            done += budget;
        }
    }
}

/// Wherever memory changed, the step has told so, and a step that is not completed changes none:
/// behind that one it goes on at the next even address.
#[test]
fn memory_changes_where_a_write_is_told() {
    let mut rng = Rng::new(906);
    let (mut writes, mut changes) = (0, 0);
    for _ in 0..rounds(400) {
        let (start, mut before) = busy_start(&mut rng);
        let (mut machine, mut memory) = (library_machine(&start), Guarded::new(&before));
        for _ in 0..40 {
            let outcome = paw::step(&mut machine, &mut memory).unwrap();
            let traffic = match outcome {
                paw::StepOutcome::Completed(traffic) => traffic,
                paw::StepOutcome::Halted | paw::StepOutcome::Stopped(_) => NoData,
            };
            if traffic.is_write() {
                writes += 1;
                changes += usize::from(before[traffic.range()] != memory[traffic.range()]);
                before[traffic.range()].copy_from_slice(&memory[traffic.range()]);
            }
            assert!(memory[..] == before, "bytes outside of what is told changed: {outcome}");
            if !matches!(outcome, paw::StepOutcome::Completed(_)) {
                machine.regs[PC] = (machine.regs[PC] & !1).wrapping_add(2);
            }
        }
        memory.assert_guards();
    }
    assert!(writes > rounds(3_000) && changes > rounds(2_000), "{writes} {changes}");
}

/// Counts R2 down, and R0 from 65,536 in each round; then comes an access to where R3 points, and
/// an end. Every step of the countdown is one without data.
fn countdown(access: Instruction, end: u16) -> Vec<u8> {
    let code = [
        AddHigh { rs: 1, rd: 0 },
        Branch { cond: 1, offset: 255 },
        AddHigh { rs: 1, rd: 2 },
        Branch { cond: 1, offset: 253 },
        access,
    ];
    memory_of(&[&code.map(halfword_of)[..], &[end]].concat())
}

/// How many steps a countdown from R2 has, with the access.
const fn steps_from(r2: u16) -> u32 {
    r2 as u32 * (2 * 65_536 + 2) + 1
}

/// Runs a countdown from R2 in both engines. R1 is -1, and 4 does not divide R4.
fn count_down(memory: &[u8], r2: u16, r3: u16, budget: u32) -> RunResult {
    let mut machine = Machine::default();
    machine.regs[..5].copy_from_slice(&[0, 0xFFFF, r2, r3, 0xFFFD]);
    Twins::new(memory).run(&mut machine, budget)
}

/// The accesses that end a countdown, at the last address that each may have.
const AT_THE_END: [(Instruction, u16, Traffic); 4] = [
    (Strb { offset: 0, rb: 3, rd: 5 }, 0xFFFF, WroteByte(0xFFFF)),
    (Str { offset: 0, rb: 3, rd: 5 }, 0xFFFC, WroteHalfword(0xFFFC)),
    (Ldrb { offset: 0, rb: 3, rd: 5 }, 0xFFFF, ReadByte(0xFFFF)),
    (Ldr { offset: 0, rb: 3, rd: 5 }, 0xFFFC, ReadHalfword(0xFFFC)),
];

/// No part of the answer runs into another, whichever end is beside it.
#[test]
fn the_last_address_with_a_count_and_an_end() {
    let askew = halfword_of(Ldr { offset: 0, rb: 4, rd: 5 });
    let ends = [
        (0x00FF, RunOutcome::Halted),
        (0xFFFF, RunOutcome::Stopped(19)),
        (askew, RunOutcome::Stopped(20)),
    ];
    for ((access, r3, last), (end, outcome)) in
        AT_THE_END.into_iter().flat_map(|access| ends.map(|end| (access, end)))
    {
        let (memory, steps) = (countdown(access, end), steps_from(1));
        let told = |budget| count_down(&memory, 1, r3, budget);
        assert_eq!(told(u32::MAX), ended(outcome, steps, last));
        assert_eq!(told(steps), ended(RunOutcome::Spent, steps, last));
        assert_eq!(told(steps - 1), ended(RunOutcome::Spent, steps - 1, NoData));
    }
}

/// A count with bits in each of its bytes, and HALT behind the access.
#[test]
fn the_last_address_after_millions_of_steps() {
    assert_eq!(steps_from(255), 0x01FE_01FF);
    for (access, r3, last) in &AT_THE_END[..2] {
        let told = count_down(&countdown(*access, 0), 255, *r3, u32::MAX);
        assert_eq!(told, ended(RunOutcome::Halted, 0x01FE_01FF, *last));
    }
}

/// Stores at the last address until the budget is spent, which in a long test is the largest. Every
/// other step is the branch back.
#[test]
fn the_last_address_with_the_largest_count() {
    let most = if long() { u32::MAX } else { 0x00FF_FFFF };
    for (store, address, last) in &AT_THE_END[..2] {
        let back = Branch { cond: 0, offset: 255 };
        let mut memory = memory_of(&[*store, back].map(halfword_of));
        for (budget, traffic) in [(most, *last), (0x00FF_FFFE, NoData)] {
            let mut machine = paw::Machine { z: true, ..paw::Machine::default() };
            machine.regs[3] = *address;
            let told = paw::run(&mut machine, &mut memory, budget);
            let outcome = paw::RunOutcome::Spent;
            assert_eq!(told, Ok(paw::Run { outcome, steps: budget, traffic }));
        }
    }
}
