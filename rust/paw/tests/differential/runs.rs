//! Runs with a budget: wild code, code that changes itself, code at the end of memory, and code
//! that goes on for long.

use std::collections::HashSet;

use Instruction::*;
use reference::cpu::{MEMORY_BYTES, Machine, PC, RunOutcome, RunResult, StepOutcome};
use reference::generate::{self, Rng};
use reference::instruction::{Instruction, encode};
use reference::loader::place_code;
use reference::refusal::Refusal;

use crate::support::{Guarded, Twins, library_run, rounds, without_data};

/// How often runs ended in which way, and how many steps they made.
#[derive(Default)]
struct Tally {
    spent: usize,
    halted: usize,
    /// Stops 18 to 20.
    stopped: [usize; 3],
    steps: usize,
}

impl Tally {
    fn add(&mut self, ended: RunResult) {
        self.steps += ended.count as usize;
        match ended.outcome {
            RunOutcome::Spent => self.spent += 1,
            RunOutcome::Halted => self.halted += 1,
            RunOutcome::Stopped(number) => self.stopped[usize::from(number) - 18] += 1,
            RunOutcome::Refused(_) => panic!("the memory has its size"),
        }
    }
}

/// 0, 1 and 2 often, otherwise anything up to a large budget.
fn budget(rng: &mut Rng) -> u32 {
    match rng.below(8) {
        small @ 0..=2 => small as u32,
        3 | 4 => rng.below(100) as u32,
        5 | 6 => rng.below(5_000) as u32,
        _ => 20_000,
    }
}

/// Runs from many machines, one after the other, in a memory that keeps what they wrote.
fn run_often(rng: &mut Rng, memory: &[u8], times: usize, tally: &mut Tally) {
    let mut twins = Twins::new(memory);
    for _ in 0..times {
        let mut machine = generate::machine(rng);
        let budget = budget(rng);
        tally.add(twins.run(&mut machine, budget));
    }
}

#[test]
fn random_bytes() {
    let mut rng = Rng::new(201);
    let mut tally = Tally::default();
    for _ in 0..rounds(40) {
        let memory = generate::memory(&mut rng);
        run_often(&mut rng, &memory, 300, &mut tally);
    }
    assert!(tally.spent > 1_500 && tally.stopped[1] > 5_000, "{:?}", tally.stopped);
    assert!(tally.stopped[0] > 200 && tally.stopped[2] > 100, "{:?}", tally.stopped);
    assert!(tally.steps > 3_000, "{}", tally.steps);
}

#[test]
fn random_instructions() {
    let mut rng = Rng::new(202);
    let mut tally = Tally::default();
    for _ in 0..rounds(40) {
        let memory = generate::executable_memory(&mut rng);
        run_often(&mut rng, &memory, 500, &mut tally);
    }
    assert!(tally.spent > 5_000 && tally.halted > 200, "{} {}", tally.spent, tally.halted);
    assert!(tally.stopped.iter().all(|&stops| stops > 50), "{:?}", tally.stopped);
    assert!(tally.steps > 500_000, "{}", tally.steps);
}

/// An instruction that cannot stop a run: accesses are of bytes, and R15 is not written. Stores are
/// rare, since what they store over code can stop a run.
fn lasting_halfword(rng: &mut Rng) -> u16 {
    loop {
        match generate::instruction(rng) {
            Halt { .. } | Ldr { .. } | Str { .. } => {}
            AddHigh { rd: 15, .. } | MovHigh { rd: 15, .. } => {}
            Strb { .. } if !rng.one_in(50) => {}
            kept => return encode(kept).unwrap(),
        }
    }
}

fn lasting_memory(rng: &mut Rng) -> Vec<u8> {
    (0..MEMORY_BYTES / 2).flat_map(|_| lasting_halfword(rng).to_le_bytes()).collect()
}

#[test]
fn long_runs_of_wild_code() {
    let mut rng = Rng::new(203);
    let mut tally = Tally::default();
    for _ in 0..rounds(40) {
        let memory = lasting_memory(&mut rng);
        run_often(&mut rng, &memory, 100, &mut tally);
    }
    assert!(tally.steps > 5_000_000, "{}", tally.steps);
}

/// Code that often writes into the instructions right before and behind it, and registers R4 to R7
/// that hold instructions to be written.
fn changing_code(rng: &mut Rng, length: usize) -> (Vec<u8>, Machine) {
    let mut code = Vec::new();
    while code.len() < length {
        let rb = rng.below(4) as u8;
        let rd = rng.between(4, 7) as u8;
        code.push(AddPc { rd: rb, imm: rng.below(4) as u8 });
        code.push(match rng.below(4) {
            0 => Strb { offset: rng.below(8) as u8, rb, rd },
            _ => Str { offset: rng.below(3) as u8, rb, rd },
        });
        for _ in 0..rng.below(4) {
            code.push(harmless(rng));
        }
        if rng.one_in(4) {
            let back = rng.below(code.len().min(20) + 1) as u8;
            code.push(Branch { cond: rng.below(14) as u8, offset: back.wrapping_neg() });
        }
    }
    let mut memory = vec![0; MEMORY_BYTES];
    let code: Vec<u16> = code.into_iter().map(|i| encode(i).unwrap()).collect();
    place_code(&code, &mut memory);
    let mut machine = generate::start(rng);
    for register in 4..8 {
        machine.regs[register] = encode(harmless(rng)).unwrap();
    }
    (memory, machine)
}

/// An instruction that leaves R4 to R7 and R15 alone and cannot stop.
fn harmless(rng: &mut Rng) -> Instruction {
    let (rs, rd) = (rng.below(8) as u8, rng.below(4) as u8);
    match rng.below(6) {
        0 => MovImm { rd, imm: rng.u8() },
        1 => CmpImm { rd: rs, imm: rng.u8() },
        2 => Eor { rs, rd },
        3 => Neg { rs, rd },
        4 => AddHigh { rs, rd },
        _ => Cmp { rs, rd },
    }
}

/// Steps the reference and counts the completed steps whose instruction an earlier step of this
/// run had changed.
fn steps_of_new_code(mut machine: Machine, memory: &[u8], budget: u32) -> usize {
    let mut memory = memory.to_vec();
    let mut changed = HashSet::new();
    let mut count = 0;
    for _ in 0..budget {
        let pc = usize::from(machine.regs[PC]);
        let near = pc.saturating_sub(64)..(pc + 64).min(MEMORY_BYTES);
        let before = memory[near.clone()].to_vec();
        let outcome = reference::cpu::step(&mut machine, &mut memory);
        if !matches!(outcome, StepOutcome::Completed(_)) {
            break;
        }
        count += usize::from(changed.contains(&(pc & !1)));
        let is_new = |at: &usize| memory[*at] != before[*at - near.start];
        changed.extend(near.clone().filter(is_new).map(|at| at & !1));
    }
    count
}

#[test]
fn code_that_changes_itself() {
    let mut rng = Rng::new(204);
    let (mut of_new_code, mut tally) = (0, Tally::default());
    for _ in 0..rounds(2_000) {
        let (memory, start) = changing_code(&mut rng, 60);
        of_new_code += steps_of_new_code(start, &memory, 200);
        let mut twins = Twins::new(&memory);
        tally.add(twins.run(&mut start.clone(), 200));
        // The same again in one's and two's, from memory as it was.
        let (mut twins, mut machine) = (Twins::new(&memory), start);
        for part in 1..=30 {
            tally.add(twins.run(&mut machine, part % 3));
        }
    }
    assert!(of_new_code > 20_000, "{of_new_code} of {}", tally.steps);
}

#[test]
fn after_the_last_address_comes_the_first() {
    let mut rng = Rng::new(205);
    let (mut wrapped, mut tally) = (0, Tally::default());
    let mut memory = lasting_memory(&mut rng);
    for _ in 0..rounds(500) {
        for place in 0..128 {
            // The code around the wrap is new each time.
            let at = (0xFF80 + 2 * place) % MEMORY_BYTES;
            memory[at..at + 2].copy_from_slice(&lasting_halfword(&mut rng).to_le_bytes());
        }
        let up = Branch { cond: rng.below(14) as u8, offset: rng.below(20) as u8 };
        let down = Branch { cond: rng.below(14) as u8, offset: rng.between(236, 255) as u8 };
        memory[0xFFF8..0xFFFA].copy_from_slice(&encode(up).unwrap().to_le_bytes());
        memory[8..10].copy_from_slice(&encode(down).unwrap().to_le_bytes());
        let mut twins = Twins::new(&memory);
        for start in [0xFFF4, 0xFFF8, 0xFFFC, 0xFFFE] {
            let mut machine = generate::machine(&mut rng);
            machine.regs[PC] = start;
            for _ in 0..12 {
                let before = machine.regs[PC];
                tally.add(twins.run(&mut machine, 1));
                wrapped += usize::from(before == 0xFFFE && machine.regs[PC] == 0);
            }
            tally.add(twins.run(&mut machine, 100));
        }
    }
    assert!(wrapped > rounds(1_000), "{wrapped}");
    assert!(tally.steps > rounds(100_000), "{}", tally.steps);
}

#[test]
fn odd_starts_stop_at_once() {
    let mut rng = Rng::new(206);
    let memory = generate::executable_memory(&mut rng);
    let mut twins = Twins::new(&memory);
    for _ in 0..rounds(2_000) {
        let mut machine = generate::machine(&mut rng);
        machine.regs[PC] |= 1;
        let before = machine;
        let unspent = twins.run(&mut machine, 0);
        assert_eq!(unspent, without_data(RunOutcome::Spent, 0));
        let budget = rng.between(1, u32::MAX as usize) as u32;
        let stopped = twins.run(&mut machine, budget);
        assert_eq!(stopped, without_data(RunOutcome::Stopped(18), 0));
        assert_eq!(machine, before);
    }
    assert!(twins.library[..] == memory);
}

/// A countdown from R0 in steps of R1, 3 steps a round, then HALT, an undefined halfword or an odd
/// jump: the greatest budgets are never spent on it.
fn countdown(end: u16) -> Vec<u8> {
    let code =
        [AddHigh { rs: 1, rd: 0 }, CmpImm { rd: 0, imm: 0 }, Branch { cond: 1, offset: 254 }];
    let mut memory = vec![0; MEMORY_BYTES];
    place_code(&code.map(|i| encode(i).unwrap()), &mut memory);
    place_code(&[end], &mut memory[6..]);
    memory
}

#[test]
fn budgets_around_the_end() {
    let jump = encode(MovHigh { rs: 2, rd: 15 }).unwrap();
    let stray = encode(Ldr { offset: 0, rb: 2, rd: 3 }).unwrap();
    for (end, outcome, more) in [
        (0x0000, RunOutcome::Halted, 0),
        (0x0007, RunOutcome::Halted, 0),
        (0x00FF, RunOutcome::Halted, 0),
        (0x0100, RunOutcome::Stopped(19), 0),
        (0xFFFF, RunOutcome::Stopped(19), 0),
        (jump, RunOutcome::Stopped(18), 1),
        (stray, RunOutcome::Stopped(20), 0),
    ] {
        for start in [1u32, 2, 1_000, 65_535] {
            let steps = 3 * start + more;
            let budgets = [0, 1, 2, steps - 1, steps, steps + 1, steps + 2, 1 << 31, u32::MAX];
            for budget in budgets {
                let mut twins = Twins::new(&countdown(end));
                let mut machine = Machine { note: 0x5A, ..Machine::default() };
                [machine.regs[0], machine.regs[1]] = [start as u16, u16::MAX];
                machine.regs[2] = 0x4001;
                let ended = twins.run(&mut machine, budget);
                let spent = without_data(RunOutcome::Spent, budget);
                let full = without_data(outcome, steps);
                assert_eq!(ended, if budget <= steps { spent } else { full });
                let halted = ended.outcome == RunOutcome::Halted;
                assert_eq!(machine.note, if halted { end as u8 } else { 0x5A });
            }
        }
    }
}

#[test]
fn a_run_of_two_million_steps() {
    // Countdowns from 250, one after the other for ever, that store as they go.
    let code = [
        MovImm { rd: 1, imm: 1 },
        Neg { rs: 1, rd: 1 },
        MovImm { rd: 0, imm: 250 },
        AddPc { rd: 6, imm: 200 },
        AddHigh { rs: 0, rd: 6 },
        AddHigh { rs: 0, rd: 5 },
        Strb { offset: 31, rb: 6, rd: 5 },
        AddHigh { rs: 1, rd: 0 },
        Branch { cond: 1, offset: 252 },
        Cmp { rs: 0, rd: 0 },
        Branch { cond: 0, offset: 248 },
    ];
    let mut memory = vec![0; MEMORY_BYTES];
    place_code(&code.map(|i| encode(i).unwrap()), &mut memory);
    let mut twins = Twins::new(&memory);
    let mut machine = Machine::default();
    let count = rounds(2_000_000) as u32;
    let ended = twins.run(&mut machine, count);
    assert_eq!((ended.outcome, ended.count), (RunOutcome::Spent, count));
    assert!(twins.library[800..].iter().any(|&byte| byte != 0), "nothing was stored");
}

#[test]
fn memories_of_another_size_are_refused() {
    let mut rng = Rng::new(207);
    let refused = RunOutcome::Refused(Refusal { number: 1, place: 0 });
    for length in [0, 1, 2, 512, 65_535, 65_537, 131_072] {
        let content: Vec<u8> = (0..length).map(|_| rng.u8()).collect();
        for budget in [0, 1, 2, 1_000_000, u32::MAX] {
            let mut memory = Guarded::new(&content);
            let before = generate::machine(&mut rng);
            let mut machine = before;
            let ended = library_run(&mut machine, &mut memory, budget);
            assert_eq!(ended, without_data(refused, 0));
            let expected = reference::cpu::run(&mut machine, &mut content.clone(), budget);
            assert_eq!(ended, expected);
            assert_eq!(machine, before);
            assert!(memory[..] == content);
            memory.assert_guards();
        }
    }
}
