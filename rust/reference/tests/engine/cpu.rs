use reference::cpu::{run, step, Machine, RunOutcome, RunResult, StepOutcome, MEMORY_BYTES, PC};
use reference::generate::{self, Rng};
use reference::instruction::{decode, encode, Instruction};
use reference::loader::place_code;
use reference::refusal::Refusal;
use reference::traffic::Touched;
use Instruction::*;

use crate::naive;

const HALT: Instruction = Halt { note: 0 };

fn memory_with(instructions: &[Instruction]) -> Vec<u8> {
    let code: Vec<u16> = instructions.iter().map(|&i| encode(i).unwrap()).collect();
    let mut memory = vec![0; MEMORY_BYTES];
    place_code(&code, &mut memory);
    memory
}

/// The end of a run whose last step, if it made one, was no load or store.
fn ended(outcome: RunOutcome, count: u32) -> RunResult {
    RunResult { outcome, count, touched: Touched::NoData }
}

/// One step of an instruction at address 0.
fn stepped(instruction: Instruction, mut machine: Machine) -> Machine {
    machine.regs[PC] = 0;
    let mut memory = memory_with(&[instruction]);
    assert!(matches!(step(&mut machine, &mut memory), StepOutcome::Completed(_)));
    machine
}

/// A machine with some registers set, and a note that no test here expects to change but those
/// that meet HALT.
fn with_regs(values: &[(usize, u16)]) -> Machine {
    let mut machine = Machine { note: 0x5A, ..Machine::default() };
    for &(register, value) in values {
        machine.regs[register] = value;
    }
    machine
}

/// N, Z, C and V in one string.
fn flags(machine: &Machine) -> String {
    [('N', machine.n), ('Z', machine.z), ('C', machine.c), ('V', machine.v)]
        .map(|(name, set)| format!("{name}{}", u8::from(set)))
        .join(" ")
}

#[test]
fn negation() {
    let neg = Neg { rs: 1, rd: 0 };
    let lowest = stepped(neg, with_regs(&[(1, 0x8000)]));
    assert_eq!((lowest.regs[0], flags(&lowest)), (0x8000, "N1 Z0 C0 V1".into()));
    let zero = stepped(neg, with_regs(&[(0, 7)]));
    assert_eq!((zero.regs[0], flags(&zero)), (0, "N0 Z1 C1 V0".into()));
}

#[test]
fn comparison_and_addition() {
    let compared = stepped(CmpImm { rd: 0, imm: 1 }, with_regs(&[(0, 0x8000)]));
    assert_eq!((compared.regs[0], flags(&compared)), (0x8000, "N0 Z0 C1 V1".into()));
    let added = stepped(AddHigh { rs: 1, rd: 0 }, with_regs(&[(0, 0xFFFF), (1, 1)]));
    assert_eq!((added.regs[0], flags(&added)), (0, "N0 Z1 C1 V0".into()));
}

#[test]
fn shifts() {
    let asr = Asr { rs: 1, rd: 0 };
    let far = stepped(asr, with_regs(&[(0, 0x8000), (1, 16)]));
    assert_eq!((far.regs[0], far.c), (0xFFFF, true));
    for carry in [false, true] {
        let mut before = with_regs(&[(0, 0x8000), (1, 0x0100)]);
        before.c = carry;
        before.z = true;
        let none = stepped(asr, before);
        assert_eq!((none.regs[0], none.c, none.n, none.z), (0x8000, carry, true, false));
    }
    let gone = stepped(asr, with_regs(&[(0, 0x4000), (1, 15)]));
    assert_eq!((gone.regs[0], gone.z, gone.c), (0, true, true));
    // The amount is the register's own value from before.
    let by_itself = stepped(Asr { rs: 2, rd: 2 }, with_regs(&[(2, 0x5503)]));
    assert_eq!((by_itself.regs[2], by_itself.c), (0x0AA0, false));
}

#[test]
fn reading_the_pc() {
    let mut memory = memory_with(&[HALT, HALT, HALT, AddPc { rd: 0, imm: 1 }]);
    let mut machine = with_regs(&[(PC, 6)]);
    assert_eq!(step(&mut machine, &mut memory), StepOutcome::Completed(Touched::NoData));
    assert_eq!((machine.regs[0], machine.regs[PC]), (8, 8));

    let mut memory = memory_with(&[
        MovHigh { rs: 15, rd: 0 },
        MovHigh { rs: 15, rd: 1 },
        AddHigh { rs: 15, rd: 1 },
        CmpHigh { rs: 15, rd: 1 },
        CmpHigh { rs: 0, rd: 15 },
    ]);
    let mut machine = with_regs(&[(0, 9), (1, 9)]);
    assert_eq!(run(&mut machine, &mut memory, 4).count, 4);
    assert_eq!((machine.regs[0], machine.regs[1]), (0, 6));
    assert!(machine.z && machine.c, "6 compared with 6");
    step(&mut machine, &mut memory);
    assert!(!machine.z && machine.c, "8 compared with 0");
}

#[test]
fn writing_the_pc() {
    let moved = stepped(MovHigh { rs: 0, rd: 15 }, with_regs(&[(0, 0x8001)]));
    assert_eq!((moved.regs[PC], moved.n, moved.z), (0x8001, true, false));

    let mut memory = memory_with(&[HALT, HALT, AddHigh { rs: 15, rd: 15 }]);
    let mut machine = with_regs(&[(PC, 4)]);
    step(&mut machine, &mut memory);
    assert_eq!(machine.regs[PC], 8);

    let mut memory = memory_with(&[AddHigh { rs: 0, rd: 15 }]);
    let mut machine = with_regs(&[(0, 5)]);
    assert_eq!(run(&mut machine, &mut memory, 9), ended(RunOutcome::Stopped(18), 1));
    assert_eq!(machine.regs[PC], 5);
}

#[test]
fn pc_wraps() {
    let mut memory = vec![0; MEMORY_BYTES];
    memory[0xFFFE..].copy_from_slice(&encode(CmpImm { rd: 0, imm: 0 }).unwrap().to_le_bytes());
    let mut machine = with_regs(&[(PC, 0xFFFE)]);
    assert_eq!(run(&mut machine, &mut memory, 5), ended(RunOutcome::Halted, 1));
    assert_eq!(machine.regs[PC], 0);
}

#[test]
fn memory_accesses() {
    let mut memory = memory_with(&[
        Str { offset: 31, rb: 0, rd: 1 },
        Ldr { offset: 31, rb: 0, rd: 2 },
        Ldrb { offset: 31, rb: 3, rd: 4 },
        Strb { offset: 2, rb: 3, rd: 1 },
        Ldrb { offset: 2, rb: 3, rd: 3 },
    ]);
    memory[29] = 0x5A;
    let base = 0xFFFCu16.wrapping_sub(124);
    let mut machine = with_regs(&[(0, base), (1, 0xBEEF), (3, 0xFFFE)]);
    machine.c = true;
    assert_eq!(run(&mut machine, &mut memory, 5).count, 5);
    assert_eq!(memory[0xFFFC..], [0xEF, 0xBE, 0, 0]);
    assert_eq!(machine.regs[2], 0xBEEF);
    assert_eq!(machine.regs[4], 0x5A, "an address that wraps");
    assert_eq!((memory[0], machine.regs[3]), (0xEF, 0xEF));
    assert_eq!(flags(&machine), "N0 Z0 C1 V0");
}

#[test]
fn code_that_changes_itself() {
    let mut memory = memory_with(&[Str { offset: 1, rb: 0, rd: 1 }, HALT, HALT]);
    let mut machine = with_regs(&[(1, encode(MovImm { rd: 7, imm: 77 }).unwrap())]);
    let halted = run(&mut machine, &mut memory, 9);
    assert_eq!((halted.outcome, halted.count), (RunOutcome::Halted, 1));
    machine.regs[PC] = 4;
    assert_eq!(step(&mut machine, &mut memory), StepOutcome::Completed(Touched::NoData));
    assert_eq!(machine.regs[7], 77);
}

#[test]
fn stops_in_order_and_without_effect() {
    // An odd fetch wins over an undefined halfword, which here stands everywhere.
    let undefined = vec![0xFF; MEMORY_BYTES];
    assert_stop(18, with_regs(&[(PC, 7)]), &undefined);
    assert_stop(18, with_regs(&[(PC, 0xFFFF)]), &undefined);
    assert_stop(19, with_regs(&[(PC, 0xFFFE)]), &undefined);
    for (rb, stop) in [(0, None), (1, Some(20)), (2, Some(20)), (3, Some(20)), (4, None)] {
        for instruction in [Str { offset: 3, rb: 0, rd: 0 }, Ldr { offset: 3, rb: 0, rd: 0 }] {
            let memory = memory_with(&[instruction]);
            let machine = with_regs(&[(0, rb)]);
            match stop {
                Some(number) => assert_stop(number, machine, &memory),
                None => assert_eq!(stepped(instruction, machine).regs[PC], 2),
            }
        }
    }
}

fn assert_stop(number: u8, machine: Machine, memory: &[u8]) {
    let (mut after, mut memory_after) = (machine, memory.to_vec());
    assert_eq!(step(&mut after, &mut memory_after), StepOutcome::Stopped(number));
    assert_eq!((after, &memory_after[..]), (machine, memory));
    let stopped = run(&mut after, &mut memory_after, 3);
    assert_eq!(stopped, ended(RunOutcome::Stopped(number), 0));
    assert_eq!((after, &memory_after[..]), (machine, memory));
    let unspent = run(&mut after, &mut memory_after, 0);
    assert_eq!(unspent, ended(RunOutcome::Spent, 0));
}

#[test]
fn budgets() {
    let moves = [MovImm { rd: 0, imm: 1 }, MovImm { rd: 1, imm: 2 }, HALT];
    let expected = [
        (0, RunOutcome::Spent, 0, 0),
        (1, RunOutcome::Spent, 1, 2),
        (2, RunOutcome::Spent, 2, 4),
        (3, RunOutcome::Halted, 2, 4),
        (u32::MAX, RunOutcome::Halted, 2, 4),
    ];
    for (budget, outcome, count, pc) in expected {
        let mut memory = memory_with(&moves);
        let mut machine = Machine::default();
        assert_eq!(run(&mut machine, &mut memory, budget), ended(outcome, count));
        assert_eq!(machine.regs[PC], pc);
    }
}

#[test]
fn halt_is_no_step() {
    let before = with_regs(&[(3, 5), (PC, 100)]);
    let mut machine = before;
    let mut memory = vec![0; MEMORY_BYTES];
    assert_eq!(step(&mut machine, &mut memory), StepOutcome::Halted);
    assert_eq!(machine, Machine { note: 0, ..before });
    assert!(memory.iter().all(|&byte| byte == 0));
}

#[test]
fn memory_of_another_size() {
    let refusal = Refusal { number: 1, place: 0 };
    let before = with_regs(&[(0, 3), (PC, 2)]);
    for length in [0, 1, 65_535, 65_537, 131_072] {
        let mut memory = vec![0x20; length];
        let mut machine = before;
        assert_eq!(step(&mut machine, &mut memory), StepOutcome::Refused(refusal));
        for budget in [0, 1, 100] {
            let refused = run(&mut machine, &mut memory, budget);
            assert_eq!(refused, ended(RunOutcome::Refused(refusal), 0));
        }
        assert_eq!(machine, before);
        assert!(memory.iter().all(|&byte| byte == 0x20));
    }
}

#[test]
fn branches_under_all_flags() {
    for (cond, state) in (0..14u8).flat_map(|cond| (0..16u8).map(move |state| (cond, state))) {
        let mut machine = with_regs(&[(PC, 0)]);
        machine.n = state & 8 != 0;
        machine.z = state & 4 != 0;
        machine.c = state & 2 != 0;
        machine.v = state & 1 != 0;
        let (n, z, c, v) = (machine.n, machine.z, machine.c, machine.v);
        let pairs = [z, c, n, v, c && !z, n == v, !z && n == v];
        let taken = pairs[usize::from(cond / 2)] == (cond % 2 == 0);
        let after = stepped(Branch { cond, offset: 0x80 }, machine);
        assert_eq!(after.regs[PC], if taken { 0xFF00 } else { 2 }, "{cond} {state:04b}");
        assert_eq!(flags(&after), flags(&machine));
    }
}

#[test]
fn every_halfword_steps_as_its_page_says() {
    let mut rng = Rng::new(2);
    let mut memory = generate::memory(&mut rng);
    let mut naive_memory = memory.clone();
    for halfword in 0..=u16::MAX {
        let rounds = if decode(halfword).is_some() { 8 } else { 1 };
        for _ in 0..rounds {
            let mut machine = generate::machine(&mut rng);
            let pc = usize::from(machine.regs[PC] & !1);
            memory[pc..pc + 2].copy_from_slice(&halfword.to_le_bytes());
            naive_memory[pc..pc + 2].copy_from_slice(&halfword.to_le_bytes());
            let mut naive_machine = machine;
            let outcome = step(&mut machine, &mut memory);
            let expected = naive::step(&mut naive_machine, &mut naive_memory);
            assert_eq!(outcome, expected, "{halfword:#06X}");
            assert_eq!(machine, naive_machine, "{halfword:#06X}");
        }
        if halfword % 256 == 0 {
            assert!(memory == naive_memory, "up to {halfword:#06X}");
        }
    }
    assert!(memory == naive_memory);
}

#[test]
fn sums_and_differences_of_edges() {
    let edges: Vec<u16> = [0u16, 0x7FFE, 0xFFFD, 0x00FE, 0xFF00]
        .iter()
        .flat_map(|&edge| (0..4).map(move |i| edge.wrapping_add(i)))
        .collect();
    let instructions = [
        AddHigh { rs: 1, rd: 0 },
        Cmp { rs: 1, rd: 0 },
        CmpHigh { rs: 1, rd: 8 },
        Neg { rs: 1, rd: 0 },
        Asr { rs: 1, rd: 0 },
    ];
    for (&left, &right) in edges.iter().flat_map(|l| edges.iter().map(move |r| (l, r))) {
        for instruction in instructions {
            let before = with_regs(&[(0, left), (1, right), (8, left)]);
            let mut naive_machine = before;
            naive::step(&mut naive_machine, &mut memory_with(&[instruction]));
            assert_eq!(stepped(instruction, before), naive_machine);
        }
    }
}

#[test]
fn run_is_repeated_steps() {
    let mut rng = Rng::new(3);
    let mut total = 0;
    for _ in 0..150 {
        let mut memory = generate::executable_memory(&mut rng);
        let mut machine = generate::machine(&mut rng);
        let budget = rng.below(2_000) as u32;
        let (mut step_memory, mut step_machine) = (memory.clone(), machine);
        let result = run(&mut machine, &mut memory, budget);
        let expected = run_by_steps(&mut step_machine, &mut step_memory, budget);
        assert_eq!(result, expected);
        assert_eq!(machine, step_machine);
        assert!(memory == step_memory);
        total += result.count;
    }
    assert!(total > 10_000, "only {total} steps");
}

fn run_by_steps(machine: &mut Machine, memory: &mut [u8], budget: u32) -> RunResult {
    let mut touched = Touched::NoData;
    for count in 0..budget {
        let outcome = match step(machine, memory) {
            StepOutcome::Completed(data) => {
                touched = data;
                continue;
            }
            StepOutcome::Halted => RunOutcome::Halted,
            StepOutcome::Stopped(number) => RunOutcome::Stopped(number),
            StepOutcome::Refused(refusal) => RunOutcome::Refused(refusal),
        };
        return RunResult { outcome, count, touched };
    }
    RunResult { outcome: RunOutcome::Spent, count: budget, touched }
}
