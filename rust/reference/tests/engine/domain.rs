use reference::cpu::{step, Machine, StepOutcome, MEMORY_BYTES, PC};
use reference::domain::{AbstractValue, State};
use reference::generate::{self, Rng};
use reference::instruction::{encode, Instruction};
use Instruction::*;

fn value(low: u16, high: u16, zeros: u8) -> AbstractValue {
    AbstractValue { low, high, zeros }
}

#[test]
fn known_values_count_their_own_zeros() {
    assert_eq!(AbstractValue::known(0), value(0, 0, 16));
    assert_eq!(AbstractValue::known(1), value(1, 1, 0));
    assert_eq!(AbstractValue::known(0x8000), value(0x8000, 0x8000, 15));
    assert_eq!(AbstractValue::new(12, 12, 0), value(12, 12, 2));
    assert_eq!(AbstractValue::new(12, 12, 9), value(12, 12, 2));
    assert_eq!(AbstractValue::UNKNOWN, value(0, 65_535, 0));
}

#[test]
fn sums() {
    let add = AbstractValue::transfer_add;
    assert_eq!(add(value(4, 8, 2), value(16, 32, 4)), value(20, 40, 2));
    assert_eq!(add(value(0, 65_500, 2), value(0, 35, 0)), value(0, 65_535, 0));
    assert_eq!(add(value(9, 65_500, 2), value(9, 36, 3)), value(0, 65_535, 2));
    // Two known odd values have a known even sum.
    let odd = AbstractValue::known(3);
    assert_eq!(add(odd, AbstractValue::known(5)), value(8, 8, 3));
    let half = AbstractValue::known(0x8000);
    assert_eq!(add(half, half), value(0, 65_535, 15));
}

#[test]
fn bitwise_operations() {
    let and = AbstractValue::transfer_and;
    assert_eq!(and(value(5, 200, 0), value(8, 100, 2)), value(0, 100, 2));
    assert_eq!(and(value(0, 100, 3), value(8, 200, 2)), value(0, 100, 3));
    let unknown = AbstractValue::UNKNOWN;
    assert_eq!(and(AbstractValue::known(0), unknown), value(0, 0, 16));
    let eor = AbstractValue::transfer_eor;
    assert_eq!(eor(value(1, 5, 0), value(0, 2, 1)), value(0, 7, 0));
    assert_eq!(eor(value(0, 8, 3), value(4, 4, 2)), value(0, 15, 2));
    assert_eq!(eor(value(0, 0x8000, 4), value(0, 64, 6)), value(0, 65_535, 4));
    let zero = AbstractValue::known(0);
    assert_eq!(eor(zero, zero), zero);
}

#[test]
fn shifts_and_negations() {
    assert_eq!(value(40, 32_767, 3).transfer_asr(), value(0, 32_767, 0));
    assert_eq!(value(40, 32_768, 3).transfer_asr(), value(0, 65_535, 0));
    assert_eq!(AbstractValue::known(0).transfer_asr(), value(0, 0, 16));
    assert_eq!(AbstractValue::known(12).transfer_neg(), value(0, 65_535, 2));
    assert_eq!(AbstractValue::known(0).transfer_neg(), value(0, 65_535, 16));
    assert_eq!(value(3, 9, 1).transfer_neg(), value(0, 65_535, 1));
}

/// A state in which an instruction at 6 finds R1 = 0..=12 with 2 zeros, R2 known to be 5.
fn sample_state() -> State {
    let mut state = State::UNKNOWN;
    state.apply(MovImm { rd: 0, imm: 12 }, 0);
    state.apply(And { rs: 0, rd: 1 }, 2);
    state.apply(MovImm { rd: 2, imm: 5 }, 4);
    state
}

#[test]
fn instructions_follow_their_rules() {
    let cases = [
        (MovImm { rd: 1, imm: 0 }, value(0, 0, 16)),
        (AddPc { rd: 1, imm: 1 }, value(8, 8, 3)),
        (MovHigh { rs: 15, rd: 1 }, value(6, 6, 1)),
        (MovHigh { rs: 2, rd: 1 }, value(5, 5, 0)),
        (MovHigh { rs: 14, rd: 1 }, AbstractValue::UNKNOWN),
        (AddHigh { rs: 15, rd: 1 }, value(6, 18, 1)),
        (AddHigh { rs: 2, rd: 1 }, value(5, 17, 0)),
        (AddHigh { rs: 1, rd: 1 }, value(0, 24, 2)),
        (And { rs: 2, rd: 1 }, value(0, 5, 2)),
        (Eor { rs: 2, rd: 1 }, value(0, 15, 0)),
        (Eor { rs: 1, rd: 1 }, value(0, 15, 2)),
        (Asr { rs: 2, rd: 1 }, value(0, 12, 0)),
        (Neg { rs: 1, rd: 1 }, value(0, 65_535, 2)),
        (Neg { rs: 2, rd: 1 }, value(0, 65_535, 0)),
        (Ldrb { offset: 0, rb: 2, rd: 1 }, value(0, 255, 0)),
        (Ldr { offset: 0, rb: 2, rd: 1 }, AbstractValue::UNKNOWN),
    ];
    for (instruction, expected) in cases {
        let mut state = sample_state();
        state.apply(instruction, 6);
        assert_eq!(state.get(1, 0), expected, "{instruction:?}");
        assert_eq!(state.get(2, 0), value(5, 5, 0), "{instruction:?}");
    }
}

#[test]
fn other_instructions_change_nothing() {
    let others = [
        CmpImm { rd: 1, imm: 3 },
        Tst { rs: 2, rd: 1 },
        Cmp { rs: 2, rd: 1 },
        CmpHigh { rs: 15, rd: 1 },
        Str { offset: 0, rb: 2, rd: 1 },
        Strb { offset: 0, rb: 2, rd: 1 },
        Branch { cond: 0, offset: 1 },
        Halt { note: 1 },
    ];
    for instruction in others {
        let mut state = sample_state();
        state.apply(instruction, 6);
        assert_eq!(state, sample_state(), "{instruction:?}");
    }
}

#[test]
fn states_describe_what_machines_do() {
    let mut rng = Rng::new(7);
    let mut memory = vec![0; MEMORY_BYTES];
    let mut executed = 0;
    for _ in 0..3_000 {
        let mut machine = generate::machine(&mut rng);
        let mut state = State::UNKNOWN;
        for _ in 0..40 {
            let instruction = generate::instruction(&mut rng);
            executed += usize::from(follow(&mut machine, &mut state, &mut memory, instruction));
        }
    }
    assert!(executed > 60_000, "only {executed}");
}

/// Executes an instruction on both sides. Answers whether it was one that states can follow.
fn follow(
    machine: &mut Machine,
    state: &mut State,
    memory: &mut [u8],
    instruction: Instruction,
) -> bool {
    if matches!(instruction, AddHigh { rd: 15, .. } | MovHigh { rd: 15, .. }) {
        return false;
    }
    machine.regs[PC] &= !1;
    let pc = machine.regs[PC];
    let halfword = encode(instruction).unwrap();
    memory[usize::from(pc)..][..2].copy_from_slice(&halfword.to_le_bytes());
    if !matches!(step(machine, memory), StepOutcome::Completed(_)) {
        return false;
    }
    state.apply(instruction, pc);
    for register in 0..15 {
        let concrete = machine.regs[usize::from(register)];
        let known = state.get(register, 0);
        assert!(known.contains(concrete), "{instruction:?}: {concrete} not in {known:?}");
    }
    true
}
