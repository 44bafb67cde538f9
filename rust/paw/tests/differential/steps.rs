//! One step: every instruction on random machines, and whole sweeps of operands and addresses.

use Instruction::*;
use reference::cpu::{MEMORY_BYTES, Machine, PC, StepOutcome};
use reference::generate::{self, Rng};
use reference::instruction::{Instruction, decode, encode};
use reference::refusal::Refusal;
use reference::traffic::Touched;

use crate::support::{Guarded, Twins, edges, library_step, quick_machine, rounds};

/// Twins that step single instructions on one and the same memory. Every byte is compared without
/// reading 65,536 of them at each step:
///
/// - The bytes that a right step may depend on or change are the two of its instruction and the
///   two from its data address. They are found to be the original ones just before the step,
///   compared between the engines just after it, and put back.
/// - Nothing but the engines writes any other byte. So a byte that a step changed elsewhere stays
///   changed, until a later step finds it among its four, or [`Steps::assert_original`] compares
///   the whole memory, whichever is first.
struct Steps {
    twins: Twins,
    original: Vec<u8>,
    /// Completed, halted, and stops 18 to 20.
    outcomes: [usize; 5],
}

impl Steps {
    fn new(original: Vec<u8>) -> Self {
        Steps { twins: Twins::new(&original), original, outcomes: [0; 5] }
    }

    /// Steps an instruction, or an undefined halfword, at the machine's program counter.
    fn step(&mut self, halfword: u16, instruction: Option<Instruction>, mut machine: Machine) {
        let pc = usize::from(machine.regs[PC] & !1);
        let data = instruction.and_then(|i| data_address(&machine, i)).unwrap_or(pc);
        let touched = [pc, pc + 1, data, (data + 1) % MEMORY_BYTES];
        for at in touched {
            assert_eq!(self.twins.library[at], self.original[at], "changed earlier: {at:#x}");
        }
        self.twins.plant(pc, halfword);
        let outcome = self.twins.step(&mut machine);
        for at in touched {
            let bytes = [self.twins.library[at], self.twins.reference[at]];
            assert_eq!(bytes[0], bytes[1], "byte {at:#x} after {instruction:?} of {machine:x?}");
            self.twins.library[at] = self.original[at];
            self.twins.reference[at] = self.original[at];
        }
        self.outcomes[place(outcome)] += 1;
    }

    /// Compares every byte of both memories with the original.
    fn assert_original(&self) {
        self.twins.assert_alike();
        assert!(self.twins.reference == self.original, "a byte outside a step's reach changed");
    }

    /// Goes on with another memory.
    fn renew(&mut self, original: Vec<u8>) {
        self.assert_original();
        self.twins = Twins::new(&original);
        self.original = original;
    }
}

/// Where a load or store has its data.
fn data_address(machine: &Machine, instruction: Instruction) -> Option<usize> {
    let (rb, offset) = match instruction {
        Str { offset, rb, .. } | Ldr { offset, rb, .. } => (rb, 4 * u16::from(offset)),
        Strb { offset, rb, .. } | Ldrb { offset, rb, .. } => (rb, offset.into()),
        _ => return None,
    };
    Some(machine.regs[usize::from(rb)].wrapping_add(offset).into())
}

fn place(outcome: StepOutcome) -> usize {
    match outcome {
        StepOutcome::Completed(_) => 0,
        StepOutcome::Halted => 1,
        StepOutcome::Stopped(number) => usize::from(number) - 16,
        StepOutcome::Refused(_) => panic!("the memory has its size"),
    }
}

#[test]
fn every_defined_halfword_on_a_thousand_machines() {
    let mut rng = Rng::new(101);
    let mut steps = Steps::new(generate::memory(&mut rng));
    let mut defined = 0;
    for halfword in 0..=u16::MAX {
        let Some(instruction) = decode(halfword) else { continue };
        defined += 1;
        steps.renew(generate::memory(&mut rng));
        for _ in 0..rounds(1_000) {
            steps.step(halfword, Some(instruction), quick_machine(&mut rng));
        }
    }
    steps.assert_original();
    assert_eq!(defined, 19_264);
    let [completed, halted, odd, undefined, misaligned] = steps.outcomes;
    assert!(completed > 15_000_000, "{completed}");
    assert!(halted > 240_000, "{halted}");
    assert!(odd > 200_000, "{odd}");
    assert_eq!(undefined, 0);
    assert!(misaligned > 2_000_000, "{misaligned}");
}

#[test]
fn every_undefined_halfword_stops() {
    let mut rng = Rng::new(102);
    let mut steps = Steps::new(generate::memory(&mut rng));
    let undefined = (0..=u16::MAX).filter(|&halfword| decode(halfword).is_none());
    for halfword in undefined {
        for _ in 0..rounds(8) {
            steps.step(halfword, None, quick_machine(&mut rng));
        }
    }
    steps.assert_original();
    let [completed, halted, odd, undefined, misaligned] = steps.outcomes;
    assert_eq!([completed, halted, misaligned], [0; 3]);
    assert_eq!(odd + undefined, rounds(8) * (65_536 - 19_264));
    assert!(undefined > 300_000 && odd > 4_000, "{undefined} {odd}");
}

#[test]
fn every_odd_pc_stops() {
    let mut rng = Rng::new(103);
    let mut steps = Steps::new(generate::memory(&mut rng));
    for pc in (1..=u16::MAX).step_by(2) {
        let halfword = generate::halfword(&mut rng);
        let mut machine = generate::machine(&mut rng);
        machine.regs[PC] = pc;
        steps.step(halfword, decode(halfword), machine);
    }
    steps.assert_original();
    assert_eq!(steps.outcomes, [0, 0, 32_768, 0, 0]);
}

/// Every form of load and store with every base, so every address, and all that wrap, too.
#[test]
fn every_address() {
    let mut rng = Rng::new(104);
    let mut steps = Steps::new(generate::memory(&mut rng));
    let forms: [fn(u8) -> Instruction; 4] = [
        |offset| Str { offset, rb: 1, rd: 2 },
        |offset| Ldr { offset, rb: 1, rd: 2 },
        |offset| Strb { offset, rb: 1, rd: 2 },
        |offset| Ldrb { offset, rb: 1, rd: 1 },
    ];
    let offsets = [0, 1, 2, 3, 30, 31];
    for (form, offset) in forms.iter().flat_map(|form| offsets.map(|offset| (form, offset))) {
        let instruction = form(offset);
        let halfword = encode(instruction).unwrap();
        let mut machine = generate::machine(&mut rng);
        machine.regs[PC] &= !1;
        for base in 0..=u16::MAX {
            machine.regs[1] = base;
            machine.regs[2] = machine.regs[2].wrapping_mul(25_173).wrapping_add(13_849);
            steps.step(halfword, Some(instruction), machine);
        }
        steps.assert_original();
    }
    // A quarter of the halfword accesses is aligned, for every offset.
    assert_eq!(steps.outcomes, [12 * 81_920, 0, 0, 0, 12 * 49_152]);
}

/// Steps an instruction at address 0 for each of a list of register pairs, R1 and R2 (or R8 for
/// R2 where the form has a high register). No step writes memory, so it is compared once.
fn sweep(instruction: Instruction, pairs: impl Iterator<Item = (u16, u16)>) -> usize {
    let mut twins = Twins::new(&vec![0; MEMORY_BYTES]);
    twins.plant(0, encode(instruction).unwrap());
    let mut count = 0;
    for (first, second) in pairs {
        let mut machine = Machine::default();
        machine.regs[1] = first;
        machine.regs[2] = second;
        machine.regs[8] = second;
        // Flags and note before are different at each step, and independent of the values.
        [machine.n, machine.z, machine.c, machine.v] = [1, 2, 4, 8].map(|bit| count & bit != 0);
        machine.note = (count >> 4) as u8;
        assert_eq!(twins.step(&mut machine), StepOutcome::Completed(Touched::NoData));
        count += 1;
    }
    twins.assert_alike();
    count
}

#[test]
fn every_shift_of_every_value() {
    let pairs = (0..256u16).flat_map(|amount| {
        // What stands above the amount must not matter.
        (0..=u16::MAX).map(move |value| (value, amount | value.wrapping_mul(0x9E37) & 0xFF00))
    });
    assert_eq!(sweep(Asr { rs: 2, rd: 1 }, pairs), 256 * 65_536);
    let by_itself = (0..=u16::MAX).map(|value| (value, 0));
    assert_eq!(sweep(Asr { rs: 1, rd: 1 }, by_itself), 65_536);
}

#[test]
fn every_value_with_every_immediate() {
    for imm in 0..=u8::MAX {
        let values = (0..=u16::MAX).map(|value| (value, 0));
        assert_eq!(sweep(CmpImm { rd: 1, imm }, values), 65_536);
        assert_eq!(sweep(MovImm { rd: 1, imm }, (0..16).map(|i| (i, 0))), 16);
    }
}

#[test]
fn every_negation() {
    let values = (0..=u16::MAX).flat_map(|value| [(value, 7), (value, 7)]);
    assert_eq!(sweep(Neg { rs: 1, rd: 2 }, values.clone()), 2 * 65_536);
    assert_eq!(sweep(Neg { rs: 1, rd: 1 }, values), 2 * 65_536);
}

#[test]
fn pairs_of_values() {
    let forms = [
        AddHigh { rs: 2, rd: 1 },
        AddHigh { rs: 8, rd: 1 },
        AddHigh { rs: 1, rd: 8 },
        Cmp { rs: 2, rd: 1 },
        CmpHigh { rs: 8, rd: 1 },
        CmpHigh { rs: 1, rd: 8 },
        And { rs: 2, rd: 1 },
        Eor { rs: 2, rd: 1 },
        Tst { rs: 2, rd: 1 },
        MovHigh { rs: 8, rd: 1 },
    ];
    let mut rng = Rng::new(105);
    let edges = edges();
    for form in forms {
        let of_edges = edges.iter().flat_map(|&a| edges.iter().map(move |&b| (a, b)));
        assert_eq!(sweep(form, of_edges), 96 * 96);
        let any = (0..rounds(200_000)).map(|_| (rng.u16(), rng.u16()));
        assert_eq!(sweep(form, any), rounds(200_000));
    }
}

#[test]
fn every_branch_under_all_flags() {
    let mut rng = Rng::new(106);
    let mut steps = Steps::new(generate::memory(&mut rng));
    for (cond, offset) in (0..14).flat_map(|cond| (0..=255).map(move |offset| (cond, offset))) {
        let instruction = Branch { cond, offset };
        let halfword = encode(instruction).unwrap();
        for flags in 0..16 {
            let mut machine = generate::machine(&mut rng);
            machine.regs[PC] &= !1;
            [machine.n, machine.z, machine.c, machine.v] = [8, 4, 2, 1].map(|bit| flags & bit != 0);
            steps.step(halfword, Some(instruction), machine);
        }
    }
    steps.assert_original();
    assert_eq!(steps.outcomes, [14 * 256 * 16, 0, 0, 0, 0]);
}

#[test]
fn memories_of_another_size_are_refused() {
    let mut rng = Rng::new(107);
    for length in [0, 1, 2, 512, 65_535, 65_537, 131_072] {
        let content: Vec<u8> = (0..length).map(|_| rng.u8()).collect();
        for _ in 0..rounds(200) {
            let mut memory = Guarded::new(&content);
            let before = generate::machine(&mut rng);
            let mut machine = before;
            let outcome = library_step(&mut machine, &mut memory);
            let refused = StepOutcome::Refused(Refusal { number: 1, place: 0 });
            assert_eq!(outcome, refused);
            assert_eq!(outcome, reference::cpu::step(&mut machine, &mut content.clone()));
            assert_eq!(machine, before);
            assert!(memory[..] == content);
            memory.assert_guards();
        }
    }
}
