//! Memory traffic: which data a step says it touched, and what a run passes on of it.

use reference::cpu::{run, step, Machine, RunOutcome, RunResult, StepOutcome, MEMORY_BYTES, PC};
use reference::generate::{self, Rng};
use reference::instruction::{decode, encode, Instruction};
use reference::loader::place_code;
use reference::refusal::Refusal;
use reference::traffic::Touched;
use Instruction::*;
use Touched::NoData;

use crate::busy::{kind_of, start_of_accesses, KINDS};
use crate::naive;

/// The engine's step and the naive one.
const INTERPRETERS: [fn(&mut Machine, &mut [u8]) -> StepOutcome; 2] = [step, naive::step];

const fn read(address: u16, bytes: u8) -> Touched {
    Touched::Read { address, bytes }
}

const fn wrote(address: u16, bytes: u8) -> Touched {
    Touched::Wrote { address, bytes }
}

fn result(outcome: RunOutcome, count: u32, touched: Touched) -> RunResult {
    RunResult { outcome, count, touched }
}

fn memory_of(code: &[u16]) -> Vec<u8> {
    let mut memory = vec![0; MEMORY_BYTES];
    place_code(code, &mut memory);
    memory
}

fn halfword_of(instruction: Instruction) -> u16 {
    encode(instruction).unwrap()
}

/// The four accesses, and what becomes of a step of each when its base register holds `base`.
fn accesses(base: u16, offset: u8, rb: u8, rd: u8) -> [(Instruction, StepOutcome); 4] {
    let wrapped = |scale: u32| ((u32::from(base) + scale * u32::from(offset)) % 65_536) as u16;
    let (of_halfword, of_byte) = (wrapped(4), wrapped(1));
    let if_aligned = |touched| match of_halfword % 4 {
        0 => StepOutcome::Completed(touched),
        _ => StepOutcome::Stopped(20),
    };
    [
        (Str { offset, rb, rd }, if_aligned(wrote(of_halfword, 2))),
        (Ldr { offset, rb, rd }, if_aligned(read(of_halfword, 2))),
        (Strb { offset, rb, rd }, StepOutcome::Completed(wrote(of_byte, 1))),
        (Ldrb { offset, rb, rd }, StepOutcome::Completed(read(of_byte, 1))),
    ]
}

#[test]
fn addresses_worked_out_by_hand() {
    let (rb, rd) = (1, 0);
    let cases = [
        (Str { offset: 0, rb, rd }, 0x0100, wrote(0x0100, 2)),
        (Str { offset: 31, rb, rd }, 0x0100, wrote(0x017C, 2)),
        (Str { offset: 31, rb, rd }, 0xFFFC, wrote(0x0078, 2)),
        (Ldr { offset: 31, rb, rd }, 0x0100, read(0x017C, 2)),
        (Ldr { offset: 0, rb, rd }, 0xFFFC, read(0xFFFC, 2)),
        (Ldr { offset: 1, rb, rd }, 0xFFFC, read(0x0000, 2)),
        (Ldr { offset: 16, rb, rd }, 0xFFC4, read(0x0004, 2)),
        (Strb { offset: 31, rb, rd }, 0x0100, wrote(0x011F, 1)),
        (Strb { offset: 5, rb, rd }, 0xFFFF, wrote(0x0004, 1)),
        (Ldrb { offset: 31, rb, rd }, 0x0103, read(0x0122, 1)),
        (Ldrb { offset: 0, rb, rd }, 0xFFFF, read(0xFFFF, 1)),
        (Ldrb { offset: 1, rb, rd }, 0xFFFF, read(0x0000, 1)),
        (Ldrb { offset: 5, rb, rd }, 0xFFFF, read(0x0004, 1)),
    ];
    for (instruction, base, touched) in cases {
        let memory = memory_of(&[halfword_of(instruction)]);
        let mut start = Machine::default();
        start.regs[1] = base;
        for step in INTERPRETERS {
            let outcome = step(&mut start.clone(), &mut memory.clone());
            assert_eq!(outcome, StepOutcome::Completed(touched), "{instruction:?}");
        }
        let ended = run(&mut start.clone(), &mut memory.clone(), 1);
        assert_eq!(ended, result(RunOutcome::Spent, 1, touched), "{instruction:?}");
    }
}

/// Data that is the access's own instruction included.
#[test]
fn every_base_with_every_offset() {
    let mut memory = vec![0; MEMORY_BYTES];
    for (base, offset) in (0..=u16::MAX).flat_map(|base| (0..32).map(move |o| (base, o))) {
        for (instruction, outcome) in accesses(base, offset, 1, 0) {
            place_code(&[halfword_of(instruction)], &mut memory);
            let mut machine = Machine::default();
            machine.regs[1] = base;
            assert_eq!(step(&mut machine, &mut memory), outcome, "{instruction:?} {base}");
        }
    }
}

/// A base register that the load overwrites included.
#[test]
fn every_register_with_every_offset() {
    let mut rng = Rng::new(31);
    let mut memory = vec![0; MEMORY_BYTES];
    let registers = (0..8).flat_map(|rb| (0..8).map(move |rd| (rb, rd)));
    for ((rb, rd), offset) in registers.flat_map(|pair| (0..32).map(move |o| (pair, o))) {
        let start = generate::start(&mut rng);
        for (instruction, outcome) in accesses(start.regs[usize::from(rb)], offset, rb, rd) {
            for step in INTERPRETERS {
                place_code(&[halfword_of(instruction)], &mut memory);
                assert_eq!(step(&mut start.clone(), &mut memory), outcome, "{instruction:?}");
            }
        }
    }
}

fn is_access(instruction: Instruction) -> bool {
    matches!(instruction, Str { .. } | Ldr { .. } | Strb { .. } | Ldrb { .. })
}

fn with_flags(machine: Machine, flags: u8) -> Machine {
    let [n, z, c, v] = [8, 4, 2, 1].map(|bit| flags & bit != 0);
    Machine { n, z, c, v, ..machine }
}

/// Under all flags, so that branches are taken and not taken.
#[test]
fn no_other_instruction_touches_data() {
    let mut rng = Rng::new(32);
    let mut memory = generate::memory(&mut rng);
    let others: Vec<u16> = (0..=u16::MAX)
        .filter(|&halfword| {
            decode(halfword).is_some_and(|i| !is_access(i) && !matches!(i, Halt { .. }))
        })
        .collect();
    assert_eq!(others.len(), 19_264 - 256 - 8_192);
    for (&halfword, flags) in others.iter().flat_map(|h| (0..16).map(move |flags| (h, flags))) {
        let start = with_flags(generate::start(&mut rng), flags);
        place_code(&[halfword], &mut memory);
        let outcome = step(&mut start.clone(), &mut memory);
        assert_eq!(outcome, StepOutcome::Completed(NoData), "{halfword:#06X}");
        let ended = run(&mut start.clone(), &mut memory, 1);
        assert_eq!(ended, result(RunOutcome::Spent, 1, NoData), "{halfword:#06X}");
    }
}

#[test]
fn writes_to_the_pc_touch_no_data() {
    let jumps = [MovHigh { rs: 0, rd: 15 }, AddHigh { rs: 0, rd: 15 }];
    for (jump, (access, _)) in jumps.iter().flat_map(|&jump| ACCESSES.map(|a| (jump, a))) {
        let mut machine = start();
        let mut memory = memory_of(&[halfword_of(access), halfword_of(jump)]);
        let ended = run(&mut machine, &mut memory, 2);
        assert_eq!(ended, result(RunOutcome::Spent, 2, NoData), "{jump:?}");
    }
}

/// R0 holds an address that 4 divides, R1 one that it does not divide, and R4 an odd one.
fn start() -> Machine {
    let mut machine = Machine::default();
    machine.regs[..5].copy_from_slice(&[0x0200, 0x0202, 0x1111, 0x2222, 0x0401]);
    machine
}

/// An access of each kind that completes from [`start`], even behind others of them.
const ACCESSES: [(Instruction, Touched); 4] = [
    (Str { offset: 2, rb: 0, rd: 3 }, wrote(0x0208, 2)),
    (Ldr { offset: 3, rb: 0, rd: 2 }, read(0x020C, 2)),
    (Strb { offset: 5, rb: 1, rd: 3 }, wrote(0x0207, 1)),
    (Ldrb { offset: 9, rb: 1, rd: 2 }, read(0x020B, 1)),
];

/// Those and one step without data.
const STEPS: [(Instruction, Touched); 5] =
    [ACCESSES[0], ACCESSES[1], ACCESSES[2], ACCESSES[3], (MovImm { rd: 2, imm: 9 }, NoData)];

/// Accesses that are stopped from [`start`].
const MISALIGNED: [Instruction; 2] =
    [Str { offset: 1, rb: 1, rd: 2 }, Ldr { offset: 1, rb: 1, rd: 2 }];

const UNDEFINED: u16 = 0xFFFF;

fn run_of(code: &[u16], budget: u32) -> RunResult {
    run(&mut start(), &mut memory_of(code), budget)
}

#[test]
fn the_last_of_two_steps_counts() {
    for (first, second) in STEPS.iter().flat_map(|first| STEPS.map(|second| (first, second))) {
        let code = [halfword_of(first.0), halfword_of(second.0), 0];
        let expected = [
            result(RunOutcome::Spent, 0, NoData),
            result(RunOutcome::Spent, 1, first.1),
            result(RunOutcome::Spent, 2, second.1),
            result(RunOutcome::Halted, 2, second.1),
        ];
        for (budget, expected) in (0..).zip(expected) {
            assert_eq!(run_of(&code, budget), expected, "{first:?} {second:?}");
        }
    }
}

#[test]
fn halt_behind_a_step() {
    for ((last, touched), note) in STEPS.iter().flat_map(|s| [0, 1, 255].map(|note| (s, note))) {
        let code = [halfword_of(*last), note];
        assert_eq!(run_of(&code, 2), result(RunOutcome::Halted, 1, *touched));
        assert_eq!(run_of(&code, 1), result(RunOutcome::Spent, 1, *touched));
    }
}

#[test]
fn stops_behind_a_step() {
    let [store, load] = MISALIGNED.map(halfword_of);
    for (last, touched) in STEPS {
        for (number, stopped) in [(20, store), (20, load), (19, UNDEFINED)] {
            let code = [halfword_of(last), stopped];
            let expected = result(RunOutcome::Stopped(number), 1, touched);
            assert_eq!(run_of(&code, 9), expected, "{last:?}");
        }
        // Only a jump leads to an odd address, and it is the last step then.
        let jump = halfword_of(MovHigh { rs: 4, rd: 15 });
        let expected = result(RunOutcome::Stopped(18), 2, NoData);
        assert_eq!(run_of(&[halfword_of(last), jump], 9), expected);
    }
}

#[test]
fn endings_at_once() {
    let [store, load] = MISALIGNED.map(halfword_of);
    let stopped = RunOutcome::Stopped;
    let cases = [
        (0, RunOutcome::Halted),
        (store, stopped(20)),
        (load, stopped(20)),
        (UNDEFINED, stopped(19)),
    ];
    for (code, outcome) in cases {
        assert_eq!(run_of(&[code], 9), result(outcome, 0, NoData));
    }
    let mut odd = start();
    odd.regs[PC] = 1;
    let mut memory = memory_of(&ACCESSES.map(|(access, _)| halfword_of(access)));
    assert_eq!(run(&mut odd, &mut memory, 9), result(stopped(18), 0, NoData));
}

/// Nothing of one run is left for another.
#[test]
fn budget_zero_behind_a_step() {
    for (last, touched) in STEPS {
        let mut memory = memory_of(&[halfword_of(last), halfword_of(last), UNDEFINED]);
        let mut machine = start();
        for _ in 0..2 {
            let none = run(&mut machine, &mut memory, 0);
            assert_eq!(none, result(RunOutcome::Spent, 0, NoData));
            let one = run(&mut machine, &mut memory, 1);
            assert_eq!(one, result(RunOutcome::Spent, 1, touched));
        }
        let stopped = run(&mut machine, &mut memory, 1);
        assert_eq!(stopped, result(RunOutcome::Stopped(19), 0, NoData));
    }
}

#[test]
fn a_refused_memory() {
    let refusal = Refusal { number: 1, place: 0 };
    let fill = halfword_of(ACCESSES[3].0).to_le_bytes();
    for length in [0, 2, 65_535, 65_537, 131_072] {
        let mut memory: Vec<u8> = fill.into_iter().cycle().take(length).collect();
        assert_eq!(step(&mut start(), &mut memory), StepOutcome::Refused(refusal));
        for budget in [0, 1, 100] {
            let refused = run(&mut start(), &mut memory, budget);
            assert_eq!(refused, result(RunOutcome::Refused(refusal), 0, NoData));
        }
    }
}

/// What each step from a state on answers, up to the first that is not completed.
fn single_steps(mut machine: Machine, mut memory: Vec<u8>, most: usize) -> Vec<StepOutcome> {
    let mut outcomes = Vec::new();
    while outcomes.len() < most && !have_ended(&outcomes) {
        outcomes.push(step(&mut machine, &mut memory));
    }
    outcomes
}

/// Whether nothing comes behind these steps, whatever the budget.
fn have_ended(outcomes: &[StepOutcome]) -> bool {
    !matches!(outcomes.last(), None | Some(StepOutcome::Completed(_)))
}

/// The result of a run that makes these steps.
fn result_of_steps(outcomes: &[StepOutcome]) -> RunResult {
    let mut expected = result(RunOutcome::Spent, 0, NoData);
    for &outcome in outcomes {
        match outcome {
            StepOutcome::Completed(touched) => {
                expected = result(RunOutcome::Spent, expected.count + 1, touched);
            }
            StepOutcome::Halted => expected.outcome = RunOutcome::Halted,
            StepOutcome::Stopped(number) => expected.outcome = RunOutcome::Stopped(number),
            StepOutcome::Refused(_) => panic!("the memory has its size"),
        }
    }
    expected
}

/// For every budget that cuts the run short, and for some that do not.
#[test]
fn a_run_tells_what_its_last_step_tells() {
    let mut rng = Rng::new(33);
    let mut seen = Vec::new();
    for _ in 0..300 {
        let (machine, memory) = start_of_accesses(&mut rng);
        let outcomes = single_steps(machine, memory.clone(), 40);
        let told = |budget| run(&mut machine.clone(), &mut memory.clone(), budget);
        for cut in 0..=outcomes.len() {
            let ended = told(cut as u32);
            assert_eq!(ended, result_of_steps(&outcomes[..cut]));
            seen.push((kind_of(ended.touched), ended.outcome));
        }
        if have_ended(&outcomes) {
            assert_eq!(told(u32::MAX), result_of_steps(&outcomes));
        }
    }
    let outcomes = [RunOutcome::Spent, RunOutcome::Halted, RunOutcome::Stopped(20)];
    for wanted in KINDS.iter().flat_map(|&kind| outcomes.map(|outcome| (kind, outcome))) {
        assert!(seen.contains(&wanted), "{wanted:?}");
    }
}
