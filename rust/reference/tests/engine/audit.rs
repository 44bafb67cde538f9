use reference::audit::{audit, audit_with};
use reference::cpu::{run, step, Machine, RunOutcome, RunResult, StepOutcome, MEMORY_BYTES, PC};
use reference::generate::{self, Rng};
use reference::instruction::Instruction;
use reference::loader::{load, place_code};
use reference::program::Program;
use reference::traffic::Touched;
use Instruction::*;

const HALT: Instruction = Halt { note: 9 };

#[test]
fn fit_programs_do_no_harm() {
    let mut rng = Rng::new(11);
    let (mut halted, mut spent, mut steps) = (0, 0, 0);
    for _ in 0..4_000 {
        let length = rng.between(1, 120);
        let program = generate::fit_program(&mut rng, length);
        let ended = audit_loaded(&mut rng, &program, 150);
        match ended.outcome {
            RunOutcome::Halted => halted += 1,
            _ => spent += 1,
        }
        steps += ended.count;
    }
    assert!(halted > 500 && spent > 500, "{halted} {spent}");
    assert!(steps > 100_000, "{steps}");
}

/// Loads a program, runs it under audit, and runs it again without; both must agree.
fn audit_loaded(rng: &mut Rng, program: &Program, budget: u32) -> RunResult {
    let mut memory = generate::memory(rng);
    load(&program.file().unwrap(), &mut memory).expect("generated to be fit");
    if rng.flip() {
        // A run may also start with a window that is not clear.
        let (start, end) =
            (usize::from(program.w), usize::from(program.w) + usize::from(program.l));
        memory[start..end].fill(rng.u8());
    }
    let mut machine = generate::start(rng);
    let (mut memory_again, mut machine_again) = (memory.clone(), machine);
    let ended = audit(program, &mut machine, &mut memory, budget)
        .unwrap_or_else(|message| panic!("{message}\n{program:?}"));
    assert_eq!(run(&mut machine_again, &mut memory_again, budget), ended);
    assert_eq!(machine, machine_again);
    assert!(memory == memory_again);
    ended
}

#[test]
fn changed_programs_that_stay_fit_do_no_harm() {
    let mut rng = Rng::new(12);
    let mut fit = 0;
    for _ in 0..3_000 {
        let length = rng.between(10, 80);
        let first = generate::fit_program(&mut rng, length);
        let program = generate::mutate(&mut rng, &first);
        if program.verify().is_ok() {
            fit += 1;
            audit_loaded(&mut rng, &program, 100);
        }
    }
    assert!((500..2_900).contains(&fit), "{fit}");
}

#[test]
fn long_programs_do_no_harm() {
    let mut rng = Rng::new(13);
    for blocks in [2, 8, 33, 64] {
        let length = generate::code_length(&mut rng, blocks);
        let program = generate::fit_program(&mut rng, length);
        audit_loaded(&mut rng, &program, 3_000);
    }
}

/// Audits code that was never verified, with window 256 to 512 and R0 = 256.
fn complaint(instructions: &[Instruction], r1: u16) -> String {
    let program = Program::assemble(instructions, 256, 256).unwrap();
    complaint_of(&program, r1)
}

fn complaint_of(program: &Program, r1: u16) -> String {
    let mut memory = vec![0; MEMORY_BYTES];
    place_code(&program.code, &mut memory);
    let mut machine = Machine::default();
    machine.regs[0] = 256;
    machine.regs[1] = r1;
    match audit(program, &mut machine, &mut memory, 10) {
        Ok(ended) => format!("{:?} {}", ended.outcome, ended.count),
        Err(message) => message,
    }
}

#[test]
fn the_audit_sees_every_harm() {
    let store = Str { offset: 0, rb: 0, rd: 1 };
    let load = Ldrb { offset: 0, rb: 1, rd: 2 };
    assert_eq!(complaint(&[store, load, HALT], 511), "Halted 2");
    let outside =
        "after 1 steps: access outside the window to 512 by Ldrb { offset: 0, rb: 1, rd: 2 } at 2";
    assert_eq!(complaint(&[store, load, HALT], 512), outside);
    let word = Ldr { offset: 0, rb: 1, rd: 2 };
    assert!(complaint(&[word, HALT], 258).contains("misaligned access to 258"));
    assert!(complaint(&[word, HALT], 252).contains("outside the window to 252"));
    let jump = MovHigh { rs: 1, rd: 15 };
    assert_eq!(complaint(&[jump, HALT], 3), "after 1 steps: odd fetch at 3");
    assert_eq!(complaint(&[jump, HALT], 4), "after 1 steps: fetch outside the code at 4");
    assert_eq!(complaint(&[jump, HALT], 0), "Spent 10");
    let undefined = Program { code: vec![0x2001, 0xFFFF, 0], w: 256, l: 256 };
    assert_eq!(complaint_of(&undefined, 0), "after 1 steps: undefined instruction at 2");
}

#[test]
fn harm_at_the_end_of_the_budget_counts() {
    let program = Program::assemble(&[MovImm { rd: 0, imm: 0 }, CmpImm { rd: 0, imm: 0 }], 256, 4);
    let program = program.unwrap();
    let mut memory = vec![0; MEMORY_BYTES];
    place_code(&program.code, &mut memory);
    let mut machine = Machine::default();
    let message = audit(&program, &mut machine, &mut memory, 2).unwrap_err();
    assert_eq!(message, "after 2 steps: fetch outside the code at 4");
}

#[test]
fn the_audit_sees_a_bad_engine() {
    let program = Program::assemble(&[CmpImm { rd: 0, imm: 0 }, HALT], 256, 4).unwrap();
    let mut fresh = vec![0; MEMORY_BYTES];
    place_code(&program.code, &mut fresh);
    let start = Machine::default();
    let audited = |bad: fn(&mut Machine, &mut [u8]) -> StepOutcome| {
        audit_with(bad, &program, &mut start.clone(), &mut fresh.clone(), 5)
    };
    assert!(audited(step).is_ok());
    let scribbling = audited(|machine, memory| {
        memory[700] = 1;
        step(machine, memory)
    });
    assert!(scribbling.unwrap_err().contains("changed: [700]"));
    let writing_in_window = audited(|machine, memory| {
        memory[259] = 1;
        step(machine, memory)
    });
    assert!(writing_in_window.is_ok());
    assert!(audited(|_, _| StepOutcome::Halted).is_err());
    assert!(audited(|_, _| StepOutcome::Stopped(19)).is_err());
    let noting_nothing = audited(|machine, memory| {
        let before = machine.note;
        let outcome = step(machine, memory);
        machine.note = before;
        outcome
    });
    let words = "after 1 steps: Halt { note: 9 } gives (Halted, 0), not (Halted, 9)";
    assert_eq!(noting_nothing.unwrap_err(), words);
    let noting_early = audited(|machine, memory| {
        machine.note = 9;
        step(machine, memory)
    });
    assert!(noting_early.unwrap_err().starts_with("after 0 steps: CmpImm "));
    let running_over_halt = audited(|machine, _| {
        machine.regs[PC] = 2;
        StepOutcome::Completed(Touched::NoData)
    });
    assert!(running_over_halt.is_err());
}

/// Audits one step, STRB R1, [R0] at 256, of an engine that tells of it in its own way.
fn audited_telling(told: fn(Touched) -> Touched) -> Result<RunResult, String> {
    let code = [Strb { offset: 0, rb: 0, rd: 1 }, HALT];
    let program = Program::assemble(&code, 256, 4).unwrap();
    let mut memory = vec![0; MEMORY_BYTES];
    place_code(&program.code, &mut memory);
    let mut machine = Machine::default();
    machine.regs[0] = 256;
    let telling = |machine: &mut Machine, memory: &mut [u8]| match step(machine, memory) {
        StepOutcome::Completed(touched) => StepOutcome::Completed(told(touched)),
        other => other,
    };
    audit_with(telling, &program, &mut machine, &mut memory, 1)
}

#[test]
fn the_audit_sees_bad_traffic() {
    let truth = Touched::Wrote { address: 256, bytes: 1 };
    let spent = RunResult { outcome: RunOutcome::Spent, count: 1, touched: truth };
    assert_eq!(audited_telling(|touched| touched), Ok(spent));
    let lies: [fn(Touched) -> Touched; 4] = [
        |_| Touched::NoData,
        |_| Touched::Read { address: 256, bytes: 1 },
        |_| Touched::Wrote { address: 257, bytes: 1 },
        |_| Touched::Wrote { address: 256, bytes: 2 },
    ];
    for lie in lies {
        let complaint = audited_telling(lie).unwrap_err();
        let words =
            format!("gives (Completed({:?}), 0), not (Completed({truth:?}), 0)", lie(truth));
        assert!(complaint.ends_with(&words), "{complaint}");
    }
}

#[test]
fn the_audit_wants_a_proper_start() {
    let program = Program { code: vec![0], w: 256, l: 4 };
    let mut memory = vec![0; MEMORY_BYTES];
    let mut elsewhere = Machine::default();
    elsewhere.regs[PC] = 2;
    assert!(audit(&program, &mut elsewhere, &mut memory, 1).is_err());
    let mut start = Machine::default();
    assert!(audit(&program, &mut start, &mut memory[1..], 1).is_err());
    assert!(audit(&program, &mut start, &mut memory, 1).is_ok());
    memory[0] = 1;
    assert!(audit(&program, &mut start, &mut memory, 1).is_err());
}
