//! Whether what steps say they read and wrote is what they read and wrote: seen from outside, by
//! the bytes that change and by the bytes whose change is felt.

use std::collections::HashMap;
use std::ops::Range;

use reference::cpu::{step, Machine, StepOutcome, MEMORY_BYTES, PC};
use reference::generate::Rng;
use reference::traffic::Touched;

use crate::busy::{kind_of, start_of_accesses, KINDS};
use crate::naive;

/// One step, completed or not, and the states on both sides of it.
struct Observed {
    before: (Machine, Vec<u8>),
    outcome: StepOutcome,
    after: (Machine, Vec<u8>),
}

impl Observed {
    fn of(machine: Machine, memory: Vec<u8>) -> Self {
        let mut after = (machine, memory.clone());
        let outcome = step(&mut after.0, &mut after.1);
        Observed { before: (machine, memory), outcome, after }
    }

    fn fetched(&self) -> Range<usize> {
        let pc = usize::from(self.before.0.regs[PC]);
        match pc % 2 {
            0 => pc..pc + 2,
            _ => 0..0,
        }
    }

    fn read(&self) -> Range<usize> {
        match self.outcome {
            StepOutcome::Completed(Touched::Read { address, bytes }) => range(address, bytes),
            _ => 0..0,
        }
    }

    fn written(&self) -> Range<usize> {
        match self.outcome {
            StepOutcome::Completed(Touched::Wrote { address, bytes }) => range(address, bytes),
            _ => 0..0,
        }
    }

    fn is_input(&self, address: usize) -> bool {
        self.fetched().contains(&address) || self.read().contains(&address)
    }

    /// The same step from a memory with some bytes complemented.
    fn again_with(&self, changed: &[usize]) -> Observed {
        let (machine, mut memory) = self.before.clone();
        for &address in changed {
            memory[address] = !memory[address];
        }
        Observed::of(machine, memory)
    }
}

fn range(address: u16, bytes: u8) -> Range<usize> {
    let address = usize::from(address);
    address..address + usize::from(bytes)
}

/// Shows the steps from many states on.
fn observe_steps(rng: &mut Rng, starts: usize, mut show: impl FnMut(&mut Rng, &Observed)) {
    let mut kinds = HashMap::new();
    for _ in 0..starts {
        let mut state = start_of_accesses(rng);
        for _ in 0..25 {
            let observed = Observed::of(state.0, state.1);
            show(rng, &observed);
            state = observed.after;
            let StepOutcome::Completed(touched) = observed.outcome else {
                break;
            };
            *kinds.entry(kind_of(touched)).or_insert(0) += 1;
        }
    }
    assert!(KINDS.iter().all(|kind| kinds.get(kind) > Some(&(starts / 10))), "{kinds:?}");
}

#[test]
fn a_bus_that_logs_sees_the_same_traffic() {
    observe_steps(&mut Rng::new(34), 400, |_, observed| {
        let (mut machine, mut memory) = observed.before.clone();
        assert_eq!(naive::step(&mut machine, &mut memory), observed.outcome);
        assert!((machine, memory) == observed.after);
    });
}

#[test]
fn only_written_bytes_change() {
    observe_steps(&mut Rng::new(35), 400, |_, observed| {
        let (before, after) = (&observed.before.1, &observed.after.1);
        let written = observed.written();
        assert!(before[..written.start] == after[..written.start], "{:?}", observed.outcome);
        assert!(before[written.end..] == after[written.end..], "{:?}", observed.outcome);
    });
}

/// A byte that the step has written is the same whatever stood there, and any other keeps what
/// stood there.
fn assert_no_influence(observed: &Observed, changed: &[usize]) {
    let again = observed.again_with(changed);
    let (machine, mut memory) = observed.after.clone();
    for &address in changed.iter().filter(|address| !observed.written().contains(address)) {
        memory[address] = !memory[address];
    }
    assert_eq!((again.outcome, again.after.0), (observed.outcome, machine));
    assert!(again.after.1 == memory, "{:?} {changed:?}", observed.outcome);
}

/// Addresses around those that a step has to do with, and one anywhere.
fn neighbours(rng: &mut Rng, observed: &Observed) -> Vec<usize> {
    let places = [observed.fetched(), observed.read(), observed.written()];
    let around = |place: Range<usize>| (0..6).map(move |i| (place.start + 65_534 + i) % 65_536);
    let anywhere = rng.below(MEMORY_BYTES);
    places.into_iter().flat_map(around).chain([anywhere]).collect()
}

#[test]
fn bytes_neither_fetched_nor_read_have_no_influence() {
    observe_steps(&mut Rng::new(36), 120, |rng, observed| {
        let outside = |address: &usize| !observed.is_input(*address);
        for address in neighbours(rng, observed).into_iter().filter(outside) {
            assert_no_influence(observed, &[address]);
        }
        let all: Vec<usize> = (0..MEMORY_BYTES).filter(outside).collect();
        assert_no_influence(observed, &all);
    });
}

/// Bytes that are fetched, too, are left out: another instruction may follow from them.
#[test]
fn every_byte_read_has_influence() {
    observe_steps(&mut Rng::new(37), 400, |_, observed| {
        for address in observed.read().filter(|address| !observed.fetched().contains(address)) {
            let again = observed.again_with(&[address]);
            assert_eq!(again.outcome, observed.outcome);
            assert_ne!(again.after.0, observed.after.0, "{:?} {address}", observed.outcome);
        }
    });
}
