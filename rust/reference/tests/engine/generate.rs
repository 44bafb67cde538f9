use std::collections::HashSet;

use reference::generate::{self, Rng};
use reference::image::{blocks_needed, BLOCK_BYTES};
use reference::instruction::{decode, Instruction};
use reference::verifier::verify;

#[test]
fn the_same_seed_gives_the_same_inputs() {
    let program = |seed| generate::fit_program(&mut Rng::new(seed), 200);
    assert_eq!(program(5), program(5));
    assert_ne!(program(5), program(6));
    assert_eq!(Rng::new(0).next_u64(), 0xE220_A839_7B1D_CDAF);
}

#[test]
fn numbers_stay_in_their_ranges() {
    let mut rng = Rng::new(14);
    let seen: HashSet<usize> = (0..1_000).map(|_| rng.between(3, 12)).collect();
    assert_eq!(seen, (3..=12).collect());
    let seen: HashSet<usize> = (0..1_000).map(|_| rng.below(7)).collect();
    assert_eq!(seen, (0..7).collect());
}

#[test]
fn fit_programs_are_fit() {
    let mut rng = Rng::new(15);
    let short = 1..=300;
    let long = (0..30).map(|_| 500);
    for length in short.chain(long) {
        let program = generate::fit_program(&mut rng, length);
        assert_eq!(program.code.len(), length);
        assert_eq!(program.verify(), Ok(program.layout()), "{program:?}");
    }
}

#[test]
fn fit_programs_use_the_whole_instruction_set() {
    let mut rng = Rng::new(16);
    let mut kinds = HashSet::new();
    let mut accesses = 0;
    for _ in 0..50 {
        for halfword in generate::fit_program(&mut rng, 300).code {
            let instruction = decode(halfword).unwrap();
            kinds.insert(std::mem::discriminant(&instruction));
            use Instruction::{Ldr, Ldrb, Str, Strb};
            let is_access =
                matches!(instruction, Ldr { .. } | Str { .. } | Ldrb { .. } | Strb { .. });
            accesses += usize::from(is_access);
        }
    }
    assert_eq!(kinds.len(), 18);
    assert!(accesses > 1_500, "{accesses}");
}

#[test]
fn notes_of_all_kinds() {
    let mut rng = Rng::new(20);
    let (mut last, mut inner, mut start) = (HashSet::new(), HashSet::new(), HashSet::new());
    for _ in 0..5_000 {
        let code = generate::fit_program(&mut rng, 60).code;
        let is_halt =
            |halfword: &&u16| matches!(decode(**halfword), Some(Instruction::Halt { .. }));
        inner.extend(code[..59].iter().filter(is_halt).copied());
        last.insert(code[59]);
        start.insert(generate::start(&mut rng).note);
    }
    assert_eq!(last, (0..=0x00FF).collect());
    assert_eq!(start, (0..=255).collect());
    assert!(inner.len() > 60, "{}", inner.len());
}

#[test]
fn images_have_the_wanted_blocks() {
    let mut rng = Rng::new(17);
    for blocks in 1..=64 {
        assert_eq!(blocks_needed(generate::code_length(&mut rng, blocks)), blocks);
        assert_eq!(generate::image(&mut rng, blocks).len(), blocks * BLOCK_BYTES);
        let fit = generate::fit_image(&mut rng, blocks);
        assert_eq!(fit.len(), blocks * BLOCK_BYTES);
        assert!(verify(&fit).is_ok());
    }
}

#[test]
fn random_programs_are_rarely_fit() {
    let mut rng = Rng::new(18);
    let fit = (0..2_000)
        .filter(|i| generate::random_program(&mut rng, 1 + i % 8).verify().is_ok())
        .count();
    assert!((1..400).contains(&fit), "{fit}");
}
