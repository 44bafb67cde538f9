use reference::generate::{self, Rng};
use reference::image::{code, halfword};
use reference::loader::load;
use reference::program::Program;
use reference::refusal::Refusal;
use reference::verifier::verify;

#[test]
fn a_load_sets_code_and_window_only() {
    let mut rng = Rng::new(9);
    for round in 0..120 {
        let blocks = if round < 64 { round + 1 } else { 1 };
        let file = generate::fit_image(&mut rng, blocks);
        let before = generate::memory(&mut rng);
        let mut memory = before.clone();
        let layout = load(&file, &mut memory).expect("generated to be fit");
        assert_eq!(Ok(layout), verify(&file));
        let code = code(&file);
        assert!((0..code.len()).all(|i| halfword(&memory, i) == code[i]));
        let (c, start) = (usize::from(layout.c), usize::from(layout.w));
        let end = start + usize::from(layout.l);
        assert!(memory[start..end].iter().all(|&byte| byte == 0));
        assert!(memory[c..start] == before[c..start]);
        assert!(memory[end..] == before[end..]);
    }
}

#[test]
fn a_refused_load_changes_nothing() {
    let mut rng = Rng::new(10);
    let mut refusals = 0;
    for _ in 0..400 {
        let blocks = rng.between(1, 4);
        let fit = generate::fit_image(&mut rng, blocks);
        let (file, _) = generate::damage(&mut rng, &fit);
        let before = generate::memory(&mut rng);
        let mut memory = before.clone();
        let answer = load(&file, &mut memory);
        assert_eq!(answer, verify(&file));
        if answer.is_err() {
            refusals += 1;
            assert!(memory == before);
        }
    }
    assert!(refusals > 300, "only {refusals}");
}

#[test]
fn memory_is_asked_about_first() {
    let refusal = Err(Refusal { number: 1, place: 0 });
    let fit = Program { code: vec![0], w: 4, l: 4 }.file().unwrap();
    for length in [0, 512, 65_535, 65_537] {
        let mut memory = vec![7; length];
        assert_eq!(load(&fit, &mut memory), refusal);
        assert_eq!(load(&[], &mut memory), refusal);
        assert!(memory.iter().all(|&byte| byte == 7));
    }
}
