//! The packer: answers, every byte it writes, and that it writes none on a refusal.

use reference::generate::{self, Rng};
use reference::image::{
    BLOCK_BYTES, BLOCK_CODE, Layout, MAX_BLOCKS, MAX_CODE, SUM_FIELD, blocks_needed, halfword,
    is_window,
};
use reference::refusal::Refusal;
use reference::table::SAMPLE;

use crate::support::{Guarded, number, refusal, rounds};

/// Packs by both engines into outputs that hold the same bytes before, and compares all bytes
/// after. Answers the image, which a refusal leaves as the output was.
fn packed(code: &[u16], w: u16, l: u16, length: usize) -> (Result<(), Refusal>, Guarded) {
    let before: Vec<u8> = (0..length).map(|at| (at * 7 + at / 256) as u8 | 1).collect();
    let mut expected_out = before.clone();
    let expected = reference::image::pack(code, w, l, &mut expected_out);
    let mut out = Guarded::new(&before);
    let answer = paw::pack(code, w, l, &mut out).map_err(refusal);
    assert_eq!(answer, expected, "{} halfwords, {w}, {l}, into {length} bytes", code.len());
    assert!(out[..] == expected_out, "{} halfwords, {w}, {l}", code.len());
    assert!(answer.is_ok() || out[..] == before, "a refusal changed the output");
    out.assert_guards();
    (answer, out)
}

fn any_code(rng: &mut Rng, length: usize) -> Vec<u16> {
    (0..length).map(|_| rng.u16()).collect()
}

#[test]
fn every_output_length_near_the_right_one() {
    let mut rng = Rng::new(401);
    let mut done = 0;
    for length in [1, 2, 248, 249, 250, 498, 499, 15_687, 15_688, 15_935, MAX_CODE] {
        let code = any_code(&mut rng, length);
        let (w, l) = generate::window(&mut rng, length);
        let right = blocks_needed(length) * BLOCK_BYTES;
        assert_eq!(right, paw::image_bytes(length));
        for out in right.saturating_sub(600)..=right + 600 {
            let (answer, _) = packed(&code, w, l, out);
            let refused = Err(Refusal { number: 16, place: 0 });
            assert_eq!(answer, if out == right { Ok(()) } else { refused });
            done += usize::from(answer.is_ok());
        }
        for out in [0, 1, 2, right / 2, 2 * right, 32_768 + 512] {
            assert_eq!(number(&packed(&code, w, l, out).0), 16);
        }
    }
    assert_eq!(done, 11);
}

#[test]
fn images_of_every_number_of_blocks() {
    let mut rng = Rng::new(402);
    for blocks in 1..=MAX_BLOCKS {
        for _ in 0..rounds(20) {
            let length = generate::code_length(&mut rng, blocks);
            let code = any_code(&mut rng, length);
            let (w, l) = generate::window(&mut rng, length);
            let (answer, image) = packed(&code, w, l, blocks * BLOCK_BYTES);
            assert_eq!(answer, Ok(()));
            // What the packer makes, the check accepts, and the code comes back.
            assert_eq!(paw::check(&image), Ok(paw::Layout { c: (2 * length) as u16, w, l }));
            assert_eq!(reference::image::code(&image), code);
        }
    }
}

#[test]
fn every_length_of_code() {
    let mut rng = Rng::new(403);
    let code = any_code(&mut rng, MAX_CODE + BLOCK_CODE);
    let lengths = (0..3 * BLOCK_CODE).chain(MAX_CODE - 300..=MAX_CODE + BLOCK_CODE);
    for length in lengths {
        let blocks = blocks_needed(length);
        let (answer, _) = packed(&code[..length], 32_000, 400, blocks * BLOCK_BYTES);
        let fits = (1..=MAX_CODE).contains(&length);
        assert_eq!(answer.is_ok(), fits, "{length}");
        assert_eq!(number(&answer), if fits { 0 } else { 15 });
    }
}

#[test]
fn every_window_start_and_length() {
    let mut rng = Rng::new(404);
    let mut passes = 0;
    for length in [1, 3, 100] {
        let code = any_code(&mut rng, length);
        for value in 0..=u16::MAX {
            let to_the_end = value.wrapping_neg();
            for (w, l) in [(value, 4), (400, value), (value, to_the_end), (value, to_the_end | 4)] {
                let (answer, _) = packed(&code, w, l, BLOCK_BYTES);
                assert_eq!(number(&answer), if is_window(length, w, l) { 0 } else { 8 });
                passes += usize::from(answer.is_ok());
            }
        }
    }
    assert!(passes > 100_000, "{passes}");
}

#[test]
fn windows_and_code_of_any_kind() {
    let mut rng = Rng::new(405);
    let mut tally = [0; 17];
    for _ in 0..rounds(30_000) {
        let length = match rng.below(4) {
            0 => rng.below(3),
            1 => rng.between(MAX_CODE - 1, MAX_CODE + 2),
            _ => rng.below(1_000),
        };
        let code = any_code(&mut rng, length);
        let (w, l) = match rng.below(3) {
            0 => generate::any_window(&mut rng),
            1 => generate::bad_window(&mut rng, length.clamp(1, MAX_CODE)),
            _ => generate::window(&mut rng, length.clamp(1, MAX_CODE)),
        };
        let right = blocks_needed(length) * BLOCK_BYTES;
        let out = if rng.one_in(3) { rng.below(2 * right + 2) } else { right };
        tally[number(&packed(&code, w, l, out).0)] += 1;
    }
    let [fit, by_window, by_code, by_output] = [0, 8, 15, 16].map(|number| tally[number]);
    assert_eq!(fit + by_window + by_code + by_output, rounds(30_000));
    assert!(fit > 3_000 && by_window > 3_000, "{tally:?}");
    assert!(by_code > 3_000 && by_output > 1_000, "{tally:?}");
}

#[test]
fn code_length_then_window_then_output() {
    let mut rng = Rng::new(406);
    let code = any_code(&mut rng, MAX_CODE + 1);
    for length in [0, 10, MAX_CODE + 1] {
        for (w, l) in [(32_000, 4), (32_001, 4), (32_000, 0)] {
            for out in [0, 511, BLOCK_BYTES] {
                let expected = match (length, (w, l), out) {
                    (0 | 15_937, _, _) => 15,
                    (_, (32_000, 4), BLOCK_BYTES) => 0,
                    (_, (32_000, 4), _) => 16,
                    _ => 8,
                };
                let (answer, _) = packed(&code[..length], w, l, out);
                assert_eq!(number(&answer), expected, "{length} {w} {l} {out}");
            }
        }
    }
}

#[test]
fn the_sample_of_the_bench_table() {
    let (answer, image) = packed(&SAMPLE, 256, 256, BLOCK_BYTES);
    assert_eq!(answer, Ok(()));
    assert_eq!(halfword(&image, SUM_FIELD), 0xC090);
    let layout = reference::image::check(&image);
    assert_eq!(layout, Ok(Layout { c: 14, w: 256, l: 256 }));
}
