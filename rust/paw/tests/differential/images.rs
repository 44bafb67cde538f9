//! Image files: the answers of checks 2 to 8, and the blocks that a reader gives out.

use reference::generate::{self, DamageKind, Rng};
use reference::image::{
    BLOCK_BYTES, BLOCK_CODE, BLOCKS_FIELD, CODE_FIELD, Layout, MAX_BLOCKS, SUM_FIELD, USED_FIELD,
    WINDOW_LENGTH_FIELD, WINDOW_START_FIELD, mend_sum, pack_file, set_halfword,
};
use reference::refusal::Refusal;

use crate::support::{Guarded, answer, number, refusal, rounds};

/// What both engines answer to a file.
fn checked(file: &[u8]) -> Result<Layout, Refusal> {
    let expected = reference::image::check(file);
    assert_eq!(answer(paw::check(file)), expected, "a file of {} bytes", file.len());
    expected
}

/// A file with one halfword replaced, the sum mended.
fn with_field(file: &[u8], block: usize, field: usize, value: u16) -> Vec<u8> {
    let mut changed = file.to_vec();
    let block = &mut changed[block * BLOCK_BYTES..][..BLOCK_BYTES];
    set_halfword(block, field, value);
    mend_sum(block);
    changed
}

#[test]
fn images_of_every_number_of_blocks() {
    let mut rng = Rng::new(301);
    for blocks in 1..=MAX_BLOCKS {
        for _ in 0..rounds(4) {
            let file = generate::image(&mut rng, blocks);
            assert!(checked(&file).is_ok());
            // At an odd address, too.
            assert!(checked(&Guarded::new(&file)).is_ok());
        }
    }
}

#[test]
fn damaged_images_of_every_number_of_blocks() {
    let mut rng = Rng::new(302);
    let mut tally = [0; 9];
    for blocks in 1..=MAX_BLOCKS {
        for _ in 0..4 {
            let file = generate::image(&mut rng, blocks);
            for kind in DamageKind::ALL {
                for _ in 0..rounds(3_200 / blocks) {
                    let (damaged, _) = generate::damage_as(&mut rng, &file, kind);
                    tally[number(&checked(&damaged))] += 1;
                }
            }
        }
    }
    assert_eq!(tally[1], 0);
    for (number, count) in tally.iter().enumerate().filter(|(number, _)| *number != 1) {
        assert!(*count > 3_000, "answer {number}: {count} times");
    }
}

#[test]
fn many_short_damaged_images() {
    let mut rng = Rng::new(303);
    let mut refused = 0;
    for _ in 0..rounds(500) {
        let blocks = rng.between(1, 3);
        let file = generate::image(&mut rng, blocks);
        for _ in 0..1_000 {
            let (once, _) = generate::damage(&mut rng, &file);
            let twice = match once.len() {
                0 => once,
                length if length % BLOCK_BYTES != 0 || rng.flip() => once,
                _ => generate::damage(&mut rng, &once).0,
            };
            refused += usize::from(checked(&twice).is_err());
        }
    }
    assert!((rounds(300_000)..rounds(500_000)).contains(&refused), "{refused}");
}

#[test]
fn every_length_of_a_file() {
    let mut rng = Rng::new(304);
    let code: Vec<u16> = (0..MAX_BLOCKS * BLOCK_CODE).map(|_| rng.u16()).collect();
    let mut bytes = pack_file(&code, 32_000, 400).unwrap();
    bytes.extend_from_within(..2 * BLOCK_BYTES);
    for length in 0..=bytes.len() {
        let blocks = length / BLOCK_BYTES;
        let whole = length % BLOCK_BYTES == 0 && (1..=MAX_BLOCKS).contains(&blocks);
        let expected = match (whole, blocks) {
            (true, MAX_BLOCKS) => Ok(Layout { c: 31_872, w: 32_000, l: 400 }),
            (true, _) => Err(Refusal { number: 5, place: 0 }),
            (false, _) => Err(Refusal { number: 2, place: 0 }),
        };
        assert_eq!(checked(&bytes[..length]), expected, "{length} bytes");
    }
}

#[test]
fn every_value_of_every_field() {
    let mut rng = Rng::new(305);
    let one = generate::image(&mut rng, 1);
    let code: Vec<u16> = (0..600).map(|_| rng.u16()).collect();
    let three = pack_file(&code, 2_000, 48).unwrap();
    let mut tally = [0; 9];
    for (file, block) in [(&one, 0), (&three, 0), (&three, 1), (&three, 2)] {
        for field in 0..CODE_FIELD {
            for value in 0..=u16::MAX {
                tally[number(&checked(&with_field(file, block, field, value)))] += 1;
            }
        }
    }
    let by_mark = 4 * 65_535;
    // A wrong number of a block, and a wrong count of blocks.
    let by_number = 2 * 4 * 65_535;
    assert_eq!((tally[3], tally[4], tally[5]), (by_mark, 0, by_number));
    assert!(tally[6] > 4 * 65_000 && tally[7] > 6 * 65_000, "{tally:?}");
    assert!(tally[8] > 40_000 && tally[0] > 20_000, "{tally:?}");
}

#[test]
fn every_window_start_and_length() {
    let mut rng = Rng::new(306);
    let mut tally = [0; 9];
    for length in [1, 2, 3, 200] {
        let code: Vec<u16> = (0..length).map(|_| rng.u16()).collect();
        let file = pack_file(&code, 400, 4).unwrap();
        for value in 0..=u16::MAX {
            let moved = with_field(&file, 0, WINDOW_START_FIELD, value);
            tally[number(&checked(&moved))] += 1;
            let stretched = with_field(&file, 0, WINDOW_LENGTH_FIELD, value);
            tally[number(&checked(&stretched))] += 1;
            // A window that ends at the end of memory, or near it.
            let end = value.wrapping_neg().wrapping_add(rng.pick(&[0, 4, 0xFFFC]));
            let to_the_end = with_field(&moved, 0, WINDOW_LENGTH_FIELD, end);
            tally[number(&checked(&to_the_end))] += 1;
        }
    }
    assert_eq!(tally[0] + tally[8], 12 * 65_536);
    assert!(tally[0] > 12 * 8_000 && tally[8] > 12 * 30_000, "{tally:?}");
}

#[test]
fn every_halfword_behind_the_code() {
    let mut rng = Rng::new(307);
    let mut refused = 0;
    for used in 1..=BLOCK_CODE {
        let code: Vec<u16> = (0..BLOCK_CODE + used).map(|_| rng.u16()).collect();
        let file = pack_file(&code, 1_000, 4).unwrap();
        for field in CODE_FIELD..SUM_FIELD {
            let value = rng.pick(&[1, 0x0100, 0x8000, 0xFFFF]);
            let expected = match field < CODE_FIELD + used {
                true => Ok(Layout { c: (2 * code.len()) as u16, w: 1_000, l: 4 }),
                false => Err(Refusal { number: 6, place: 1 }),
            };
            assert_eq!(checked(&with_field(&file, 1, field, value)), expected);
            refused += usize::from(expected.is_err());
        }
    }
    assert_eq!(refused, BLOCK_CODE * (BLOCK_CODE - 1) / 2);
}

#[test]
fn every_flipped_bit() {
    let mut rng = Rng::new(308);
    let mut file = generate::image(&mut rng, 3);
    for at in 0..8 * file.len() {
        file[at / 8] ^= 1 << (at % 8);
        let refusal = checked(&file).unwrap_err();
        let in_mark = at % (8 * BLOCK_BYTES) < 16;
        assert_eq!(refusal.number, if in_mark { 3 } else { 4 }, "bit {at}");
        file[at / 8] ^= 1 << (at % 8);
    }
    assert!(checked(&file).is_ok());
}

#[test]
fn the_first_no_of_several_counts() {
    let mut rng = Rng::new(309);
    let mut tally = [0; 9];
    for _ in 0..rounds(20_000) {
        let blocks = rng.between(1, 4);
        let code: Vec<u16> = (0..BLOCK_CODE * blocks).map(|_| rng.u16()).collect();
        let mut file = pack_file(&code, 4_000, 4).unwrap();
        for _ in 0..rng.between(2, 5) {
            let block = rng.below(blocks);
            let field = rng.pick(&[0, 1, USED_FIELD, 3, 4, BLOCKS_FIELD, 7]);
            file = with_field(&file, block, field, rng.pick(&[0, 1, 250, 4_004]));
            file[block * BLOCK_BYTES + 511] ^= u8::from(rng.one_in(8));
        }
        tally[number(&checked(&file))] += 1;
    }
    assert!(tally[3..].iter().all(|&count| count > 100), "{tally:?}");
}

/// What both engines' readers answer to call `n`: the same bytes of the same file, that none is
/// left, or the same refusal.
fn given(file: &[u8], n: usize) -> Result<Option<&[u8]>, Refusal> {
    let expected = reference::image::block(file, n);
    let answer = paw::block(file, n).map_err(refusal);
    assert_eq!(answer, expected, "call {n}");
    let place = |block: Option<&[u8]>| block.map(<[u8]>::as_ptr);
    assert_eq!(answer.map(place), expected.map(place), "call {n}");
    answer
}

/// The blocks that both readers give, and that neither gives more.
fn read(file: &[u8]) -> Result<Vec<&[u8]>, Refusal> {
    let expected = reference::image::BlockReader::open(file);
    let (reader, mut expected) = match (paw::BlockReader::open(file), expected) {
        (Ok(reader), Ok(expected)) => (reader, expected),
        (Err(refused), Err(expected)) => {
            assert_eq!(refusal(refused), expected);
            // At every call, and not only at the first.
            for n in [0, 1, file.len() / BLOCK_BYTES, MAX_BLOCKS, usize::MAX] {
                assert_eq!(given(file, n), Err(expected));
            }
            return Err(expected);
        }
        (opened, expected) => panic!("{opened:?}, not {expected:?}"),
    };
    let mut blocks = Vec::new();
    for block in reader {
        // The same bytes of the same file, not a copy.
        let expected = expected.next().expect("no more blocks than there are");
        assert_eq!((block.as_ptr(), block.len()), (expected.as_ptr(), BLOCK_BYTES));
        // The reader that checks once gives what the library's does at this call.
        assert_eq!(given(file, blocks.len()), Ok(Some(block)));
        blocks.push(block);
    }
    assert_eq!(expected.next(), None);
    Ok(blocks)
}

#[test]
fn the_reader_gives_every_block_once() {
    let mut rng = Rng::new(310);
    for blocks in 1..=MAX_BLOCKS {
        let file = generate::image(&mut rng, blocks);
        let expected: Vec<&[u8]> = file.chunks(BLOCK_BYTES).collect();
        assert_eq!(read(&file).unwrap(), expected);

        let mut reader = paw::BlockReader::open(&file).unwrap();
        assert_eq!(reader.len(), blocks);
        assert_eq!(reader.by_ref().count(), blocks);
        assert_eq!([reader.next(), reader.next(), reader.next()], [None; 3]);
        // Numbers whose place in the file wraps around are numbers of no block.
        for n in [blocks, blocks + 1, 1 << 55, (1 << 55) + 1, usize::MAX] {
            assert_eq!(given(&file, n), Ok(None));
        }
    }
}

#[test]
fn the_reader_gives_no_block_of_a_refused_file() {
    let mut rng = Rng::new(311);
    let mut refused = 0;
    for round in 0..rounds(20_000) {
        let blocks = if round < MAX_BLOCKS { round + 1 } else { rng.between(1, 5) };
        let file = generate::image(&mut rng, blocks);
        let (damaged, _) = generate::damage(&mut rng, &file);
        refused += usize::from(read(&damaged).is_err());
    }
    assert!(refused > rounds(12_000), "{refused}");
}
