use reference::generate::{self, DamageKind, Rng};
use reference::image::{
    block, blocks_needed, check, code, halfword, is_window, mend_sum, pack, pack_file,
    set_halfword, sum_from, BlockReader, Layout, BLOCKS_FIELD, BLOCK_BYTES, BLOCK_CODE,
    BLOCK_HALFWORDS, CODE_FIELD, MARK, MARK_FIELD, MAX_BLOCKS, MAX_CODE, NUMBER_FIELD, SUM_FIELD,
    USED_FIELD, WINDOW_LENGTH_FIELD, WINDOW_START_FIELD,
};
use reference::refusal::Refusal;
use reference::table::SAMPLE;

fn refused<T>(number: u8, place: u16) -> Result<T, Refusal> {
    Err(Refusal { number, place })
}

fn some_code(length: usize) -> Vec<u16> {
    (0..length).map(|i| (i as u16).wrapping_mul(40_503) | 1).collect()
}

/// A well-formed file of a given number of full blocks.
fn full_file(blocks: usize) -> Vec<u8> {
    pack_file(&some_code(blocks * BLOCK_CODE), 0x8000, 0x100).unwrap()
}

/// Sets one halfword of one block and mends the sum.
fn set_field(file: &mut [u8], block: usize, field: usize, value: u16) {
    let block = &mut file[block * BLOCK_BYTES..(block + 1) * BLOCK_BYTES];
    set_halfword(block, field, value);
    mend_sum(block);
}

#[test]
fn numbers_of_the_format() {
    assert_eq!((BLOCK_BYTES, MAX_CODE, MARK), (512, 15_936, 0xD0C1));
    let needed = [1, 248, 249, 250, 498, 499, 15_936].map(blocks_needed);
    assert_eq!(needed, [1, 1, 1, 2, 2, 3, 64]);
    assert_eq!(blocks_needed(0), 0);
}

#[test]
fn packed_files_give_back_their_code() {
    let mut rng = Rng::new(4);
    let special = [1, 2, 248, 249, 250, 498, 499, 15_935, 15_936];
    let random = (0..100).map(|_| rng.between(1, MAX_CODE));
    let lengths: Vec<usize> = special.into_iter().chain(random).collect();
    for length in lengths {
        let (w, l) = generate::window(&mut rng, length);
        let packed = some_code(length);
        let file = pack_file(&packed, w, l).unwrap();
        assert_eq!(file.len(), BLOCK_BYTES * blocks_needed(length));
        let layout = Layout { c: 2 * length as u16, w, l };
        assert_eq!(check(&file), Ok(layout));
        assert_eq!(code(&file), packed);
    }
}

#[test]
fn a_packed_block_field_by_field() {
    let packed = some_code(300);
    let file = pack_file(&packed, 1000, 2000).unwrap();
    for (number, used) in [(0, 249), (1, 51)] {
        let block = &file[number * BLOCK_BYTES..(number + 1) * BLOCK_BYTES];
        let header: Vec<u16> = (0..6).map(|i| halfword(block, i)).collect();
        assert_eq!(header, [0xD0C1, number as u16, used, 1000, 2000, 2]);
        for place in 0..249 {
            let expected = packed.get(249 * number + place).copied().unwrap_or(0);
            assert_eq!(halfword(block, 6 + place), expected);
        }
        let sum: u32 = (0..256).map(|i| u32::from(halfword(block, i))).sum();
        assert_eq!(sum % 65_536, 0);
    }
}

#[test]
fn the_packer_refuses_in_order_and_writes_nothing() {
    let mut out = vec![0xAA; 1024];
    let good = some_code(300);
    let long = some_code(MAX_CODE + 1);
    assert_eq!(pack(&[], 1, 1, &mut out), refused(15, 0));
    assert_eq!(pack(&long, 1, 1, &mut out), refused(15, 0));
    assert_eq!(pack(&good, 1000, 6, &mut out), refused(8, 0));
    assert_eq!(pack(&good, 596, 4, &mut out[..3]), refused(8, 0));
    assert_eq!(pack(&good, 600, 4, &mut out[..512]), refused(16, 0));
    assert_eq!(pack(&good[..249], 600, 4, &mut out), refused(16, 0));
    assert_eq!(pack(&good, 600, 4, &mut out[..1023]), refused(16, 0));
    assert_eq!(pack(&good, 600, 4, &mut []), refused(16, 0));
    assert!(out.iter().all(|&byte| byte == 0xAA));
    assert_eq!(pack(&good, 600, 4, &mut out), Ok(()));
    assert!(check(&out).is_ok());
}

#[test]
fn windows() {
    assert!(is_window(2, 4, 4));
    assert!(is_window(2, 4, 65_532));
    assert!(is_window(2, 65_532, 4));
    assert!(is_window(MAX_CODE, 31_872, 4));
    for (w, l) in [(0, 4), (4, 0), (5, 4), (6, 4), (4, 5), (4, 6), (8, 65_532), (65_532, 8)] {
        assert!(!is_window(2, w, l), "{w} {l}");
    }
    assert!(!is_window(3, 4, 4));
    assert!(!is_window(MAX_CODE, 31_868, 4));
}

#[test]
fn generated_windows() {
    let mut rng = Rng::new(5);
    for _ in 0..20_000 {
        let length = rng.between(1, MAX_CODE);
        let (w, l) = generate::window(&mut rng, length);
        assert!(is_window(length, w, l), "{length} {w} {l}");
        let (w, l) = generate::bad_window(&mut rng, length);
        assert!(!is_window(length, w, l), "{length} {w} {l}");
    }
}

#[test]
fn lengths_of_files() {
    let file = full_file(3);
    for length in [0, 1, 511, 513, 1023, 1025, 1535] {
        assert_eq!(check(&file[..length]), refused(2, 0), "{length}");
    }
    assert!(check(&full_file(MAX_BLOCKS)).is_ok());
    assert_eq!(check(&full_file(MAX_BLOCKS).repeat(2)), refused(2, 0));
    let mut one_more = full_file(MAX_BLOCKS);
    one_more.extend_from_within(..BLOCK_BYTES);
    assert_eq!(check(&one_more), refused(2, 0));
}

#[test]
fn one_wrong_field() {
    let wrong = [
        (MARK_FIELD, 0xC1D0, 3),
        (NUMBER_FIELD, 9, 5),
        (BLOCKS_FIELD, 3, 5),
        (USED_FIELD, 0, 6),
        (USED_FIELD, 248, 6),
        (USED_FIELD, 250, 6),
        (USED_FIELD, 0xFFFF, 6),
    ];
    for (field, value, number) in wrong {
        for block in 0..4 {
            let mut file = full_file(4);
            set_field(&mut file, block, field, value);
            assert_eq!(check(&file), refused(number, block as u16), "{field} {value}");
        }
    }
    for block in 1..4 {
        for (field, value) in [(WINDOW_START_FIELD, 0x8004), (WINDOW_LENGTH_FIELD, 0x104)] {
            let mut file = full_file(4);
            set_field(&mut file, block, field, value);
            assert_eq!(check(&file), refused(7, block as u16));
            set_field(&mut file, 0, field, value);
            let first_other = if block == 1 { 2 } else { 1 };
            assert_eq!(check(&file), refused(7, first_other));
        }
    }
}

#[test]
fn sums_of_equal_halfwords() {
    for n in 0..BLOCK_HALFWORDS {
        let count = 256 - n;
        assert_eq!(sum_from(&[0x00; BLOCK_BYTES], n), 0);
        // Each is 65,536 - 1, so what they lack of whole 65,536s is their count.
        assert_eq!(usize::from(sum_from(&[0xFF; BLOCK_BYTES], n)), 65_536 - count);
        // Each is 0x8000, so two of them are 65,536.
        let halves = [0x00, 0x80].repeat(BLOCK_HALFWORDS);
        assert_eq!(sum_from(&halves, n), if count % 2 == 0 { 0 } else { 0x8000 });
    }
}

#[test]
fn sums_of_one_halfword_and_zeros() {
    for place in 0..BLOCK_HALFWORDS {
        let mut block = [0; BLOCK_BYTES];
        set_halfword(&mut block, place, 0x1234);
        assert_eq!((block[2 * place], block[2 * place + 1]), (0x34, 0x12));
        for n in 0..BLOCK_HALFWORDS {
            let expected = if n <= place { 0x1234 } else { 0 };
            assert_eq!(sum_from(&block, n), expected, "{place} {n}");
        }
    }
}

/// Added up by hand from the last halfword, 0xC090. Only zeros are before it, down to halfword 12,
/// which is the last instruction and 0 as well.
#[test]
fn sums_of_the_sample() {
    let file = pack_file(&SAMPLE, 256, 256).unwrap();
    let mut expected = [0xC090; BLOCK_HALFWORDS];
    expected[6..12].copy_from_slice(&[0x2D37, 0x0B3B, 0xCB33, 0xA8B3, 0x64A1, 0x2091]);
    expected[..6].copy_from_slice(&[0x0000, 0x2F3F, 0x2F3F, 0x2F38, 0x2E38, 0x2D38]);
    for (n, sum) in expected.into_iter().enumerate() {
        assert_eq!(sum_from(&file, n), sum, "{n}");
    }
}

/// No block behind the first is added to its sum.
#[test]
fn sums_end_with_the_block() {
    let mut file = full_file(2);
    let sums: Vec<u16> = (0..BLOCK_HALFWORDS).map(|n| sum_from(&file, n)).collect();
    file[BLOCK_BYTES..].fill(0x55);
    for (n, &expected) in sums.iter().enumerate() {
        assert_eq!(sum_from(&file, n), expected, "{n}");
    }
}

#[test]
fn a_wrong_sum() {
    let mut file = full_file(2);
    for bit in 0..8 * file.len() {
        file[bit / 8] ^= 1 << (bit % 8);
        let block = bit / 8 / BLOCK_BYTES;
        let number = if bit / 8 % BLOCK_BYTES < 2 { 3 } else { 4 };
        assert_eq!(check(&file), refused(number, block as u16), "bit {bit}");
        file[bit / 8] ^= 1 << (bit % 8);
    }
    assert!(check(&file).is_ok());
}

#[test]
fn halfwords_behind_the_code() {
    for used in [1, 2, 100, 248] {
        let file = pack_file(&some_code(BLOCK_CODE + used), 0x8000, 4).unwrap();
        for place in CODE_FIELD..SUM_FIELD {
            let mut changed = file.clone();
            let old = halfword(&file[BLOCK_BYTES..], place);
            set_field(&mut changed, 1, place, old ^ 0x0100);
            let expected = if place < CODE_FIELD + used { check(&file) } else { refused(6, 1) };
            assert_eq!(check(&changed), expected, "{used} {place}");
        }
    }
}

#[test]
fn a_full_last_block_and_a_fuller_one() {
    let mut file = pack_file(&some_code(10), 1000, 4).unwrap();
    set_field(&mut file, 0, USED_FIELD, 249);
    assert_eq!(check(&file), Ok(Layout { c: 498, w: 1000, l: 4 }));
    set_field(&mut file, 0, USED_FIELD, 9);
    assert_eq!(check(&file), refused(6, 0));
}

#[test]
fn the_first_no_counts() {
    // All of checks 3 to 6 fail in block 1, check 3 in block 2, check 8 for the file.
    let mut file = full_file(3);
    for block in 0..3 {
        set_field(&mut file, block, WINDOW_LENGTH_FIELD, 0);
    }
    assert_eq!(check(&file), refused(8, 0));
    set_field(&mut file, 2, MARK_FIELD, 0);
    assert_eq!(check(&file), refused(3, 2));
    set_field(&mut file, 1, WINDOW_START_FIELD, 0);
    assert_eq!(check(&file), refused(7, 1));
    set_field(&mut file, 1, USED_FIELD, 0);
    assert_eq!(check(&file), refused(6, 1));
    set_field(&mut file, 1, BLOCKS_FIELD, 0);
    assert_eq!(check(&file), refused(5, 1));
    file[2 * BLOCK_BYTES - 1] ^= 1;
    assert_eq!(check(&file), refused(4, 1));
    file[BLOCK_BYTES] ^= 1;
    assert_eq!(check(&file), refused(3, 1));
    file.push(0);
    assert_eq!(check(&file), refused(2, 0));
}

#[test]
fn the_reader_gives_every_block_once() {
    for blocks in [1, 2, 63, 64] {
        let file = full_file(blocks);
        let mut reader = BlockReader::open(&file).unwrap();
        for expected in file.chunks(BLOCK_BYTES) {
            assert_eq!(reader.next(), Some(expected));
        }
        assert_eq!(reader.next(), None);
        assert_eq!(reader.next(), None);
    }
    let mut file = full_file(3);
    set_field(&mut file, 2, NUMBER_FIELD, 0);
    assert_eq!(BlockReader::open(&file).err(), refused::<()>(5, 2).err());
}

#[test]
fn a_block_none_left_or_refused() {
    let mut file = full_file(3);
    for (n, expected) in file.chunks(BLOCK_BYTES).enumerate() {
        assert_eq!(block(&file, n), Ok(Some(expected)));
    }
    for n in [3, 4, 1 << 55, usize::MAX] {
        assert_eq!(block(&file, n), Ok(None));
    }
    set_field(&mut file, 2, NUMBER_FIELD, 0);
    for n in [0, 1, 2, 3, usize::MAX] {
        assert_eq!(block(&file, n), refused(5, 2));
    }
    assert_eq!(block(&[], 0), refused(2, 0));
}

/// The number a damage must give, where that is certain from the damage alone.
fn certain_number(damage: &generate::Damage, blocks: usize) -> Option<u8> {
    let mended = |field| match field {
        MARK_FIELD => Some(3),
        SUM_FIELD => Some(4),
        NUMBER_FIELD | BLOCKS_FIELD => Some(5),
        USED_FIELD if damage.block + 1 < blocks => Some(6),
        WINDOW_START_FIELD | WINDOW_LENGTH_FIELD if blocks > 1 => Some(7),
        _ => None,
    };
    match damage.kind {
        DamageKind::MendedField => mended(damage.field),
        DamageKind::UnmendedField if damage.field == MARK_FIELD => Some(3),
        DamageKind::UnmendedField => Some(4),
        DamageKind::Empty => Some(2),
        _ => None,
    }
}

#[test]
fn damaged_files() {
    let mut rng = Rng::new(6);
    let mut certain = 0;
    for round in 0..3_000 {
        let blocks = if round < 64 { round + 1 } else { rng.between(1, 6) };
        let file = generate::image(&mut rng, blocks);
        assert!(check(&file).is_ok());
        let (damaged, damage) = generate::damage(&mut rng, &file);
        let answer = check(&damaged);
        if let Some(number) = certain_number(&damage, blocks) {
            certain += 1;
            let is_window = number == 7 && damage.block == 0;
            let place = if is_window { 1 } else { damage.block };
            let place = if number == 2 { 0 } else { place };
            assert_eq!(answer, refused(number, place as u16), "{damage:?}");
        }
        match damage.kind {
            DamageKind::Truncated if damaged.len() % 512 == 0 && !damaged.is_empty() => {
                assert_eq!(answer, refused(5, 0));
            }
            DamageKind::Truncated => assert_eq!(answer, refused(2, 0)),
            DamageKind::Extended => assert!(answer.is_err()),
            DamageKind::SwappedBlocks if damaged != file => {
                assert_eq!(answer, refused(5, damage.block as u16));
            }
            DamageKind::SwappedBlocks => assert!(answer.is_ok()),
            DamageKind::Window => {
                assert!(answer.is_ok() || answer == refused(8, 0), "{answer:?}");
            }
            _ => {}
        }
    }
    assert!(certain > 800, "only {certain}");
}
