//! Sums of blocks from the back, a halfword a call: against the reference's plain sums, and
//! against the answers of check 4.

use reference::generate::{self, DamageKind, Rng};
use reference::image::{
    BLOCK_BYTES, BLOCK_HALFWORDS, BLOCKS_FIELD, Layout, MARK_FIELD, MAX_BLOCKS, NUMBER_FIELD,
    SUM_FIELD, USED_FIELD, WINDOW_LENGTH_FIELD, WINDOW_START_FIELD, halfword, mend_sum,
    set_halfword, sum_from,
};
use reference::refusal::{BLOCK_MARK, BLOCK_SUM, Refusal};
use reference::table::SAMPLE;

use crate::support::{answer, edges, long, number, refusal, rounds};

/// The library's sum after each call, at the place of the halfword that the call was for. Each is
/// compared with the reference's.
fn sums(block: &[u8]) -> [u16; BLOCK_HALFWORDS] {
    let mut sums = [0; BLOCK_HALFWORDS];
    let mut sum = 0;
    for n in (0..BLOCK_HALFWORDS).rev() {
        sum = paw::add_to_sum(sum, halfword(block, n));
        assert_eq!(sum, sum_from(block, n), "halfwords {n} to 255");
        sums[n] = sum;
    }
    sums
}

/// The library's sum of a whole block, as a driver makes it.
fn sum(block: &[u8]) -> u16 {
    (0..BLOCK_HALFWORDS).rev().fold(0, |sum, n| paw::add_to_sum(sum, halfword(block, n)))
}

/// A block of halfwords that are all of one kind: anything, near a carry, or almost always 0.
fn any_block(rng: &mut Rng, edges: &[u16]) -> [u8; BLOCK_BYTES] {
    let kind = rng.below(3);
    let mut block = [0; BLOCK_BYTES];
    for n in 0..BLOCK_HALFWORDS {
        let value = match kind {
            0 => rng.u16(),
            1 => rng.pick(edges),
            _ => rng.u16() * u16::from(rng.one_in(16)),
        };
        set_halfword(&mut block, n, value);
    }
    block
}

#[test]
fn after_every_halfword_of_any_block() {
    let mut rng = Rng::new(1_001);
    let edges = edges();
    // At each halfword, how many sums went beyond 65,535.
    let mut wrapped = [0; BLOCK_HALFWORDS];
    for _ in 0..rounds(4_000) {
        let block = any_block(&mut rng, &edges);
        for (n, sum) in sums(&block).into_iter().enumerate() {
            wrapped[n] += usize::from(sum < halfword(&block, n));
        }
    }
    // The first call adds to 0.
    assert_eq!(wrapped[BLOCK_HALFWORDS - 1], 0);
    for (n, &count) in wrapped[..BLOCK_HALFWORDS - 1].iter().enumerate() {
        assert!((rounds(1_000)..rounds(2_000)).contains(&count), "halfword {n}: {count} times");
    }
}

/// A halfword of two equal bytes is 257 times the byte.
#[test]
fn after_every_halfword_of_a_block_of_one_byte() {
    for byte in 0..=u8::MAX {
        for (n, sum) in sums(&[byte; BLOCK_BYTES]).into_iter().enumerate() {
            let by_hand = (BLOCK_HALFWORDS - n) * 257 * usize::from(byte) % 65_536;
            assert_eq!(usize::from(sum), by_hand, "{byte:#04x}, halfwords {n} to 255");
        }
    }
}

#[test]
fn after_every_halfword_if_all_but_one_are_0() {
    let mut rng = Rng::new(1_002);
    for place in 0..BLOCK_HALFWORDS {
        for value in [1, 0x0080, 0x0100, 0x7FFF, 0x8000, 0xFFFF, rng.u16()] {
            let mut block = [0; BLOCK_BYTES];
            set_halfword(&mut block, place, value);
            let sums = sums(&block);
            assert!(sums[..=place].iter().all(|&sum| sum == value), "{value:#06x} at {place}");
            assert!(sums[place + 1..].iter().all(|&sum| sum == 0), "{value:#06x} at {place}");
        }
    }
}

#[test]
fn after_every_halfword_of_images() {
    let mut rng = Rng::new(1_003);
    for blocks in 1..=MAX_BLOCKS {
        for _ in 0..rounds(2) {
            let file = generate::image(&mut rng, blocks);
            for block in file.chunks_exact(BLOCK_BYTES) {
                let sums = sums(block);
                assert_eq!(sums[SUM_FIELD], halfword(block, SUM_FIELD));
                assert_eq!(sums[MARK_FIELD], 0);
            }
        }
    }
}

/// Added up by hand from 0xC090, the last halfword.
#[test]
fn after_every_halfword_of_the_sample_of_the_bench_table() {
    let mut file = [0; paw::image_bytes(SAMPLE.len())];
    paw::pack(&SAMPLE, 256, 256, &mut file).unwrap();
    let sums = sums(&file);
    assert_eq!(sums[..6], [0x0000, 0x2F3F, 0x2F3F, 0x2F38, 0x2E38, 0x2D38]);
    assert_eq!(sums[6..12], [0x2D37, 0x0B3B, 0xCB33, 0xA8B3, 0x64A1, 0x2091]);
    assert_eq!(sums[12..], [0xC090; 244]);
    assert_eq!((paw::BLOCK_HALFWORDS, paw::BLOCK_BYTES), (256, 512));
}

#[test]
fn every_sum_with_many_halfwords() {
    let mut rng = Rng::new(1_004);
    let halfwords: Vec<u16> = if long() {
        (0..=u16::MAX).collect()
    } else {
        edges().into_iter().chain((0..200).map(|_| rng.u16())).collect()
    };
    let mut wrapped = 0;
    for sum in 0..=u16::MAX {
        for &halfword in &halfwords {
            let plain = u32::from(sum) + u32::from(halfword);
            let expected = (plain % 65_536) as u16;
            assert_eq!(paw::add_to_sum(sum, halfword), expected, "{sum} and {halfword}");
            wrapped += usize::from(plain > 65_535);
        }
    }
    // A halfword goes beyond 65,535 with as many sums as its value says.
    let expected: usize = halfwords.into_iter().map(usize::from).sum();
    assert_eq!(wrapped, expected);
}

/// Several drivers at work at once: no call knows of another.
#[test]
fn sums_of_blocks_that_come_in_together() {
    let mut rng = Rng::new(1_005);
    let edges = edges();
    for _ in 0..rounds(500) {
        let blocks: [_; 4] = std::array::from_fn(|_| any_block(&mut rng, &edges));
        let mut summed = [0; 4];
        let mut left = [BLOCK_HALFWORDS; 4];
        while left != [0; 4] {
            let driver = rng.below(4);
            if left[driver] > 0 {
                left[driver] -= 1;
                let next = halfword(&blocks[driver], left[driver]);
                summed[driver] = paw::add_to_sum(summed[driver], next);
            }
        }
        assert_eq!(summed, blocks.map(|block| sum_from(&block, 0)));
    }
}

/// What both engines answer to a file of whole blocks, in which check 4 must answer as the calls.
fn checked(file: &[u8]) -> Result<Layout, Refusal> {
    let expected = reference::image::check(file);
    assert_eq!(answer(paw::check(file)), expected, "a file of {} bytes", file.len());
    if expected.is_err() {
        assert_eq!(answer(paw::verify(file)), expected);
        assert_eq!(paw::block(file, 0).map_err(refusal).err(), expected.err());
    }
    assert_check_4(file, &expected);
    expected
}

/// Asserts by the library's calls what an answer says of check 4: the sum is 0 in each block that
/// passed, and another in the one that was refused.
fn assert_check_4(file: &[u8], answer: &Result<Layout, Refusal>) {
    let blocks: Vec<&[u8]> = file.chunks_exact(BLOCK_BYTES).collect();
    let (passed, is_refused) = match *answer {
        Err(Refusal { number: 3, place }) => (place.into(), false),
        Err(Refusal { number: 4, place }) => (place.into(), true),
        Err(Refusal { number: 5..=7, place }) => (usize::from(place) + 1, false),
        _ => (blocks.len(), false),
    };
    assert!(blocks[..passed].iter().all(|block| sum(block) == 0), "{answer:?}");
    assert!(!is_refused || sum(blocks[passed]) != 0, "{answer:?}");
}

fn refused(number: u8, block: usize) -> Result<Layout, Refusal> {
    Err(Refusal { number, place: block as u16 })
}

/// What a block is refused for whose one damaged halfword is this: nobody asks for the sum where
/// the mark is wrong.
fn number_at(field: usize) -> u8 {
    if field == MARK_FIELD { BLOCK_MARK } else { BLOCK_SUM }
}

fn block_mut(file: &mut [u8], block: usize) -> &mut [u8] {
    &mut file[block * BLOCK_BYTES..][..BLOCK_BYTES]
}

/// Adds to a halfword of a block, modulo 65,536.
fn change(block: &mut [u8], field: usize, by: u16) {
    set_halfword(block, field, halfword(block, field).wrapping_add(by));
}

/// A change that is one, often of a single bit.
fn any_change(rng: &mut Rng) -> u16 {
    match rng.below(3) {
        0 => 1 << rng.below(16),
        1 => (1u16 << rng.below(16)).wrapping_neg(),
        _ => rng.between(1, 65_535) as u16,
    }
}

/// A halfword of a block but the mark; those with a meaning of their own come often.
fn any_field(rng: &mut Rng) -> usize {
    let fields = [
        NUMBER_FIELD,
        USED_FIELD,
        WINDOW_START_FIELD,
        WINDOW_LENGTH_FIELD,
        BLOCKS_FIELD,
        SUM_FIELD,
    ];
    if rng.flip() { rng.pick(&fields) } else { rng.between(1, SUM_FIELD) }
}

#[test]
fn valid_blocks_pass() {
    let mut rng = Rng::new(1_006);
    for _ in 0..rounds(20_000) {
        let file = generate::image(&mut rng, 1);
        assert!(checked(&file).is_ok());
        assert_eq!(sum(&file), 0);
    }
}

#[test]
fn every_sum_but_0_is_refused() {
    let mut rng = Rng::new(1_007);
    let file = generate::image(&mut rng, 1);
    for wrong in 1..=u16::MAX {
        let mut damaged = file.clone();
        change(&mut damaged, SUM_FIELD, wrong);
        assert_eq!(sum(&damaged), wrong);
        assert_eq!(checked(&damaged), refused(4, 0), "{wrong}");
    }
}

#[test]
fn one_damaged_halfword() {
    let mut rng = Rng::new(1_008);
    let mut tally = [0; 9];
    for _ in 0..rounds(10) {
        let file = generate::image(&mut rng, 1);
        for field in 0..BLOCK_HALFWORDS {
            let bits = (0..16).map(|bit| 1 << bit);
            let changes: Vec<u16> = bits.chain((0..16).map(|_| any_change(&mut rng))).collect();
            for by in changes {
                let mut damaged = file.clone();
                change(&mut damaged, field, by);
                assert_eq!(sum(&damaged), by);
                let answer = checked(&damaged);
                assert_eq!(answer, refused(number_at(field), 0), "halfword {field}, {by}");
                tally[number(&answer)] += 1;
            }
        }
    }
    assert_eq!((tally[3], tally[4]), (rounds(320), rounds(255 * 320)));
}

/// Two halfwords are damaged, the sum is as before: check 4 has nothing to say, others may.
#[test]
fn damage_that_leaves_the_sum() {
    let mut rng = Rng::new(1_009);
    let mut tally = [0; 9];
    for _ in 0..rounds(100_000) {
        let mut file = generate::image(&mut rng, 1);
        let one = if rng.one_in(8) { MARK_FIELD } else { any_field(&mut rng) };
        let other = any_field(&mut rng);
        if one == other {
            continue;
        }
        // One of the changes lets the two change places.
        let difference = halfword(&file, other).wrapping_sub(halfword(&file, one));
        let by = if rng.flip() && difference != 0 { difference } else { any_change(&mut rng) };
        change(&mut file, one, by);
        change(&mut file, other, by.wrapping_neg());
        assert_eq!(sum(&file), 0);
        let answer = checked(&file);
        assert_ne!(number(&answer), 4, "halfwords {one} and {other}, {by}");
        assert_eq!(answer == refused(3, 0), one == MARK_FIELD, "halfwords {one} and {other}");
        tally[number(&answer)] += 1;
    }
    assert_eq!(tally[4], 0);
    for number in [0, 3, 5, 6, 8] {
        assert!(tally[number] > rounds(1_000), "answer {number}: {tally:?}");
    }
}

/// What checks 3 and 4 find in a block.
#[derive(Clone, Copy, Debug)]
enum Fault {
    /// The mark is wrong, and the sum is mended.
    Mark,
    /// The sum is wrong.
    Sum,
    /// Both are wrong.
    MarkAndSum,
}

impl Fault {
    const ALL: [Fault; 3] = [Fault::Mark, Fault::Sum, Fault::MarkAndSum];

    /// The check that the block then fails.
    fn number(self) -> u8 {
        match self {
            Fault::Mark | Fault::MarkAndSum => BLOCK_MARK,
            Fault::Sum => BLOCK_SUM,
        }
    }

    /// Brings the fault into a valid block.
    fn bring_into(self, rng: &mut Rng, block: &mut [u8]) {
        if let Fault::Mark | Fault::MarkAndSum = self {
            change(block, MARK_FIELD, any_change(rng));
            mend_sum(block);
        }
        if let Fault::Sum | Fault::MarkAndSum = self {
            change(block, any_field(rng), any_change(rng));
        }
        assert_eq!(sum(block) == 0, matches!(self, Fault::Mark));
    }
}

#[test]
fn a_wrong_mark_comes_before_a_wrong_sum() {
    let mut rng = Rng::new(1_010);
    let mut tally = [0; 3];
    for blocks in 1..=MAX_BLOCKS {
        let file = generate::image(&mut rng, blocks);
        for block in 0..blocks {
            for fault in Fault::ALL {
                for _ in 0..rounds(1) {
                    let mut faulty = file.clone();
                    fault.bring_into(&mut rng, block_mut(&mut faulty, block));
                    let expected = refused(fault.number(), block);
                    assert_eq!(checked(&faulty), expected, "{fault:?} in {block} of {blocks}");
                    tally[fault as usize] += 1;
                }
            }
        }
    }
    // Every block of every number of blocks.
    assert_eq!(tally, [rounds(MAX_BLOCKS * (MAX_BLOCKS + 1) / 2); 3]);
}

#[test]
fn the_first_of_two_faulty_blocks_counts() {
    let mut rng = Rng::new(1_011);
    let mut tally = [[0; 3]; 3];
    for round in 0..rounds(5_000) {
        let blocks = if round < MAX_BLOCKS - 1 { round + 2 } else { rng.between(2, 6) };
        let file = generate::image(&mut rng, blocks);
        let first = rng.below(blocks - 1);
        let later = rng.between(first + 1, blocks - 1);
        for one in Fault::ALL {
            for other in Fault::ALL {
                let mut faulty = file.clone();
                one.bring_into(&mut rng, block_mut(&mut faulty, first));
                other.bring_into(&mut rng, block_mut(&mut faulty, later));
                let expected = refused(one.number(), first);
                assert_eq!(checked(&faulty), expected, "{one:?} in {first}, {other:?} in {later}");
                tally[one as usize][other as usize] += 1;
            }
        }
    }
    assert_eq!(tally, [[rounds(5_000); 3]; 3]);
}

/// One halfword is left wrong. Then another gets a wrong value, in that block or another, whose
/// sum is mended.
#[test]
fn a_wrong_sum_among_other_damage() {
    let mut rng = Rng::new(1_012);
    let mut tally = [0; 9];
    for _ in 0..rounds(20_000) {
        let blocks = rng.between(1, 5);
        let file = generate::image(&mut rng, blocks);
        let (unmended, damage) = generate::damage_as(&mut rng, &file, DamageKind::UnmendedField);
        let expected = refused(number_at(damage.field), damage.block);
        assert_eq!(checked(&unmended), expected, "{damage:?}");
        let (twice, _) = generate::damage_as(&mut rng, &unmended, DamageKind::MendedField);
        tally[number(&checked(&twice))] += 1;
    }
    assert!(tally[3..8].iter().all(|&count| count > rounds(100)), "{tally:?}");
}
