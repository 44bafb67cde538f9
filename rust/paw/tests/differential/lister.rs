//! The lister: number and place of every refusal, every byte that it writes, that it writes no
//! other, and that either engine's assembler makes the same code from either engine's text.

use std::collections::HashSet;

use reference::generate::{self, Rng};
use reference::image::MAX_CODE;
use reference::instruction::{Instruction, branch_target, decode, encode};
use reference::refusal::Refusal;
use reference::table::SAMPLE;

use crate::assembler::assembled;
use crate::sources::{program, text_of};
use crate::support::{Guarded, number, refusal, rounds};

type Answer = Result<Vec<u8>, Refusal>;

/// Lists by both engines into an output of `room` bytes. Compares the answers and every byte of the
/// output and around it: those that were not written are as before.
fn listed(code: &[u16], room: usize) -> Answer {
    let expected = reference::source::list(code, room);
    let mut due: Vec<u8> = (0..room).map(|at| (at * 7 + at / 256) as u8 | 0x80).collect();
    let mut output = Guarded::new(&due);
    let lent = code.to_vec();
    let answer = paw::list(&lent, &mut output).map_err(refusal);
    let length = expected.as_ref().map(Vec::len).map_err(|&refusal| refusal);
    assert_eq!(answer, length, "{} halfwords into {room} bytes", code.len());
    if let Ok(text) = &expected {
        due[..text.len()].copy_from_slice(text);
    }
    assert!(output[..] == due, "the output of {room} bytes for {} halfwords", code.len());
    output.assert_guards();
    assert!(lent == code, "the code was changed");
    expected
}

/// Lists with room to spare. What is listed is assembled again, by both engines.
fn returned(code: &[u16]) -> Answer {
    let answer = listed(code, paw::listing_bytes(code.len()) + 9);
    if let Ok(text) = &answer {
        assert!(text.len() <= paw::listing_bytes(code.len()));
        assert_eq!(assembled(text, code.len()).as_deref(), Ok(code));
    }
    answer
}

/// Lists in all rooms around the right one. Code that is refused is refused for the same with no
/// room at all.
fn returned_in_all_rooms(code: &[u16]) -> Answer {
    let answer = returned(code);
    match &answer {
        Ok(text) => {
            let length = text.len();
            for room in [0, 1, length / 2, length - 2, length - 1] {
                assert_eq!(listed(code, room), refused(16, 0));
            }
            for room in [length, length + 1, length + 2, 2 * length + 100] {
                assert_eq!(listed(code, room), answer);
            }
        }
        Err(_) => assert_eq!(listed(code, 0), answer),
    }
    answer
}

fn refused(number: u8, place: usize) -> Answer {
    Err(Refusal { number, place: place as u16 })
}

/// Asserts that code is listed as these lines.
fn assert_lines(code: &[u16], lines: &[&str]) {
    let text = returned_in_all_rooms(code).unwrap();
    assert_eq!(String::from_utf8_lossy(&text), String::from_utf8_lossy(&text_of(lines)));
}

#[test]
fn samples() {
    assert_lines(&[0xA001], &["ADD R0, PC, #4"]);
    assert_lines(&[0x6041], &["STR R1, [R0, #4]"]);
    assert_lines(&[0x0007], &["HALT #7"]);
    assert_lines(&[0xD000], &["a0:", "BEQ a0"]);
    let code = [0xD005, 0x2800, 0x4540, 0x4100, 0xD1FE, 0x0000];
    let lines =
        ["BEQ a10", "CMP R0, #0", "a4:", "CMP R0, R8", "NEG R0, R0", "BNE a4", "a10:", "HALT #0"];
    assert_lines(&code, &lines);
    let sample = [
        "MOV R1, #252",
        "AND R0, R1",
        "MOV R2, #128",
        "ADD R2, R2",
        "ADD R0, R2",
        "STR R1, [R0, #0]",
        "HALT #0",
    ];
    assert_lines(&SAMPLE, &sample);
}

#[test]
fn every_halfword_alone() {
    let mut tally = [0; 17];
    for halfword in 0..=u16::MAX {
        let answer = returned(&[halfword]);
        tally[number(&answer)] += 1;
        let due = match decode(halfword) {
            None => 9,
            Some(Instruction::Branch { offset: 1.., .. }) => 13,
            Some(_) => 0,
        };
        assert_eq!(number(&answer), due, "{halfword:#06x}");
    }
    assert_eq!((tally[9], tally[13]), (65_536 - 19_264, 14 * 255));
}

/// From the middle of just so much code that every branch stays inside. With one instruction less
/// at either end, the farthest one that way leaves.
#[test]
fn every_branch_from_the_middle() {
    let mut code = [0; 256];
    for halfword in 0xD000..=0xDDFF {
        code[128] = halfword;
        assert!(returned(&code).is_ok(), "{halfword:#06x}");
        let shorter = returned(&code[..255]);
        assert_eq!(shorter == refused(13, 256), halfword & 255 == 127, "{halfword:#06x}");
        let later = returned(&code[1..]);
        assert_eq!(later == refused(13, 254), halfword & 255 == 128, "{halfword:#06x}");
    }
}

/// The defined halfwords all at once, in programs of the greatest length.
#[test]
fn every_defined_halfword() {
    let mut rng = Rng::new(1_201);
    let defined: Vec<u16> = (0..=u16::MAX).filter(|&halfword| decode(halfword).is_some()).collect();
    assert_eq!(defined.len(), 19_264);
    for _ in 0..rounds(10) {
        // The branches stand in the middle, where none can leave the code.
        let is_branch = |halfword: &u16| halfword >> 12 == 0xD;
        let (mut branches, mut others): (Vec<u16>, Vec<u16>) =
            defined.iter().copied().partition(is_branch);
        for list in [&mut branches, &mut others] {
            for place in 0..list.len() {
                list.swap(place, rng.below(place + 1));
            }
        }
        let (first, second) = others.split_at(7_000);
        let code = [&first[..200], &branches, &first[200..]].concat();
        assert!(returned_in_all_rooms(&code).is_ok());
        assert!(returned_in_all_rooms(second).is_ok());
    }
}

#[test]
fn every_room_for_short_listings() {
    let mut rng = Rng::new(1_202);
    for _ in 0..rounds(60) {
        let length = rng.between(1, 12);
        let code = generate::fit_program(&mut rng, length).code;
        let text = returned(&code).unwrap();
        for room in 0..=text.len() + 20 {
            let answer = listed(&code, room);
            assert_eq!(answer, if room < text.len() { refused(16, 0) } else { Ok(text.clone()) });
        }
    }
}

#[test]
fn lengths_of_code() {
    assert_eq!(returned_in_all_rooms(&[]), refused(15, 0));
    for count in [1, 2, 15_935, 15_936] {
        let text = returned_in_all_rooms(&vec![0x00FF; count]).unwrap();
        assert_eq!(text, "HALT #255\n".repeat(count).into_bytes());
    }
    for count in [15_937, 15_938, 32_768, 65_536, 65_537, 81_472] {
        for halfword in [0x0000, 0xD000, 0xD07F, 0xFFFF] {
            assert_eq!(returned_in_all_rooms(&vec![halfword; count]), refused(15, 0));
        }
    }
}

/// No listing is longer than the crate says, and the longest ones are as long.
#[test]
fn the_longest_listings() {
    assert_eq!(paw::MAX_LISTING, 302_784);
    assert_eq!(paw::MAX_LISTING, paw::listing_bytes(MAX_CODE));
    // STR R7, [R7, #124]; LDRB R0, [R0, #10]
    for halfword in [0x67FF, 0x7A80] {
        let text = returned_in_all_rooms(&vec![halfword; MAX_CODE]).unwrap();
        assert_eq!(text.len(), paw::MAX_LISTING);
    }
    // All are branches to themselves: from address 10,000 on, label and branch take as much.
    let text = returned_in_all_rooms(&vec![0xDD00; MAX_CODE]).unwrap();
    let shorter = 5 * 8 + 45 * 6 + 450 * 4 + 4_500 * 2;
    assert_eq!(text.len(), paw::MAX_LISTING - shorter);
    // Each instruction by itself keeps within the bound, with its label.
    for halfword in (0..=u16::MAX).filter(|&halfword| decode(halfword).is_some()) {
        let mut code = vec![0; 300];
        code[150] = halfword;
        let alone = reference::source::list(&code, usize::MAX).unwrap().len();
        let around = 299 * "HALT #0\n".len();
        assert!(alone - around <= paw::listing_bytes(1), "{halfword:#06x}");
    }
}

/// Labels are all the targets of branches, in order, each before its own instruction.
#[test]
fn labels_are_the_targets() {
    let mut rng = Rng::new(1_203);
    let mut labels_seen = 0;
    for _ in 0..rounds(400) {
        let code = branchy(&mut rng);
        let text = String::from_utf8(returned(&code).unwrap()).unwrap();
        let mut address = 0;
        let mut labels = HashSet::new();
        for line in text.lines() {
            match line.strip_suffix(':') {
                Some(label) => {
                    assert_eq!(label, format!("a{address}"));
                    assert!(labels.insert(address), "{label} stands twice");
                }
                None => address += 2,
            }
        }
        let targets: HashSet<u16> = targets(&code).collect();
        assert_eq!(labels, targets);
        labels_seen += labels.len();
    }
    assert!(labels_seen > rounds(10_000), "{labels_seen}");
}

/// Code of any length of which no branch leaves, and a third are branches.
fn branchy(rng: &mut Rng) -> Vec<u16> {
    let length = rng.between(1, 700);
    let mut code: Vec<u16> = (0..length).map(|_| not_a_branch(rng)).collect();
    for (place, halfword) in code.iter_mut().enumerate() {
        if rng.one_in(3) {
            let target = rng.between(place.saturating_sub(128), (place + 127).min(length - 1));
            let offset = target.wrapping_sub(place) as u8;
            let cond = rng.below(14) as u8;
            *halfword = encode(Instruction::Branch { cond, offset }).expect("a condition");
        }
    }
    code
}

fn not_a_branch(rng: &mut Rng) -> u16 {
    loop {
        let halfword = generate::defined_halfword(rng);
        if halfword >> 12 != 0xD {
            return halfword;
        }
    }
}

/// Where the branches of code go.
fn targets(code: &[u16]) -> impl Iterator<Item = u16> + '_ {
    code.iter().enumerate().filter_map(|(place, &halfword)| match decode(halfword) {
        Some(Instruction::Branch { offset, .. }) => Some(branch_target(2 * place as u16, offset)),
        _ => None,
    })
}

/// Faults of both kinds at known places: the lowest address counts, then the room.
#[test]
fn the_lowest_address_counts() {
    let mut rng = Rng::new(1_204);
    let mut tally = [0; 17];
    for _ in 0..rounds(4_000) {
        let mut code = branchy(&mut rng);
        let mut faults = Vec::new();
        for _ in 0..rng.below(4) {
            let place = rng.below(code.len());
            if rng.flip() {
                code[place] = generate::undefined_halfword(&mut rng);
                faults.push((place, 9));
            } else if let Some(stray) = stray_branch(&mut rng, place, code.len()) {
                code[place] = stray;
                faults.push((place, 13));
            }
        }
        // Of two faults at one place the later one is there.
        faults.reverse();
        faults.sort_by_key(|&(place, _)| place);
        let room = rng.pick(&[0, 100_000]);
        let answer = listed(&code, room);
        tally[number(&answer)] += 1;
        match faults.first() {
            Some(&(place, number)) => assert_eq!(answer, refused(number, 2 * place)),
            None if room == 0 => assert_eq!(answer, refused(16, 0)),
            None => assert!(answer.is_ok()),
        }
    }
    assert!([0, 9, 13, 16].iter().all(|&number| tally[number] > rounds(300)), "{tally:?}");
}

/// A branch that leaves code of a length from a place, if one can.
fn stray_branch(rng: &mut Rng, place: usize, length: usize) -> Option<u16> {
    let leaves = |offset: &u8| usize::from(branch_target(2 * place as u16, *offset)) >= 2 * length;
    let offsets: Vec<u8> = (0..=255).filter(leaves).collect();
    let cond = rng.below(14) as u8;
    let offset = (!offsets.is_empty()).then(|| rng.pick(&offsets))?;
    Some(encode(Instruction::Branch { cond, offset }).expect("a condition"))
}

/// Just inside and just outside at both ends of code, of lengths around the reach of a branch.
#[test]
fn branches_near_the_ends() {
    for length in [1, 2, 126, 127, 128, 129, 130, 255, 256, 300, MAX_CODE] {
        let places = (0..length.min(140)).chain(length.saturating_sub(140)..length);
        for place in places.step_by(if length > 1_000 { 23 } else { 3 }) {
            let ends = [-129, -128, -(place as i64), -(place as i64) - 1];
            let behind = (length - place) as i64;
            for offset in ends.into_iter().chain([behind - 1, behind, 126, 127, 0, 1]) {
                let Ok(field) = i8::try_from(offset) else { continue };
                let mut code = vec![0x00AA; length];
                code[place] = 0xD500 | u16::from(field as u8);
                let target = place as i64 + offset;
                let answer = returned(&code);
                match (0..length as i64).contains(&target) {
                    true => assert!(answer.is_ok(), "{length} {place} {offset}"),
                    false => assert_eq!(answer, refused(13, 2 * place)),
                }
            }
        }
    }
}

#[test]
fn fit_programs_and_others() {
    let mut rng = Rng::new(1_205);
    let mut tally = [0; 17];
    for round in 0..rounds(1_500) {
        let length =
            if round % 50 == 0 { rng.between(15_000, MAX_CODE) } else { rng.between(1, 800) };
        let fit = generate::fit_program(&mut rng, length);
        assert!(returned(&fit.code).is_ok());
        let others = [
            generate::mutate(&mut rng, &fit).code,
            generate::random_program(&mut rng, length).code,
            generate::refused_program(&mut rng, length, 9).code,
            generate::refused_program(&mut rng, length, 13).code,
            (0..length.min(5)).map(|_| rng.u16()).collect(),
        ];
        for code in others {
            tally[number(&returned(&code))] += 1;
        }
    }
    assert!([0, 9, 13].iter().all(|&number| tally[number] > rounds(500)), "{tally:?}");
}

/// The judge refuses for 9 or 13 where the lister does, unless another check comes first.
#[test]
fn the_judge_asks_the_same() {
    let mut rng = Rng::new(1_206);
    let mut tally = [0; 17];
    for _ in 0..rounds(3_000) {
        let (length, number_due) = (rng.between(2, 300), rng.pick(&[9, 13, 14]));
        let program = generate::refused_program(&mut rng, length, number_due);
        let judged = program.verify();
        let answer = returned(&program.code);
        match judged {
            Err(refusal) if [9, 13].contains(&refusal.number) => {
                assert_eq!(answer, Err(refusal));
            }
            _ => assert!(answer.is_ok() || number(&answer) != 16),
        }
        tally[number(&answer)] += 1;
    }
    assert!([0, 9, 13].iter().all(|&number| tally[number] > rounds(300)), "{tally:?}");
}

/// From a text with labels of any names to code, to a listing, and to the same code again.
#[test]
fn texts_that_come_back_as_code() {
    let mut rng = Rng::new(1_207);
    let mut tally = [0; 17];
    for _ in 0..rounds(800) {
        let (instructions, labels) = (rng.between(1, 300), rng.below(60));
        let text = text_of(&program(&mut rng, instructions, labels));
        let code = assembled(&text, instructions).unwrap();
        let answer = returned(&code);
        // A branch to a label behind the last instruction is the one thing that is not listed.
        let leaves = targets(&code).any(|target| usize::from(target) == 2 * instructions);
        assert_eq!(number(&answer), if leaves { 13 } else { 0 });
        tally[number(&answer)] += 1;
        if let Ok(listing) = answer {
            // A listing of a listing's code is that listing.
            assert_eq!(returned(&assembled(&listing, instructions).unwrap()), Ok(listing));
        }
    }
    assert!(tally[0] > rounds(100) && tally[13] > rounds(100), "{tally:?}");
}

/// As many labels as instructions, all branches as far away as they may be.
#[test]
fn the_largest_programs() {
    let ahead: Vec<u16> =
        (0..MAX_CODE).map(|place| if place + 127 < MAX_CODE { 0xDA7F } else { 0xDA80 }).collect();
    let back: Vec<u16> =
        (0..MAX_CODE).map(|place| if place < 128 { 0xD17F } else { 0xD180 }).collect();
    for code in [ahead, back, vec![0xD300; MAX_CODE]] {
        assert!(returned_in_all_rooms(&code).is_ok());
    }
}
