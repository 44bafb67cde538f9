//! The assembler with labels: their names, the ways to them, and very many of them.

use std::collections::HashSet;

use reference::generate::Rng;
use reference::image::MAX_CODE;

use crate::assembler::{assembled, assembled_in_all_rooms, refused, short};
use crate::sources::{
    NOWHERE, PLACES, branch_line, meeting_names, name, names, program, program_with, text_of,
};
use crate::support::{long, rounds};

/// Names of no letter, of 8 and of 9, in definitions and in branches.
#[test]
fn names_of_every_length() {
    let mut rng = Rng::new(1_102);
    for length in 0..=40 {
        for _ in 0..rounds(20) {
            let tail = |rng: &mut Rng, count| -> String {
                (0..count).map(|_| char::from(rng.pick(b"abyz0189"))).collect()
            };
            let name = match length {
                0 => String::new(),
                _ => format!("{}{}", char::from(rng.pick(b"abyz")), tail(&mut rng, length - 1)),
            };
            let good = (1..=8).contains(&length);
            let answer = short(format!("{name}:\nBVC {name}\n"));
            assert_eq!(answer, if good { Ok(vec![0xD700]) } else { refused(21, 1) }, "{name}");
            let branch = short(format!("HALT #1\nBVC {name}\n"));
            assert_eq!(branch, if good { refused(22, 2) } else { refused(21, 2) }, "{name}");
            let definition = short(format!("HALT #1\n{name}:\n"));
            assert_eq!(definition, if good { Ok(vec![1]) } else { refused(21, 2) }, "{name}");
            // A digit first.
            let digit = format!("{}{}", rng.below(10), name.get(1..).unwrap_or(""));
            assert_eq!(short(format!("HALT #1\n{digit}:\n")), refused(21, 2), "{digit}");
            assert_eq!(short(format!("HALT #1\nBVC {digit}\n")), refused(21, 2), "{digit}");
        }
    }
}

/// Every byte at every place of a name.
#[test]
fn letters_of_names() {
    for place in 0..8 {
        for byte in (0..=u8::MAX).filter(|&byte| byte != b'\n') {
            let mut name = *b"abcd1234";
            name[place] = byte;
            let is_letter = byte.is_ascii_lowercase();
            let good = is_letter || byte.is_ascii_digit() && place > 0;
            let definition = short([b"HALT #1\n", &name[..], b":\n"].concat());
            assert_eq!(definition, if good { Ok(vec![1]) } else { refused(21, 2) }, "{name:?}");
            let branch = short([b"HALT #1\nBEQ ", &name[..], b"\n"].concat());
            assert_eq!(branch, if good { refused(22, 2) } else { refused(21, 2) }, "{name:?}");
        }
    }
}

/// Names that differ by one letter, or in length only, are different.
#[test]
fn names_that_are_alike() {
    let mut rng = Rng::new(1_103);
    for _ in 0..rounds(3_000) {
        let first = name(&mut rng);
        let mut other = first.clone().into_bytes();
        match rng.below(3) {
            0 if other.len() > 1 => drop(other.pop()),
            1 if other.len() < 8 => other.push(rng.pick(b"a0z9")),
            _ => {
                let place = rng.below(other.len());
                other[place] = rng.pick(b"abcdefghijklmnopqrstuvwxyz");
            }
        }
        let other = String::from_utf8(other).expect("letters and digits");
        let text = format!("{first}:\nHALT #0\n{other}:\nHALT #1\nBEQ {first}\nBEQ {other}\n");
        let due = if first == other { refused(22, 3) } else { Ok(vec![0, 1, 0xD0FE, 0xD0FE]) };
        assert_eq!(short(text), due, "{first} {other}");
        let text = format!("HALT #0\n{first}:\nBEQ {other}\n");
        let due = if first == other { Ok(vec![0, 0xD000]) } else { refused(22, 3) };
        assert_eq!(short(text), due, "{first} {other}");
    }
}

#[test]
fn branches_at_their_limits() {
    let filler = |count: usize| "HALT #0\n".repeat(count);
    for between in 0..=300 {
        for before in [0, 1, 130] {
            let back = format!("{}x:\n{}BNE x\n", filler(before), filler(between));
            let answer = assembled(back.as_bytes(), 1_000);
            match between {
                0..=128 => {
                    assert_eq!(answer.unwrap().pop(), Some(0xD100 + (256 - between as u16) % 256))
                }
                _ => assert_eq!(answer, refused(23, (before + between + 2) as u64)),
            }
            let ahead = format!("{}BNE x\n{}x:\n", filler(before), filler(between));
            let answer = assembled(ahead.as_bytes(), 1_000);
            match between {
                0..=126 => assert_eq!(answer.unwrap()[before], 0xD101 + between as u16),
                _ => assert_eq!(answer, refused(23, before as u64 + 1)),
            }
        }
    }
}

/// From one end of the longest program to the other, so that no distance is taken modulo anything.
#[test]
fn branches_across_long_programs() {
    let filler = |count: usize| "HALT #0\n".repeat(count);
    for length in [126, 127, 128, 129, 255, 256, 257, 383, 384, 511, 512, 4_096, 15_934, 15_935] {
        let ahead = format!("BNE x\n{}x:\n", filler(length));
        let answer = assembled(ahead.as_bytes(), MAX_CODE);
        assert_eq!(answer.is_ok(), length == 126, "{length}");
        let back = format!("x:\n{}BNE x\n", filler(length));
        let answer = assembled(back.as_bytes(), MAX_CODE);
        assert_eq!(answer.is_ok(), length <= 128, "{length}");
    }
    // At the very end of the longest program every way that is short enough is found.
    for back in [0, 1, 127, 128, 129] {
        let head = filler(15_935 - back);
        let text = format!("{head}x:\n{}BLE x\n", filler(back));
        let answer = assembled(text.as_bytes(), MAX_CODE);
        assert_eq!(answer.is_ok(), back <= 128, "{back}");
        let head = filler(15_935 - back.min(127));
        let text = format!("{head}BLE x\n{}x:\n", filler(back.min(127)));
        assert_eq!(assembled(text.as_bytes(), MAX_CODE).is_ok(), back < 127, "{back}");
    }
}

#[test]
fn second_definitions() {
    let mut rng = Rng::new(1_104);
    for _ in 0..rounds(1_000) {
        let labels = rng.between(1, 40);
        let (instructions, doubled) = (rng.between(1, 100), rng.between(1, 4));
        let mut lines = program(&mut rng, instructions, labels);
        // The second and third ones stand behind their firsts, and the uppermost counts.
        let mut upper = usize::MAX;
        for _ in 0..doubled {
            let labels: Vec<usize> =
                (0..lines.len().min(upper)).filter(|&at| lines[at].ends_with(':')).collect();
            let Some(first) = (!labels.is_empty()).then(|| rng.pick(&labels)) else { continue };
            let at = rng.between(first + 1, lines.len());
            upper = if at <= upper { at } else { upper };
            lines.insert(at, lines[first].clone());
        }
        let answer = assembled_in_all_rooms(&text_of(&lines));
        assert_eq!(answer, refused(22, upper as u64 + 1));
    }
}

/// The first definition is far away and a second one near, or the other way round.
#[test]
fn branches_are_measured_to_the_first_definition() {
    let far = "HALT #0\n".repeat(200);
    let cases = [
        (format!("x:\n{far}BEQ x\nx:\n"), refused(23, 202)),
        (format!("x:\n{far}x:\nBEQ x\n"), refused(22, 202)),
        (format!("BEQ x\n{far}x:\nx:\n"), refused(23, 1)),
        (format!("BEQ x\nx:\n{far}x:\n"), refused(22, 203)),
        (format!("BEQ x\n{far}x:\nBNE x\nx:\n"), refused(23, 1)),
    ];
    for (text, due) in cases {
        assert_eq!(assembled(text.as_bytes(), 1_000), due);
    }
}

/// Labels are lines but no instructions, however many there are.
#[test]
fn labels_without_instructions() {
    let mut rng = Rng::new(1_107);
    let more = [70_000];
    for count in [1, 2, 100, 15_936, 15_937, 28_000, 33_000]
        .into_iter()
        .chain(more.into_iter().filter(|_| long()))
    {
        let labels = definitions(&names(&mut rng, count));
        let (text, next) = (text_of(&labels), count as u64 + 1);
        let with = |line: &[u8]| assembled(&[&text, line].concat(), 9);
        assert_eq!(with(b""), refused(15, 0));
        assert_eq!(with(b"HALT #3"), refused(21, next));
        assert_eq!(with(b"HALT #3\nfar\n"), refused(21, next + 1));
        // The library takes long for more labels than it has places for.
        if count < PLACES as usize {
            assert_eq!(with(b"HALT #3\n"), Ok(vec![3]));
            assert_eq!(with(b"HALT #256\n"), refused(23, next));
            assert_eq!(with(b"BEQ far\n"), refused(22, next));
            let again = format!("{}\nHALT #3\n", labels[rng.below(count)]);
            assert_eq!(with(again.as_bytes()), refused(22, next));
        }
    }
}

/// The lines that define labels.
fn definitions(names: &[String]) -> Vec<String> {
    names.iter().map(|name| format!("{name}:")).collect()
}

// The library tries some hundred places of its table for a name, and looks through the text for one
// that has none. That takes long: where it would happen very often, tests let the library find a
// fault first, or are for the long run.

/// A good program, with one of its labels defined again, and with a branch to no label.
fn check_crowded(rng: &mut Rng, instructions: usize, names: &[String]) {
    let lines = program_with(rng, instructions, names);
    let answer = assembled(&text_of(&lines), instructions);
    assert_eq!(answer.map(|code| code.len()), Ok(instructions));

    for again in [0, names.len() - 1, rng.below(names.len())] {
        let label = format!("{}:", names[again]);
        let first = lines.iter().position(|line| *line == label).expect("it has a line");
        let at = rng.between(first + 1, lines.len());
        let mut doubled = lines.clone();
        doubled.insert(at, label);
        assert_eq!(assembled(&text_of(&doubled), instructions), refused(22, at as u64 + 1));
    }

    let mut missing = lines;
    let at = missing.iter().rposition(|line| line.starts_with("HALT")).expect("there is one");
    missing[at] = branch_line(rng, NOWHERE);
    assert_eq!(assembled(&text_of(&missing), instructions), refused(22, at as u64 + 1));
}

/// So many labels that some find no place.
#[test]
fn almost_as_many_labels_as_places() {
    let mut rng = Rng::new(1_112);
    let more = [32_000, 32_536, 32_537, 32_538, 33_000, 40_001];
    for count in [25_000, 29_000, 30_000].into_iter().chain(more.into_iter().filter(|_| long())) {
        let names = names(&mut rng, count);
        check_crowded(&mut rng, 1_500, &names);
    }
}

/// Branches to labels that all stand 128 instructions behind the first: from there they are out of
/// reach, and from the second on within. A fault behind the branches ends the search.
#[test]
fn more_labels_than_places() {
    let mut rng = Rng::new(1_113);
    let more = [32_536, 32_537, 40_001, 60_000];
    for count in [32_538].into_iter().chain(more.into_iter().filter(|_| long())) {
        let names = names(&mut rng, count);
        let labels = [definitions(&names), vec!["HALT #0".to_string()]].concat();
        for (last, number) in [("HALT #256", 23), ("BEQ nowhere", 22)] {
            let mut lines = vec!["HALT #0".to_string(); 128];
            for (place, line) in lines[1..40].iter_mut().enumerate() {
                // The first one, the last ones, and any.
                let name = [0, count - 1 - place, rng.below(count)][place % 3];
                *line = branch_line(&mut rng, &names[name]);
            }
            lines[40] = last.to_string();
            let text = text_of(&[&lines[..], &labels].concat());
            assert_eq!(assembled(&text, 200), refused(number, 41));
            for name in [0, count - 1, rng.below(count)] {
                lines[0] = branch_line(&mut rng, &names[name]);
                let text = text_of(&[&lines[..], &labels].concat());
                assert_eq!(assembled(&text, 200), refused(23, 1));
            }
        }
    }
}

/// Names for which the search begins at the same place.
#[test]
fn names_that_meet() {
    let mut rng = Rng::new(1_114);
    for count in [1, 2, 10, 100, 255, 256, 257, 258, 300, 600] {
        let names = meeting_names(count);
        assert_eq!(names.iter().collect::<HashSet<_>>().len(), count);
        check_crowded(&mut rng, 700, &names);
        // A branch to a name that is not defined meets them there as well.
        let (missing, defined) = names.split_last().expect("there is one");
        let mut lines = program_with(&mut rng, 500, defined);
        let line = branch_line(&mut rng, missing);
        lines.push(line);
        let due = refused(22, lines.len() as u64);
        assert_eq!(assembled(&text_of(&lines), 600), due);
    }
}

/// Names that meet among so many others that few places around theirs are free.
#[test]
fn names_that_meet_in_a_crowd() {
    let mut rng = Rng::new(1_115);
    let meeting = meeting_names(300);
    let taken: HashSet<&String> = meeting.iter().collect();
    for count in [10_000, 25_000] {
        let mut all = names(&mut rng, count);
        all.retain(|name| !taken.contains(name));
        for name in &meeting {
            all.insert(rng.below(all.len()), name.clone());
        }
        check_crowded(&mut rng, 1_500, &all);
    }
}

/// Lines so short that a text of few bytes has more instructions than the library keeps notes of at
/// first: 128 for up to 1,024 bytes, 1,536 for up to 16,384.
#[test]
fn many_instructions_in_few_bytes() {
    let line = |at: usize| {
        let name = char::from(b'a' + (at / 128) as u8);
        let label = if at % 128 == 0 { format!("{name}:\n") } else { String::new() };
        format!("{label}BEQ {name}\n")
    };
    for count in [127, 128, 129, 130, 168, 1_535, 1_536, 1_537, 1_538, 2_600, 2_700] {
        let text: String = (0..count).map(line).collect();
        let lines = text.lines().count() as u64;
        let answer = assembled(text.as_bytes(), count);
        assert_eq!(answer.map(|code| code.len()), Ok(count));
        assert_eq!(assembled(text.as_bytes(), count - 1), refused(16, 0));
        for (last, number) in [("BEQ nowhere", 22), ("a:", 22), ("HALT #256", 23), ("HALT", 21)] {
            let faulty = format!("{text}{last}\n");
            assert_eq!(assembled(faulty.as_bytes(), count + 1), refused(number, lines + 1));
        }
    }
}
