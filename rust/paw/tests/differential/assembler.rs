//! The assembler with whole texts: number and line of every refusal, every halfword that it
//! writes, and that it writes no other. `forms` has single lines, `labels` their names.

use std::collections::HashSet;

use reference::generate::{Rng, fit_program};
use reference::image::MAX_CODE;
use reference::refusal::SourceRefusal;

use crate::faults::{Fault, Faulty};
use crate::sources::{SAMPLE, damaged, names, plain_line, program, text_of};
use crate::support::{Guarded, long, rounds, source_refusal};

pub type Answer = Result<Vec<u16>, SourceRefusal>;

/// Halfwords on both sides of an output that no call may change.
const GUARD: usize = 33;

/// Assembles by both engines into an output of `room` halfwords. Compares the answers and every
/// halfword of the output and around it: those that were not written are as before.
pub fn assembled(text: &[u8], room: usize) -> Answer {
    let expected = reference::source::assemble(text, room);
    let mut due: Vec<u16> = (0..room + 2 * GUARD).map(|at| (at * 40_503) as u16 | 1).collect();
    let mut output = due.clone();
    let lent = Guarded::new(text);
    let answer = paw::assemble(&lent, &mut output[GUARD..GUARD + room]).map_err(source_refusal);
    assert_eq!(answer, expected.clone().map(|code| code.len()), "{room} for {}", shown(text));
    if let Ok(code) = &expected {
        due[GUARD..GUARD + code.len()].copy_from_slice(code);
    }
    assert!(output == due, "the output of {room} halfwords for {}", shown(text));
    assert!(lent[..] == *text, "{} was changed", shown(text));
    lent.assert_guards();
    expected
}

/// A text for people, if it is not too long for them.
fn shown(text: &[u8]) -> String {
    match text.len() {
        0..=3_000 => format!("{:?}", String::from_utf8_lossy(text)),
        length => format!("a text of {length} bytes"),
    }
}

/// Assembles with room to spare, and then with all rooms around the right one. A text that is
/// refused is refused for the same with no room at all.
pub fn assembled_in_all_rooms(text: &[u8]) -> Answer {
    let answer = assembled(text, MAX_CODE + 3);
    match &answer {
        Ok(code) => {
            let length = code.len();
            for room in [0, 1, length / 2, length - 1] {
                let due = if room < length { refused(16, 0) } else { answer.clone() };
                assert_eq!(assembled(text, room), due);
            }
            for room in [length, length + 1, length + 2, 2 * length + 100] {
                assert_eq!(assembled(text, room), answer);
            }
        }
        Err(_) => assert_eq!(assembled(text, 0), answer),
    }
    answer
}

pub fn refused(number: u8, line: u64) -> Answer {
    Err(SourceRefusal { number, line })
}

/// The answer to a text that has at most a hundred instructions.
pub fn short(text: impl AsRef<[u8]>) -> Answer {
    assembled(text.as_ref(), 100)
}

/// How often each answer came, a pass as number 0.
#[derive(Debug, Default)]
pub struct Tally([usize; 24]);

impl Tally {
    pub fn add(&mut self, answer: &Answer) {
        let number = answer.as_ref().map_or_else(|refusal| refusal.number, |_| 0);
        self.0[usize::from(number)] += 1;
    }

    pub fn assert_each(&self, numbers: impl IntoIterator<Item = usize>, least: usize) {
        for number in numbers {
            assert!(self.0[number] >= least, "answer {number}: {:?}", self.0);
        }
    }
}

#[test]
fn samples() {
    assert_eq!(short("ADD R0, PC, #4\n"), Ok(vec![0xA001]));
    assert_eq!(short("STR R1, [R0, #4]\n"), Ok(vec![0x6041]));
    assert_eq!(short("HALT #7\n"), Ok(vec![0x0007]));
    let ten = "HALT #0\n".repeat(4);
    assert_eq!(short(format!("BEQ a10\n{ten}a10:\nHALT #7\n")).unwrap()[0], 0xD005);
    assert_eq!(assembled_in_all_rooms(SAMPLE.as_bytes()).unwrap().len(), 23);
}

/// Cut anywhere: only behind a line feed is the end good.
#[test]
fn every_beginning_of_the_sample() {
    let mut tally = Tally::default();
    for end in 0..=SAMPLE.len() {
        let part = &SAMPLE[..end];
        let answer = assembled_in_all_rooms(part.as_bytes());
        tally.add(&answer);
        if !part.is_empty() && !part.ends_with('\n') {
            assert_eq!(answer, refused(21, part.lines().count() as u64));
        }
    }
    tally.assert_each([0, 15, 21, 22], 1);
}

#[test]
fn every_line_of_the_sample_doubled_removed_or_moved() {
    let lines: Vec<&str> = SAMPLE.lines().collect();
    let mut tally = Tally::default();
    for one in 0..lines.len() {
        for other in 0..lines.len() {
            let mut swapped = lines.clone();
            swapped.swap(one, other);
            tally.add(&short(text_of(&swapped)));
            let mut doubled = lines.clone();
            doubled.insert(other, lines[one]);
            tally.add(&short(text_of(&doubled)));
            let mut removed = lines.clone();
            removed.remove(one);
            removed.remove(other.min(removed.len() - 1));
            tally.add(&short(text_of(&removed)));
            let joined = format!("{}{}\n", lines[one], lines[other]);
            tally.add(&short(joined));
        }
    }
    tally.assert_each([0, 21, 22], 50);
}

/// Any faults together: the one that counts is known beforehand.
#[test]
fn faults_in_any_order() {
    let mut rng = Rng::new(1_105);
    let mut tally = Tally::default();
    let mut first_faults = HashSet::new();
    for _ in 0..rounds(4_000) {
        let mut source = Faulty::new(&mut rng);
        // Most have no bad line, behind which nothing else would be seen.
        let kinds = if rng.one_in(4) { &Fault::ALL[..] } else { &Fault::ALL[1..] };
        for _ in 0..rng.pick(&[0, 1, 2, 2, 3, 6]) {
            let fault = rng.pick(kinds);
            source.bring_in(&mut rng, fault);
        }
        if rng.one_in(16) {
            source.leave_open();
        }
        let room = rng.pick(&[0, 100, 250, 1_000]);
        let answer = assembled(&source.text(), room);
        assert_eq!(answer.clone().map(|code| code.len()), source.due(room));
        tally.add(&answer);
        first_faults.extend(answer.err());
    }
    tally.assert_each([0, 16], rounds(150));
    tally.assert_each([21, 22, 23], rounds(400));
    assert!(first_faults.len() > 300, "{}", first_faults.len());
}

/// The same around the greatest length, where check 15 has its turn between 21 and 22.
#[test]
fn faults_in_long_programs() {
    let mut rng = Rng::new(1_106);
    let mut tally = Tally::default();
    for round in 0..rounds(60) {
        let mut source = Faulty::new(&mut rng);
        for _ in 0..rng.below(3) {
            let kinds = if rng.one_in(4) { &Fault::ALL[..] } else { &Fault::ALL[1..] };
            let fault = rng.pick(kinds);
            source.bring_in(&mut rng, fault);
        }
        source.extend(&mut rng, MAX_CODE - 1 + round % 4);
        if rng.one_in(8) {
            source.leave_open();
        }
        let room = rng.pick(&[0, MAX_CODE - 2, MAX_CODE - 1, MAX_CODE, MAX_CODE + 1]);
        let answer = assembled(&source.text(), room);
        assert_eq!(answer.clone().map(|code| code.len()), source.due(room));
        tally.add(&answer);
    }
    tally.assert_each([0, 15, 16, 21, 22, 23], rounds(2));
}

/// A fault on each line of a program is told with its line, and the output is untouched.
#[test]
fn every_line_of_a_long_program() {
    let mut rng = Rng::new(1_116);
    let lines: Vec<String> = (0..2_000).map(|_| plain_line(&mut rng)).collect();
    for at in (0..2_000).step_by(13).chain([0, 1, 1_998, 1_999]) {
        for (line, number) in [("HALT", 21), ("BEQ x", 22), ("HALT #256", 23)] {
            let mut lines = lines.clone();
            lines[at] = line.to_string();
            assert_eq!(assembled(&text_of(&lines), 2_000), refused(number, at as u64 + 1));
        }
    }
}

/// A fault behind more lines than 16 bits count. Behind so many different labels the library is
/// slow, so only the long run has those that are found after check 21.
#[test]
fn lines_beyond_65_535() {
    let mut rng = Rng::new(1_117);
    for length in [65_534, 65_535, 65_536, 65_537, 131_071, 200_000] {
        let labels = "x:\n".repeat(length);
        for last in ["HALT\n", "\n", "HALT #0", "x:", "BEQ X\n"] {
            let text = format!("{labels}{last}");
            assert_eq!(assembled(text.as_bytes(), 5), refused(21, length as u64 + 1), "{last}");
        }
    }
    if long() {
        let labels: Vec<String> =
            names(&mut rng, 49_700).iter().map(|name| format!("{name}:")).collect();
        let text = [text_of(&labels), "HALT #0\n".repeat(15_935).into_bytes()].concat();
        let line = 49_700 + 15_935 + 1;
        let bad = [&text[..], b"HALT #256\n"].concat();
        assert_eq!(assembled(&bad, MAX_CODE), refused(23, line));
    }
}

#[test]
fn lengths_of_programs() {
    assert_eq!(assembled_in_all_rooms(b""), refused(15, 0));
    for count in [1, 2, 255, 256, 15_935, 15_936] {
        let text = "HALT #7\n".repeat(count);
        assert_eq!(assembled_in_all_rooms(text.as_bytes()), Ok(vec![7; count]));
    }
    for count in [15_937, 15_938, 31_873, 32_769, 65_536, 65_537, 81_472, 200_000] {
        let text = "HALT #7\n".repeat(count);
        assert_eq!(assembled(text.as_bytes(), count), refused(15, 0), "{count}");
        let bad = format!("{text}HALT\n");
        assert_eq!(assembled(bad.as_bytes(), count), refused(21, count as u64 + 1));
        let open = format!("{text}HALT #7");
        assert_eq!(assembled(open.as_bytes(), count), refused(21, count as u64 + 1));
        let faulty = format!("x:\nx:\nBEQ y\nHALT #256\n{text}");
        assert_eq!(assembled(faulty.as_bytes(), 0), refused(15, 0));
    }
}

#[test]
fn good_programs_of_any_length() {
    let mut rng = Rng::new(1_108);
    for round in 0..rounds(300) {
        let instructions = match round % 100 {
            0 => rng.between(15_000, MAX_CODE),
            1 => MAX_CODE,
            _ => rng.between(1, 700),
        };
        let labels = rng.pick(&[0, 1, instructions / 10, instructions, 2 * instructions]);
        // More labels are for the module `labels`.
        let text = text_of(&program(&mut rng, instructions, labels.min(20_000)));
        let answer = assembled_in_all_rooms(&text);
        assert_eq!(answer.unwrap().len(), instructions);
    }
}

/// Programs with labels of any names, or as the lister writes fit ones, with a few things changed.
#[test]
fn damaged_texts() {
    let mut rng = Rng::new(1_109);
    let mut tally = Tally::default();
    for _ in 0..rounds(30_000) {
        let (instructions, labels) = (rng.between(1, 60), rng.below(20));
        let mut text = if rng.flip() {
            text_of(&program(&mut rng, instructions, labels))
        } else {
            let code = fit_program(&mut rng, instructions).code;
            reference::source::list(&code, usize::MAX).expect("fit code can be listed")
        };
        for _ in 0..rng.between(1, 3) {
            text = damaged(&mut rng, &text);
        }
        let answer = assembled(&text, rng.pick(&[100, 100, 100, 20]));
        tally.add(&answer);
    }
    tally.assert_each([0, 21, 22, 23, 16], rounds(300));
}

#[test]
fn damaged_long_texts() {
    let mut rng = Rng::new(1_110);
    let mut tally = Tally::default();
    for _ in 0..rounds(30) {
        let labels = rng.below(20_000);
        let mut text = text_of(&program(&mut rng, MAX_CODE, labels));
        for _ in 0..rng.between(1, 3) {
            text = damaged(&mut rng, &text);
        }
        tally.add(&assembled(&text, MAX_CODE + 5));
    }
    tally.assert_each([21], rounds(10));
}

/// Any bytes, words in any order, and lines from a small choice: most are bad, all in their ways.
#[test]
fn texts_of_any_kind() {
    let mut rng = Rng::new(1_111);
    let words = [
        "MOV", "CMP", "AND", "ADD", "LDR", "STRB", "HALT", "BEQ", "B", "R0", "R7", "R8", "R15",
        "R16", "PC", "#0", "#4", "#255", "#256", "#01", "#", "[", "]", "[R1", "x", "x:", ":", " ",
        ", ", ",", "\n", "\n", "\r", "\t", "a1",
    ];
    let lines = [
        "x:",
        "y:",
        "x1:",
        "BEQ x",
        "BNE y",
        "BCS x1",
        "BEQ z",
        "HALT #0",
        "HALT #255",
        "HALT #256",
        "MOV R0, R1",
        "ADD R0, PC, #4",
        "STR R0, [R1, #8]",
        "STR R0, [R1, #9]",
        "HALT",
    ];
    let mut tally = Tally::default();
    for _ in 0..rounds(60_000) {
        let length = rng.below(12);
        let text = match rng.below(4) {
            0 => (0..length).map(|_| rng.u8()).collect(),
            1 => (0..length).flat_map(|_| rng.pick(&words).bytes()).collect(),
            2 => {
                let words: Vec<&str> = (0..length).map(|_| rng.pick(&words)).collect();
                format!("HALT #0\n{}\n", words.join(rng.pick(&[" ", ", ", ""]))).into_bytes()
            }
            _ => text_of(&(0..length).map(|_| rng.pick(&lines)).collect::<Vec<_>>()),
        };
        let room = rng.below(12);
        tally.add(&assembled(&text, room));
    }
    tally.assert_each([0, 15, 16, 21, 22, 23], rounds(200));
}
