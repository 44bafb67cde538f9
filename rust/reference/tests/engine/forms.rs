//! The lines of a text, by patterns: a second, slow opinion on which lines there are, and every
//! instruction in writing beside its halfword.

use std::collections::HashSet;

use reference::refusal::SourceRefusal;
use reference::source::assemble;

/// The forms of a line. Small letters stand for words: l a low register, r any register, n a
/// number, c a condition, a a label.
const FORMS: [&str; 18] = [
    "MOV l, #n",
    "CMP l, #n",
    "AND l, l",
    "EOR l, l",
    "ASR l, l",
    "TST l, l",
    "NEG l, l",
    "CMP r, r",
    "ADD r, r",
    "MOV r, r",
    "STR l, [l, #n]",
    "LDR l, [l, #n]",
    "STRB l, [l, #n]",
    "LDRB l, [l, #n]",
    "ADD l, PC, #n",
    "HALT #n",
    "Bc a",
    "a:",
];

/// Lines that are good, at least one of each form.
const GOOD: [&str; 24] = [
    "MOV R3, #255",
    "CMP R7, #0",
    "AND R0, R1",
    "EOR R1, R2",
    "ASR R2, R3",
    "TST R3, R4",
    "NEG R4, R5",
    "CMP R5, R6",
    "CMP R10, R6",
    "ADD R14, R15",
    "ADD R1, R2",
    "MOV R0, R1",
    "MOV R15, R0",
    "STR R1, [R0, #4]",
    "LDR R7, [R6, #124]",
    "STRB R1, [R0, #31]",
    "LDRB R2, [R3, #10]",
    "ADD R0, PC, #4",
    "ADD R7, PC, #1020",
    "HALT #7",
    "BEQ a10",
    "BLE x",
    "x:",
    "abcdefg8:",
];

fn is_line(line: &[u8]) -> bool {
    FORMS.iter().any(|form| matches(form.as_bytes(), line))
}

/// Tries every length for the first part of a pattern, then the rest.
fn matches(form: &[u8], line: &[u8]) -> bool {
    let Some((&part, rest)) = form.split_first() else {
        return line.is_empty();
    };
    let stands = |length: &usize| stands_for(part, &line[..*length]);
    (1..=line.len()).filter(stands).any(|length| matches(rest, &line[length..]))
}

fn stands_for(part: u8, word: &[u8]) -> bool {
    match part {
        b'l' => matches!(word, [b'R', b'0'..=b'7']),
        b'r' => matches!(word, [b'R', b'0'..=b'9'] | [b'R', b'1', b'0'..=b'5']),
        b'n' => word == b"0" || word[0] != b'0' && word.iter().all(u8::is_ascii_digit),
        b'c' => b"EQNECSCCMIPLVSVCHILSGELTGTLE".chunks(2).any(|name| name == word),
        b'a' => is_name(word),
        _ => word == [part],
    }
}

fn is_name(word: &[u8]) -> bool {
    let permitted = |byte: &u8| matches!(byte, b'a'..=b'z' | b'0'..=b'9');
    word.len() <= 8 && word[0].is_ascii_lowercase() && word.iter().all(permitted)
}

/// Asserts that check 21 finds in a line what the patterns find. Answers whether it is good.
fn agrees(line: &[u8]) -> bool {
    let answer = assemble(&[line, b"\n"].concat(), 1);
    let refused = answer == Err(SourceRefusal::at(21, 1));
    assert_eq!(!refused, is_line(line), "{:?}", String::from_utf8_lossy(line));
    !refused
}

#[test]
fn good_lines_of_every_form() {
    for line in GOOD {
        assert!(agrees(line.as_bytes()), "{line}");
    }
    for form in FORMS {
        let count = GOOD.iter().filter(|line| matches(form.as_bytes(), line.as_bytes())).count();
        assert!(count >= 1, "{form}");
    }
}

/// Every byte of every good line replaced by every other byte.
#[test]
fn one_byte_changed() {
    let mut good = 0;
    for line in GOOD {
        for place in 0..line.len() {
            for byte in (0..=255).filter(|&byte| byte != b'\n') {
                let mut changed = line.as_bytes().to_vec();
                changed[place] = byte;
                good += usize::from(agrees(&changed));
            }
        }
    }
    assert!(good > 1_000, "{good}");
}

#[test]
fn one_byte_more() {
    let mut good = 0;
    for line in GOOD {
        for place in 0..=line.len() {
            for byte in (0..=255).filter(|&byte| byte != b'\n') {
                let mut changed = line.as_bytes().to_vec();
                changed.insert(place, byte);
                good += usize::from(agrees(&changed));
            }
        }
    }
    assert!(good > 300, "{good}");
}

#[test]
fn one_byte_less_and_any_part() {
    for line in GOOD {
        let bytes = line.as_bytes();
        for start in 0..=bytes.len() {
            for end in start..=bytes.len() {
                agrees(&bytes[start..end]);
                agrees(&[&bytes[..start], &bytes[end..]].concat());
            }
        }
    }
}

/// Beginnings of good lines with ends of others.
#[test]
fn parts_of_two_lines() {
    let mut good = HashSet::new();
    for (one, other) in GOOD.iter().flat_map(|one| GOOD.iter().map(move |other| (one, other))) {
        for start in 0..=one.len() {
            for end in 0..=other.len() {
                let mixed = [&one[..start], &other[end..]].concat();
                if agrees(mixed.as_bytes()) {
                    good.insert(mixed);
                }
            }
        }
    }
    assert!(good.len() > 500, "{}", good.len());
}

/// Every instruction but the branches, in writing beside its halfword.
fn all_but_branches() -> Vec<(String, u16)> {
    let mut all = Vec::new();
    for n in 0..256 {
        all.push((format!("HALT #{n}"), n));
        for d in 0..8 {
            all.push((format!("MOV R{d}, #{n}"), 0x2000 + 0x100 * d + n));
            all.push((format!("CMP R{d}, #{n}"), 0x2800 + 0x100 * d + n));
            all.push((format!("ADD R{d}, PC, #{}", 4 * n), 0xA000 + 0x100 * d + n));
        }
    }
    for (s, d) in (0..8).flat_map(|s| (0..8).map(move |d| (s, d))) {
        for (operation, name) in (0..).zip(["AND", "EOR", "ASR", "TST", "NEG", "CMP"]) {
            all.push((format!("{name} R{d}, R{s}"), 0x4000 + 0x40 * operation + 8 * s + d));
        }
        for k in 0..32 {
            let fields = 0x40 * k + 8 * s + d;
            all.push((format!("STR R{d}, [R{s}, #{}]", 4 * k), 0x6000 + fields));
            all.push((format!("LDR R{d}, [R{s}, #{}]", 4 * k), 0x6800 + fields));
            all.push((format!("STRB R{d}, [R{s}, #{k}]"), 0x7000 + fields));
            all.push((format!("LDRB R{d}, [R{s}, #{k}]"), 0x7800 + fields));
        }
    }
    for (s, d) in (0..16).flat_map(|s| (0..16).map(move |d| (s, d))) {
        let fields = 0x40 * (s / 8) + 8 * (s % 8) + 0x80 * (d / 8) + d % 8;
        all.push((format!("ADD R{d}, R{s}"), 0x4400 + fields));
        all.push((format!("MOV R{d}, R{s}"), 0x4600 + fields));
        if s >= 8 || d >= 8 {
            all.push((format!("CMP R{d}, R{s}"), 0x4500 + fields));
        }
    }
    all
}

#[test]
fn every_instruction_but_the_branches() {
    let all = all_but_branches();
    assert_eq!(all.len(), 19_264 - 14 * 256);
    let lines: HashSet<&str> = all.iter().map(|(line, _)| line.as_str()).collect();
    let halfwords: HashSet<u16> = all.iter().map(|&(_, halfword)| halfword).collect();
    assert_eq!((lines.len(), halfwords.len()), (all.len(), all.len()));
    for (line, halfword) in &all {
        assert_eq!(assemble(format!("{line}\n").as_bytes(), 1), Ok(vec![*halfword]), "{line}");
    }
    // There is room for all of them in one program.
    let text: String = all.iter().map(|(line, _)| format!("{line}\n")).collect();
    let code: Vec<u16> = all.iter().map(|&(_, halfword)| halfword).collect();
    assert_eq!(assemble(text.as_bytes(), code.len()), Ok(code));
}
