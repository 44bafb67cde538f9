//! The assembler with single lines: registers, values, conditions, and bytes that are none of them.

use reference::generate::Rng;

use crate::assembler::{Answer, Tally, refused, short};
use crate::sources::{CONDITIONS, SAMPLE, text_of};

/// Each form with a value: how it is written, its largest value and its step.
const VALUES: [(&str, u64, u64); 8] = [
    ("HALT #{}", 255, 1),
    ("MOV R5, #{}", 255, 1),
    ("CMP R2, #{}", 255, 1),
    ("STR R1, [R7, #{}]", 124, 4),
    ("LDR R6, [R2, #{}]", 124, 4),
    ("STRB R1, [R0, #{}]", 31, 1),
    ("LDRB R0, [R3, #{}]", 31, 1),
    ("ADD R4, PC, #{}", 1_020, 4),
];

/// The answer to a text of this one instruction.
fn with_value(form: &str, digits: &str) -> Answer {
    short(format!("{}\n", form.replace("{}", digits)))
}

#[test]
fn every_value_and_many_beyond() {
    for (form, most, step) in VALUES {
        let beyond = (1..=64).flat_map(|power| {
            let power = (1u128 << power) as u64;
            (0..12).flat_map(move |near| [power.wrapping_sub(near), power.wrapping_add(near)])
        });
        for value in (0..=2_100).chain(beyond) {
            let fits = value <= most && value % step == 0;
            let answer = with_value(form, &value.to_string());
            assert_eq!(answer.is_ok(), fits, "{form} {value}");
            assert!(fits || answer == refused(23, 1), "{form} {value}");
        }
    }
}

/// Every value that would fit, with a power of two added that registers of some width forget.
#[test]
fn values_that_must_not_wrap() {
    for (form, most, step) in VALUES {
        for power in 10..=127 {
            for value in [0, step, most / step / 2 * step, most] {
                let wrapped = (1u128 << power) + u128::from(value);
                if wrapped > most.into() {
                    assert_eq!(with_value(form, &wrapped.to_string()), refused(23, 1));
                }
            }
        }
    }
}

#[test]
fn numbers_of_many_digits() {
    let mut rng = Rng::new(1_101);
    let mut tally = Tally::default();
    for (form, most, _) in VALUES {
        for length in (2..=45).chain([254, 255, 256, 257, 258, 6_000, 65_535, 65_536, 65_537]) {
            let digits: String =
                (0..length).map(|_| char::from(b'0' + rng.below(10) as u8)).collect();
            let number = format!("{}{}", rng.between(1, 9), &digits[1..]);
            let value = number.parse::<u64>().unwrap_or(u64::MAX);
            let answer = with_value(form, &number);
            assert!(value <= most || answer == refused(23, 1), "{form} {length} digits");
            // Modulo a power of two, so many zeros would be small again: 0, or a value that fits.
            if length > 4 {
                let zeros = "0".repeat(length - 1);
                assert_eq!(with_value(form, &format!("1{zeros}")), refused(23, 1));
                assert_eq!(with_value(form, &format!("1{}4", &zeros[1..])), refused(23, 1));
            }
            // As many digits, and one of them wrong: first, last, or anywhere.
            for place in [0, length - 1, rng.below(length)] {
                for byte in [b'0', b'/', b':', b' ', b'a', b'-', b',', b'#', b'\n', 0, 0xB0] {
                    let mut wrong = number.clone().into_bytes();
                    wrong[place] = byte;
                    let line = form.split_once("{}").expect("a form has a value");
                    let text = [line.0.as_bytes(), &wrong, line.1.as_bytes(), b"\n"].concat();
                    tally.add(&short(text));
                }
            }
            assert_eq!(with_value(form, &format!("0{}", &number[1..])), refused(21, 1));
            assert_eq!(with_value(form, &"0".repeat(length)), refused(21, 1));
            let padded = format!("{}4", "0".repeat(length));
            assert_eq!(with_value(form, &padded), refused(21, 1));
        }
        assert!(with_value(form, "0").is_ok());
        assert_eq!(with_value(form, "00"), refused(21, 1));
        assert_eq!(with_value(form, ""), refused(21, 1));
    }
    tally.assert_each([21, 23], 500);
}

/// Every register, and what is none, at every place of every form.
#[test]
fn registers() {
    let mut forms: Vec<String> =
        ["MOV {}, #1", "CMP {}, #1", "ADD {}, PC, #4", "ADD R1, {}, #4", "HALT {}"]
            .map(str::to_string)
            .to_vec();
    for name in ["AND", "EOR", "ASR", "TST", "NEG", "CMP", "ADD", "MOV", "SUB"] {
        forms.extend(["{}, R3", "R3, {}", "R12, {}"].map(|rest| format!("{name} {rest}")));
    }
    for name in ["STR", "LDR", "STRB", "LDRB", "STRH", "LDRH"] {
        forms.extend(["{}, [R3, #4]", "R3, [{}, #4]"].map(|rest| format!("{name} {rest}")));
    }
    let mut words: Vec<String> = (0..300).map(|number| format!("R{number}")).collect();
    words.extend((0..20).map(|number| format!("R0{number}")));
    let others =
        "PC,SP,LP,LR,R,r0,R-1,R+1,R1 , R1,#1,,R1R1,1,RR1,R65536,R4294967296,R\u{661},[R1,R1]";
    words.extend(others.split(',').map(str::to_string));
    let mut good = 0;
    for (form, word) in forms.iter().flat_map(|form| words.iter().map(move |word| (form, word))) {
        let answer = short(format!("{}\n", form.replace("{}", word)));
        assert!(answer.is_ok() || answer == refused(21, 1), "{form} {word}");
        good += usize::from(answer.is_ok());
    }
    let low = 3 * 8 + 4 * 2 * 8 + 5 * 2 * 8;
    let any = 3 * 3 * 16;
    let others = ["ADD R1, PC, #4", "HALT #1", "CMP R3, #1", "MOV R3, #1"];
    assert_eq!(good, low + any + others.len());
}

/// PC stands in this one form, and only as PC: R15, which the manual takes there too, is refused.
#[test]
fn the_words_of_add_pc() {
    for line in ["ADD R0, R15, #4", "ADD R0, PC", "ADD PC, R0", "ADD R0, PC, R1", "MOV R0, PC"] {
        assert_eq!(short(format!("{line}\n")), refused(21, 1), "{line}");
    }
    assert_eq!(short("ADD R0, R15\n"), Ok(vec![0x4478]));
}

#[test]
fn conditions() {
    let letters = || (b'A'..=b'Z').chain([b'e', b' ', b'0']).map(char::from);
    for (one, other) in letters().flat_map(|one| letters().map(move |other| (one, other))) {
        let word = format!("{one}{other}");
        let due = match CONDITIONS.iter().position(|&name| name == word) {
            Some(number) => Ok(vec![0xD000 + 256 * number as u16]),
            None => refused(21, 2),
        };
        assert_eq!(short(format!("x:\nB{word} x\n")), due, "{word}");
    }
    for word in ["", "E", "EQQ", "EQEQ", "AL"] {
        assert_eq!(short(format!("x:\nB{word} x\n")), refused(21, 2), "{word}");
    }
}

/// Every byte of the sample removed, replaced by every byte, and with every byte behind it.
#[test]
fn one_byte_of_the_sample() {
    let sample = SAMPLE.as_bytes();
    let mut tally = Tally::default();
    for place in 0..sample.len() {
        let mut changed = sample.to_vec();
        changed.remove(place);
        tally.add(&short(&changed));
        for byte in 0..=u8::MAX {
            let mut changed = sample.to_vec();
            changed[place] = byte;
            tally.add(&short(&changed));
            changed.insert(place, sample[place]);
            tally.add(&short(&changed));
        }
    }
    tally.assert_each([0, 22, 23], 100);
    tally.assert_each([21], 10_000);
}

/// No text so short is good, but with a line feed behind it a pair may be a label.
#[test]
fn every_single_byte_and_pair() {
    let mut labels = 0;
    for one in 0..=u8::MAX {
        assert_eq!(short([one]), refused(21, 1));
        for other in 0..=u8::MAX {
            assert_eq!(short([one, other]), refused(21, 1));
            labels += usize::from(short([one, other, b'\n']) == refused(15, 0));
        }
    }
    assert_eq!(labels, 26);
}

#[test]
fn line_ends_of_other_machines() {
    assert_eq!(short(SAMPLE.replace('\n', "\r\n")), refused(21, 1));
    assert_eq!(short(SAMPLE.replace('\n', "\n\r")), refused(21, 2));
    assert_eq!(short(SAMPLE.replace('\n', "\r")), refused(21, 1));
    assert_eq!(short(SAMPLE.replace('\n', "\n\n")), refused(21, 2));
    assert_eq!(short(SAMPLE.replace('\n', "\0")), refused(21, 1));
    for end in ["\r", "\r\n", "\n", " \n", "\t\n", "\u{c}\n", "\u{1a}", "\u{2028}", "\u{85}"] {
        let lines = SAMPLE.lines().count() as u64;
        assert_eq!(short(format!("{SAMPLE}{end}")), refused(21, lines + 1), "{end:?}");
    }
    for (line, at) in SAMPLE.lines().zip(0..) {
        let mut lines: Vec<String> = SAMPLE.lines().map(str::to_string).collect();
        lines[at] = format!("{line}\r");
        assert_eq!(short(text_of(&lines)), refused(21, at as u64 + 1));
    }
}
