//! Answers in words: for people, so only that each is there, is its own, and is the header's too.

use std::collections::HashSet;

use paw::{
    Check, Condition, Place, Refusal, RunOutcome, SourceCheck, SourceRefusal, StepOutcome, Stop,
    Traffic,
};

const HEADER: &str = include_str!("../../../../include/paw.h");

/// Whether a function of `paw.h` answers these words.
fn in_header(words: &str) -> bool {
    HEADER.contains(&format!("return \"{words}\";"))
}

#[test]
fn every_check_has_a_number_and_words() {
    let mut words = HashSet::new();
    for (number, check) in (1..).zip(Check::ALL.iter().copied()) {
        assert_eq!((check.number(), Check::from_number(number)), (number, Some(check)));
        let refusal = Refusal { check, place: Place::Nowhere };
        let text = refusal.to_string();
        let (start, complaint) = text.split_once(": ").unwrap();
        assert_eq!(start, format!("refused by check {number}"));
        assert_eq!(complaint, check.complaint());
        assert!(complaint.len() > 20, "{complaint}");
        assert!(words.insert(complaint.to_string()), "{complaint}");
        assert!(in_header(complaint), "{complaint}");
    }
    assert_eq!(words.len(), 17);
    assert_eq!([0, 18, 255].map(Check::from_number), [None; 3]);
}

#[test]
fn every_check_of_a_text_has_a_number_and_words() {
    let mut words = HashSet::new();
    for (number, &check) in [15, 16, 21, 22, 23].into_iter().zip(SourceCheck::ALL) {
        assert_eq!((check.number(), SourceCheck::from_number(number)), (number, Some(check)));
        let text = SourceRefusal { check, line: Some(3) }.to_string();
        let (start, complaint) = text.split_once(": ").unwrap();
        assert_eq!(start, format!("refused by check {number} at line 3"));
        assert_eq!(complaint, check.complaint());
        assert!(complaint.len() > 20, "{complaint}");
        assert!(words.insert(complaint.to_string()), "{complaint}");
    }
    assert_eq!(words.len(), SourceCheck::ALL.len());
    assert_eq!([0, 14, 17, 20, 24, 255].map(SourceCheck::from_number), [None; 6]);
    let whole = SourceRefusal { check: SourceCheck::CodeLength, line: None };
    assert!(whole.to_string().starts_with("refused by check 15: the code "));
    assert_eq!((whole.number(), whole.line_number()), (15, 0));
}

#[test]
fn places_and_stops() {
    let at = |place| Refusal { check: Check::Defined, place }.to_string();
    assert!(at(Place::Block(63)).starts_with("refused by check 9 at block 63: "));
    assert!(at(Place::Address(31_870)).starts_with("refused by check 9 at address 31870: "));
    for (number, stop) in (18..).zip([Stop::OddPc, Stop::Undefined, Stop::Misaligned]) {
        assert_eq!(stop.number(), number);
        assert!(stop.to_string().starts_with(&format!("stop {number}: the ")));
        assert!(in_header(stop.complaint()), "{stop}");
        assert_eq!(RunOutcome::Stopped(stop).to_string(), stop.to_string());
        assert_eq!(StepOutcome::Stopped(stop).to_string(), stop.to_string());
    }
}

#[test]
fn endings() {
    assert_eq!(RunOutcome::Halted.to_string(), StepOutcome::Halted.to_string());
    assert!(in_header(&RunOutcome::Halted.to_string()));
    assert!(HEADER.contains(&format!("PAW_SPENT ? \"{}\"", RunOutcome::Spent)));
    assert_eq!(StepOutcome::Completed(Traffic::NoData).to_string(), "completed");
    let loaded = StepOutcome::Completed(Traffic::ReadHalfword(256));
    assert_eq!(loaded.to_string(), "completed, read 2 bytes at 256");
}

#[test]
fn conditions() {
    for (number, condition) in (0..).zip(Condition::ALL) {
        assert_eq!(condition.number(), number);
        assert_eq!(Condition::from_number(number), Some(condition));
        assert_eq!(format!("{condition:?}").to_uppercase(), condition.name());
        assert!(in_header(condition.name()), "{condition}");
    }
    assert_eq!([14, 15, 255].map(Condition::from_number), [None; 3]);
}

/// The library, this crate and the header have one version.
#[test]
fn versions() {
    let library = paw::version();
    assert_eq!(library.to_string(), paw::VERSION);
    let numbers = [
        ("MAJOR", u32::from(library.major)),
        ("MINOR", library.minor.into()),
        ("PATCH", library.patch.into()),
    ];
    for (part, number) in numbers {
        let line = format!("\n#define PAW_VERSION_{part} {number}\n");
        assert!(HEADER.contains(&line), "{line}");
    }
}

/// One instruction of each kind, in the manual's notation.
#[test]
fn instructions() {
    let samples = [
        (0x0000, "HALT #0"),
        (0x0007, "HALT #7"),
        (0x00FF, "HALT #255"),
        (0x23FF, "MOV R3, #255"),
        (0x2F00, "CMP R7, #0"),
        (0x4008, "AND R0, R1"),
        (0x4051, "EOR R1, R2"),
        (0x409A, "ASR R2, R3"),
        (0x40E3, "TST R3, R4"),
        (0x412C, "NEG R4, R5"),
        (0x4175, "CMP R5, R6"),
        (0x44FE, "ADD R14, R15"),
        (0x4410, "ADD R0, R2"),
        (0x4540, "CMP R0, R8"),
        (0x4687, "MOV R15, R0"),
        (0x6001, "STR R1, [R0, #0]"),
        (0x67FF, "STR R7, [R7, #124]"),
        (0x6891, "LDR R1, [R2, #8]"),
        (0x77C1, "STRB R1, [R0, #31]"),
        (0x7891, "LDRB R1, [R2, #2]"),
        (0xA001, "ADD R0, PC, #4"),
        (0xA7FF, "ADD R7, PC, #1020"),
        (0xD080, "BEQ -256"),
        (0xDD7F, "BLE +254"),
        (0xDA00, "BGE +0"),
    ];
    for (halfword, text) in samples {
        assert_eq!(paw::decode(halfword).unwrap().to_string(), text, "{halfword:#06x}");
    }
}

/// Every instruction has a text of its own.
#[test]
fn no_two_instructions_alike() {
    let mut texts = HashSet::new();
    for halfword in 0..=u16::MAX {
        if let Some(instruction) = paw::decode(halfword) {
            assert!(texts.insert(instruction.to_string()), "{instruction}");
        }
    }
    assert_eq!(texts.len(), 19_264);
}
