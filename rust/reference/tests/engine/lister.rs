use std::time::{Duration, Instant};

use reference::generate::{self, Rng};
use reference::instruction::{branch_target, decode, Instruction};
use reference::refusal::Refusal;
use reference::source::{assemble, list};
use reference::table::SAMPLE;

type Answer = Result<String, Refusal>;

/// The listing of code with all the room it may want.
fn listed(code: &[u16]) -> Answer {
    list(code, usize::MAX).map(|text| String::from_utf8(text).unwrap())
}

fn refused(number: u8, place: u16) -> Answer {
    Err(Refusal { number, place })
}

/// Asserts that the listing of code gives the code back, in just the room that it needs.
fn returns(code: &[u16]) -> String {
    let text = listed(code).unwrap();
    assert_eq!(assemble(text.as_bytes(), code.len()).as_deref(), Ok(code), "{text}");
    text
}

#[test]
fn samples_of_every_form() {
    let samples = [
        (0x0000, "HALT #0"),
        (0x0007, "HALT #7"),
        (0x00FF, "HALT #255"),
        (0x23FF, "MOV R3, #255"),
        (0x2F00, "CMP R7, #0"),
        (0x4008, "AND R0, R1"),
        (0x4051, "EOR R1, R2"),
        (0x409A, "ASR R2, R3"),
        (0x40E3, "TST R3, R4"),
        (0x412C, "NEG R4, R5"),
        (0x4175, "CMP R5, R6"),
        (0x44FE, "ADD R14, R15"),
        (0x4410, "ADD R0, R2"),
        (0x4540, "CMP R0, R8"),
        (0x4687, "MOV R15, R0"),
        (0x6041, "STR R1, [R0, #4]"),
        (0x67FF, "STR R7, [R7, #124]"),
        (0x6891, "LDR R1, [R2, #8]"),
        (0x77C1, "STRB R1, [R0, #31]"),
        (0x7891, "LDRB R1, [R2, #2]"),
        (0xA001, "ADD R0, PC, #4"),
        (0xA7FF, "ADD R7, PC, #1020"),
    ];
    for (halfword, line) in samples {
        assert_eq!(listed(&[halfword]), Ok(format!("{line}\n")));
    }
}

#[test]
fn the_sample_of_the_bench_table() {
    let text = "MOV R1, #252\nAND R0, R1\nMOV R2, #128\nADD R2, R2\nADD R0, R2\nSTR R1, [R0, #0]\n\
                HALT #0\n";
    assert_eq!(returns(&SAMPLE), text);
}

/// A label stands before every instruction that a branch goes to, and before no other.
#[test]
fn labels() {
    assert_eq!(listed(&[0xD000]), Ok("a0:\nBEQ a0\n".to_string()));
    let code = [0xD105, 0xD0FF, 0x0000, 0xDD02, 0xD2FF, 0x0007];
    let text = "a0:\nBNE a10\nBEQ a0\nHALT #0\na6:\nBLE a10\nBCS a6\na10:\nHALT #7\n";
    assert_eq!(returns(&code), text);
}

/// A branch goes backwards or forwards from the middle, as far as it can.
#[test]
fn every_branch() {
    for (cond, offset) in (0..14).flat_map(|cond| (0..256).map(move |offset| (cond, offset))) {
        let mut code = vec![0; 256];
        code[128] = 0xD000 | cond << 8 | offset;
        let target = branch_target(256, offset as u8);
        let text = returns(&code);
        assert_eq!(text.matches(':').count(), 1);
        assert_eq!(text.matches(&format!("a{target}\n")).count(), 1);
        let (before, behind) = text.split_once(&format!("a{target}:\n")).unwrap();
        let lines = [before, behind].map(|part| part.lines().count());
        assert_eq!(lines, [usize::from(target / 2), 256 - usize::from(target / 2)]);
    }
}

#[test]
fn every_halfword_alone() {
    for halfword in 0..=u16::MAX {
        let answer = listed(&[halfword]);
        match decode(halfword) {
            None => assert_eq!(answer, refused(9, 0)),
            Some(Instruction::Branch { offset: 1.., .. }) => assert_eq!(answer, refused(13, 0)),
            Some(_) => drop(returns(&[halfword])),
        }
    }
}

#[test]
fn lengths_of_code() {
    assert_eq!(listed(&[]), refused(15, 0));
    for count in [15_937, 15_938, 32_768, 65_536] {
        assert_eq!(listed(&vec![0; count]), refused(15, 0));
        assert_eq!(listed(&vec![0xFFFF; count]), refused(15, 0));
    }
    for count in [1, 15_935, 15_936] {
        assert_eq!(listed(&vec![7; count]), Ok("HALT #7\n".repeat(count)));
    }
}

/// Both checks are put to one instruction before they are put to the next.
#[test]
fn the_lowest_address_counts() {
    assert_eq!(listed(&[0x0000, 0xFFFF, 0xD07F]), refused(9, 2));
    assert_eq!(listed(&[0x0000, 0xD07F, 0xFFFF]), refused(13, 2));
    let mut code = vec![0; 15_936];
    code[15_935] = 0xFFFF;
    assert_eq!(listed(&code), refused(9, 31_870));
    code[15_935] = 0xD001;
    assert_eq!(listed(&code), refused(13, 31_870));
    code[15_935] = 0xD000;
    assert!(listed(&code).is_ok());
    code[15_808] = 0xD07F;
    assert!(listed(&code).is_ok());
    code[15_809] = 0xD07F;
    assert_eq!(listed(&code), refused(13, 31_618));
}

/// Before address 0, behind the last instruction, and far away.
#[test]
fn branches_that_leave_the_code() {
    assert_eq!(listed(&[0xD0FF, 0]), refused(13, 0));
    assert_eq!(listed(&[0, 0xD0FE, 0]), refused(13, 2));
    assert_eq!(listed(&[0, 0xD0FF, 0]).unwrap(), "a0:\nHALT #0\nBEQ a0\nHALT #0\n");
    assert_eq!(listed(&[0, 0xD001]), refused(13, 2));
    assert_eq!(listed(&[0, 0xD001, 0]).unwrap(), "HALT #0\nBEQ a4\na4:\nHALT #0\n");
    // The assembler takes a branch right behind the code, so not every code can be listed.
    assert_eq!(assemble(b"BEQ end\nend:\n", 1), Ok(vec![0xD001]));
    assert_eq!(listed(&[0xD001]), refused(13, 0));
}

/// The lister asks nothing else of which the judge might say no.
#[test]
fn code_that_the_judge_would_refuse() {
    // A stray load, a misaligned one, a write to R15, and no HALT at the end.
    let text = "LDRB R0, [R0, #0]\nLDR R0, [R0, #4]\nMOV R15, R0\nADD R15, R15\n";
    assert_eq!(returns(&[0x7800, 0x6840, 0x4687, 0x44FF]), text);
}

#[test]
fn the_room_is_asked_for_last() {
    let code = [0xD001, 0x0007];
    let text = "BEQ a2\na2:\nHALT #7\n";
    for room in 0..text.len() {
        assert_eq!(list(&code, room), Err(Refusal::of(16)));
    }
    for room in [text.len(), text.len() + 1, 1_000_000] {
        assert_eq!(list(&code, room).as_deref(), Ok(text.as_bytes()));
    }
    assert_eq!(list(&[], 0), Err(Refusal::of(15)));
    assert_eq!(list(&[0, 0xFFFF], 0), Err(Refusal::at(9, 2)));
    assert_eq!(list(&[0, 0xD001], 0), Err(Refusal::at(13, 2)));
}

#[test]
fn generated_programs_return() {
    let mut rng = Rng::new(41);
    let mut refusals = 0;
    for _ in 0..300 {
        let length = rng.between(1, 600);
        let fit = generate::fit_program(&mut rng, length).code;
        returns(&fit);
        let random = generate::random_program(&mut rng, length).code;
        match list(&random, usize::MAX) {
            Ok(text) => assert_eq!(assemble(&text, length), Ok(random)),
            Err(refusal) => {
                assert_eq!(refusal.number, 13);
                refusals += 1;
            }
        }
    }
    assert!((20..300).contains(&refusals), "{refusals}");
}

#[test]
fn the_largest_program_takes_no_time() {
    let code = vec![0xD000; 15_936];
    let start = Instant::now();
    let text = returns(&code);
    assert!(start.elapsed() < Duration::from_secs(1), "{:?}", start.elapsed());
    assert_eq!(text.lines().count(), 2 * 15_936);
    assert!(text.ends_with("a31870:\nBEQ a31870\n"));
}
