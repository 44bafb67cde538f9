use std::time::{Duration, Instant};

use reference::refusal::SourceRefusal;
use reference::source::assemble;

type Answer = Result<Vec<u16>, SourceRefusal>;

/// The answer to a text with all the room it may want.
fn assembled(text: &str) -> Answer {
    assemble(text.as_bytes(), 20_000)
}

fn refused(number: u8, line: u64) -> Answer {
    Err(SourceRefusal { number, line })
}

/// The halfword of a text of one instruction.
fn one(line: &str) -> Answer {
    assembled(&format!("{line}\n"))
}

#[track_caller]
fn assert_one(line: &str, halfword: u16) {
    assert_eq!(one(line), Ok(vec![halfword]), "{line}");
}

#[track_caller]
fn assert_refused(text: &str, number: u8, line: u64) {
    assert_eq!(assembled(text), refused(number, line), "{text:?}");
}

#[test]
fn samples_of_every_form() {
    assert_one("ADD R0, PC, #4", 0xA001);
    assert_one("STR R1, [R0, #4]", 0x6041);
    assert_one("HALT #7", 0x0007);
    assert_one("MOV R3, #255", 0x23FF);
    assert_one("CMP R7, #0", 0x2F00);
    assert_one("NEG R4, R5", 0x412C);
    assert_one("ADD R14, R15", 0x44FE);
    assert_one("MOV R15, R0", 0x4687);
    assert_one("LDR R1, [R2, #8]", 0x6891);
    assert_one("STRB R1, [R0, #31]", 0x77C1);
    assert_one("LDRB R1, [R2, #2]", 0x7891);
}

#[test]
fn a_branch_to_a_label() {
    let nops = "CMP R0, R0\n".repeat(5);
    let behind = format!("BEQ a10\n{}a10:\nHALT #0\n", &nops[11..]);
    assert_eq!(assembled(&behind).unwrap()[0], 0xD005);
    let before = format!("a10:\n{nops}BEQ a10\nHALT #0\n");
    assert_eq!(assembled(&before).unwrap()[5], 0xD0FB);
    assert_eq!(assembled("a10:\nBEQ a10\n"), Ok(vec![0xD000]));
}

#[test]
fn every_condition() {
    let names =
        ["EQ", "NE", "CS", "CC", "MI", "PL", "VS", "VC", "HI", "LS", "GE", "LT", "GT", "LE"];
    for (number, name) in (0..).zip(names) {
        assert_eq!(
            assembled(&format!("HALT #0\nx:\nB{name} x\n")).unwrap()[1],
            0xD000 | number << 8
        );
    }
    for name in ["", "AL", "NV", "HS", "LO", "eq", "Eq", "EQ ", "E", "EQQ"] {
        assert_refused(&format!("x:\nB{name} x\n"), 21, 2);
    }
}

/// CMP of two low registers has the form of AND; ADD and MOV have one form for all registers.
#[test]
fn forms_that_the_registers_choose() {
    assert_one("CMP R5, R6", 0x4175);
    assert_one("CMP R0, R8", 0x4540);
    assert_one("CMP R8, R0", 0x4580);
    assert_one("CMP R7, R8", 0x4547);
    assert_one("CMP R15, R15", 0x45FF);
    assert_one("ADD R0, R2", 0x4410);
    assert_one("MOV R0, R2", 0x4610);
    assert_one("ADD R0, R15", 0x4478);
}

#[test]
fn lines_of_neither_kind() {
    let bad = [
        "",
        " ",
        "HALT",
        "HALT ",
        "HALT  #7",
        "HALT #7 ",
        " HALT #7",
        "HALT\t#7",
        "HALT #7\r",
        "HALT 7",
        "HALT #",
        "HALT #-1",
        "HALT #+1",
        "HALT #0x7",
        "HALT #7, #7",
        "halt #7",
        "Halt #7",
        "HALT #7:",
        "NOP",
        "MOV R0",
        "MOV R0, ",
        "MOV R0,#1",
        "MOV R0 , #1",
        "MOV R0,  #1",
        "MOV  R0, #1",
        "MOV R0, # 1",
        "MOV #1, R0",
        "MOV R0, #1, #1",
        "mov R0, #1",
        "MOV r0, #1",
        "MOV R0, r1",
        "MOV R16, R0",
        "MOV R0, R16",
        "MOV R01, R0",
        "MOV R00, R0",
        "MOV R0, R015",
        "MOV R, R0",
        "MOV PC, R0",
        "MOV R0, PC",
        "MOV SP, R0",
        "ADD R0, PC",
        "ADD R0, PC, ",
        "ADD R0, PC, 4",
        "ADD R0, R15, #4",
        "ADD R0, R0, #4",
        "ADD R0, pc, #4",
        "ADD PC, R0",
        "ADD PC, PC, #4",
        "ADD R0, #4",
        "MOV R0, PC, #4",
        "CMP R0, PC",
        "LDR R0, [R1]",
        "LDR R0, [R1, #4",
        "LDR R0, R1, #4]",
        "LDR R0, [R1,#4]",
        "LDR R0, [R1 , #4]",
        "LDR R0, [ R1, #4]",
        "LDR R0, [R1, #4 ]",
        "LDR R0, [R1, R2]",
        "LDR R0, [PC, #4]",
        "LDR R0, [#4, R1]",
        "LDRH R0, [R1, #4]",
        "STR R0, [R1, #04]",
        "B a10",
        "BEQ",
        "BEQ ",
        "BEQ 10",
        "BEQ #10",
        "BEQ A10",
        "BEQ a10:",
        "BEQ a10, a10",
        "BEQ abcdefghi",
        "BEQ a_b",
        ":",
        "x :",
        " x:",
        "x: ",
        "x::",
        "x",
        "X:",
        "aB:",
        "1a:",
        "10:",
        "a-b:",
        "abcdefghi:",
        "x: HALT #7",
        "# HALT",
        "HALT #7 # why",
    ];
    for line in bad {
        assert_eq!(one(line), refused(21, 1), "{line:?}");
        let among = format!("HALT #0\nx:\n{line}\nHALT #1\n");
        assert_eq!(assembled(&among), refused(21, 3), "{line:?}");
    }
}

#[test]
fn bytes_that_are_no_ascii() {
    for byte in 128..=255 {
        let text = [b"HALT #0\nHALT #", &[byte][..], b"\n"].concat();
        assert_eq!(assemble(&text, 9), refused(21, 2));
    }
    // A letter and a digit by Unicode, and a line that only a decoder of UTF-16 would part.
    for text in ["é:\nHALT #0\n", "HALT #٣\n", "HALT #0\u{2028}HALT #0\n", "\u{feff}HALT #0\n"] {
        assert_refused(text, 21, 1);
    }
}

#[test]
fn registers_that_their_form_does_not_hold() {
    let low = [
        "MOV {}, #1",
        "CMP {}, #1",
        "AND {}, R0",
        "AND R0, {}",
        "EOR {}, R0",
        "EOR R0, {}",
        "ASR {}, R0",
        "ASR R0, {}",
        "TST {}, R0",
        "TST R0, {}",
        "NEG {}, R0",
        "NEG R0, {}",
        "STR {}, [R0, #4]",
        "STR R0, [{}, #4]",
        "LDR {}, [R0, #4]",
        "LDR R0, [{}, #4]",
        "STRB {}, [R0, #4]",
        "STRB R0, [{}, #4]",
        "LDRB {}, [R0, #4]",
        "LDRB R0, [{}, #4]",
        "ADD {}, PC, #4",
    ];
    let any = ["ADD {}, R0", "ADD R0, {}", "CMP {}, R0", "CMP R0, {}", "MOV {}, R0", "MOV R0, {}"];
    for (forms, held) in [(&low[..], 8), (&any, 16)] {
        for form in forms {
            for number in 0..=20 {
                let answer = one(&form.replace("{}", &format!("R{number}")));
                assert_eq!(answer.is_ok(), number < held, "{form} {number}");
                assert!(answer.is_ok() || answer == refused(21, 1), "{form} {number}");
            }
        }
    }
}

/// Each form with a value: how it is written, the largest value, and the steps that it goes in.
const VALUES: [(&str, u32, u32); 8] = [
    ("HALT #{}", 255, 1),
    ("MOV R1, #{}", 255, 1),
    ("CMP R1, #{}", 255, 1),
    ("STR R1, [R2, #{}]", 124, 4),
    ("LDR R1, [R2, #{}]", 124, 4),
    ("STRB R1, [R2, #{}]", 31, 1),
    ("LDRB R1, [R2, #{}]", 31, 1),
    ("ADD R1, PC, #{}", 1_020, 4),
];

#[test]
fn values_and_their_limits() {
    for (form, most, step) in VALUES {
        for value in 0..=70_000 {
            let fits = value <= most && value % step == 0;
            let answer = one(&form.replace("{}", &value.to_string()));
            assert_eq!(answer.is_ok(), fits, "{form} {value}");
            assert!(fits || answer == refused(23, 1), "{form} {value}");
        }
    }
}

/// No length makes a number small again.
#[test]
fn numbers_of_any_length() {
    for (form, ..) in VALUES {
        let with = |digits: &str| one(&form.replace("{}", digits));
        for power in [11, 16, 32, 64, 127] {
            for small in [0, 4] {
                let value = (1u128 << power) + small;
                assert_eq!(with(&value.to_string()), refused(23, 1), "{form} {value}");
            }
        }
        for length in [5, 30, 6_000] {
            assert_eq!(with(&format!("1{}", "0".repeat(length - 1))), refused(23, 1));
            assert_eq!(with(&"9".repeat(length)), refused(23, 1));
            assert_eq!(with(&"0".repeat(length)), refused(21, 1));
            assert_eq!(with(&format!("{}4", "0".repeat(length))), refused(21, 1));
            assert_eq!(with(&format!("{}x", "4".repeat(length))), refused(21, 1));
        }
        assert!(with("0").is_ok());
        assert_eq!(with("00"), refused(21, 1));
        assert_eq!(with("04"), refused(21, 1));
        assert_eq!(with(""), refused(21, 1));
    }
}

#[test]
fn branches_at_their_limits() {
    for distance in 0..200u16 {
        let between = "HALT #0\n".repeat(distance.into());
        let back = assembled(&format!("x:\n{between}BNE x\n"));
        match distance {
            0..=128 => {
                assert_eq!(back.unwrap().pop(), Some(0xD100 | distance.wrapping_neg() & 255))
            }
            _ => assert_eq!(back, refused(23, u64::from(distance) + 2)),
        }
        let ahead = assembled(&format!("BNE x\n{between}x:\n"));
        match distance {
            0..=126 => assert_eq!(ahead.unwrap()[0], 0xD101 + distance),
            _ => assert_eq!(ahead, refused(23, 1)),
        }
    }
}

#[test]
fn a_label_behind_the_last_instruction() {
    assert_eq!(assembled("BEQ end\nend:\n"), Ok(vec![0xD001]));
    assert_eq!(assembled("HALT #0\none:\ntwo:\n"), Ok(vec![0]));
}

#[test]
fn several_labels_before_one_instruction() {
    let text = "HALT #0\na:\nb:\nc:\nHALT #1\nBEQ a\nBEQ b\nBEQ c\n";
    assert_eq!(assembled(text), Ok(vec![0, 1, 0xD0FF, 0xD0FE, 0xD0FD]));
}

#[test]
fn names() {
    for name in ["a", "z", "a0", "pc", "r0", "halt", "beq", "abcdefgh", "a2345678", "zzzzzzz9"] {
        assert_eq!(assembled(&format!("{name}:\nBEQ {name}\n")), Ok(vec![0xD000]), "{name}");
    }
    // Names that begin alike are different names.
    let text =
        "a:\nHALT #0\na1:\nHALT #0\na10:\nHALT #0\na100:\nBEQ a\nBEQ a1\nBEQ a10\nBEQ a100\n";
    assert_eq!(assembled(text).unwrap()[3..], [0xD0FD, 0xD0FD, 0xD0FD, 0xD0FD]);
    assert_refused("a1:\nBEQ a\n", 22, 2);
    assert_refused("a:\nBEQ a1\n", 22, 2);
    assert_refused("abcdefgh:\nBEQ abcdefg\n", 22, 2);
}

#[test]
fn missing_and_doubled_labels() {
    assert_refused("BEQ x\n", 22, 1);
    assert_refused("x:\nx:\nHALT #0\n", 22, 2);
    assert_refused("x:\nHALT #0\nx:\n", 22, 3);
    assert_refused("x:\ny:\nHALT #0\ny:\nx:\nx:\n", 22, 4);
    assert_refused("HALT #0\ny:\nBEQ x\ny:\n", 22, 3);
}

/// A branch is measured to the first of two definitions, be the second near or far.
#[test]
fn the_first_definition_counts() {
    let far = "HALT #0\n".repeat(200);
    assert_refused(&format!("x:\n{far}BEQ x\nx:\n"), 23, 202);
    assert_refused(&format!("BEQ x\nx:\n{far}x:\n"), 22, 203);
    assert_refused(&format!("BEQ x\n{far}x:\nHALT #0\nx:\n"), 23, 1);
}

/// Checks 22 and 23 go through the lines once, together.
#[test]
fn the_upper_of_two_faults_counts() {
    assert_refused("HALT #256\nx:\nx:\n", 23, 1);
    assert_refused("x:\nx:\nHALT #256\n", 22, 2);
    assert_refused("HALT #0\nBEQ x\nHALT #256\n", 22, 2);
    assert_refused("HALT #0\nHALT #256\nBEQ x\n", 23, 2);
    let far = "HALT #0\n".repeat(200);
    assert_refused(&format!("BEQ x\nBNE y\n{far}x:\n"), 23, 1);
    assert_refused(&format!("BNE y\nBEQ x\n{far}x:\n"), 22, 1);
}

/// Check 21 is put to all lines before the others are put to any.
#[test]
fn a_bad_line_comes_before_everything() {
    assert_refused("HALT #256\nBEQ x\nHALT\n", 21, 3);
    assert_refused("x:\nx:\nhalt #0\nHALT\n", 21, 3);
    assert_refused("x:\n\n", 21, 2);
    assert_eq!(assemble(b"HALT #0\nHALT\n", 0), refused(21, 2));
    let long = "HALT #0\n".repeat(20_000);
    assert_refused(&format!("{long}HALT\n"), 21, 20_001);
    assert_refused(&format!("{long}HALT #0"), 21, 20_001);
}

#[test]
fn the_last_line_has_its_line_feed() {
    assert_refused("HALT #0", 21, 1);
    assert_refused("HALT #0\nHALT #0", 21, 2);
    assert_refused("HALT #0\nx:", 21, 2);
    assert_refused("HALT\nHALT #0", 21, 1);
    assert_refused("HALT #0\n\n", 21, 2);
    assert_refused("\n", 21, 1);
    assert_refused("HALT #0\r\nHALT #0\r\n", 21, 1);
}

#[test]
fn lengths_of_programs() {
    assert_refused("", 15, 0);
    assert_refused("x:\n", 15, 0);
    assert_refused("x:\nx:\n", 15, 0);
    for count in [1, 2, 15_935, 15_936] {
        let code = vec![7; count];
        assert_eq!(assembled(&"HALT #7\n".repeat(count)), Ok(code));
    }
    for count in [15_937, 15_938, 31_872, 32_768, 65_536, 65_537, 100_000] {
        assert_refused(&"HALT #7\n".repeat(count), 15, 0);
    }
    // Too long a program is refused before any of its labels and values.
    assert_refused(&format!("x:\nx:\nHALT #256\n{}", "HALT #7\n".repeat(15_936)), 15, 0);
    // Labels are lines, not instructions.
    let labels: String = (0..40_000).map(|n| format!("x{n}:\n")).collect();
    assert_eq!(assembled(&format!("{labels}HALT #7\nHALT\n")), refused(21, 40_002));
    assert_eq!(assembled(&format!("{labels}HALT #7\n")), Ok(vec![7]));
}

#[test]
fn the_room_is_asked_for_last() {
    let text = b"HALT #1\nx:\nHALT #2\nBEQ x\n";
    let code = vec![1, 2, 0xD0FF];
    for room in 0..3 {
        assert_eq!(assemble(text, room), refused(16, 0));
    }
    for room in [3, 4, 1_000, usize::MAX] {
        assert_eq!(assemble(text, room), Ok(code.clone()));
    }
    assert_eq!(assemble(b"HALT\n", 0), refused(21, 1));
    assert_eq!(assemble(b"", 0), refused(15, 0));
    assert_eq!(assemble(b"BEQ x\n", 0), refused(22, 1));
    assert_eq!(assemble(b"HALT #256\n", 0), refused(23, 1));
}

#[test]
fn the_largest_program_takes_no_time() {
    let lines = (0..15_936).map(|n| format!("lab{n}:\nBNE lab{n}\n"));
    let text: String = lines.collect();
    let start = Instant::now();
    assert_eq!(assembled(&text), Ok(vec![0xD100; 15_936]));
    assert!(start.elapsed() < Duration::from_secs(1), "{:?}", start.elapsed());
}
