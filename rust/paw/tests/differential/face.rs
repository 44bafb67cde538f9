//! The exported functions as C calls them: words with any fields, the machine's record byte by
//! byte, and answers bit by bit.

use std::hash::{DefaultHasher, Hash, Hasher};
use std::mem::MaybeUninit;

use reference::cpu::MEMORY_BYTES;
use reference::generate::Rng;
use reference::loader::place_code;

unsafe extern "C" {
    fn paw_decode(halfword: u16) -> u32;
    fn paw_encode(word: u32) -> u32;
    fn paw_step(machine: *mut u8, memory: *mut u8, len: usize) -> u32;
    fn paw_run(machine: *mut u8, memory: *mut u8, len: usize, budget: u32) -> u64;
    fn paw_assemble(text: *const u8, text_len: usize, code: *mut u16, code_len: usize) -> u64;
    fn paw_list(code: *const u16, code_len: usize, text: *mut u8, text_len: usize) -> u64;
}

/// The kind of HALT, whose first field is the note.
const HALT: u8 = 18;

/// The answer of a step or run that met HALT.
const MET_HALT: u32 = 255;

fn decode(halfword: u16) -> u32 {
    // SAFETY: takes a number and answers a number, for every number.
    unsafe { paw_decode(halfword) }
}

fn encode(word: [u8; 4]) -> u32 {
    // SAFETY: takes a number and answers a number, for every number.
    unsafe { paw_encode(u32::from_be_bytes(word)) }
}

fn assemble(text: &[u8], code: &mut [u16]) -> u64 {
    // SAFETY: both are borrowed for the call, and the lengths are their own.
    unsafe { paw_assemble(text.as_ptr(), text.len(), code.as_mut_ptr(), code.len()) }
}

fn list(code: &[u16], text: &mut [u8]) -> u64 {
    // SAFETY: as for `assemble`.
    unsafe { paw_list(code.as_ptr(), code.len(), text.as_mut_ptr(), text.len()) }
}

#[test]
fn every_word_of_halt_encodes() {
    for fields in 0..1 << 24 {
        let [_, note, b, c] = u32::to_be_bytes(fields);
        // Number 0 below, the halfword above: what stands in fields that HALT lacks is no matter.
        assert_eq!(encode([HALT, note, b, c]), u32::from(note) << 16, "{note} {b} {c}");
    }
}

#[test]
fn no_other_kind_is_beside_it() {
    for kind in (HALT + 1)..=u8::MAX {
        for note in [0, 1, 7, 255] {
            assert_eq!(encode([kind, note, 0, 0]), 17, "kind {kind}");
        }
    }
}

#[test]
fn every_halfword_is_a_halt_or_not() {
    let mut halts = 0;
    for halfword in 0..=u16::MAX {
        let word = decode(halfword);
        let [kind, note, b, c] = word.to_be_bytes();
        match halfword {
            0x0000..=0x00FF => assert_eq!((kind, u16::from(note), b, c), (HALT, halfword, 0, 0)),
            0x0100..=0x1FFF => assert_eq!(word, 0, "{halfword:#06x}"),
            _ => assert_ne!(kind, HALT, "{halfword:#06x}"),
        }
        if word != 0 {
            assert_eq!(encode(word.to_be_bytes()), u32::from(halfword) << 16);
        }
        halts += usize::from(kind == HALT);
    }
    assert_eq!(halts, 256);
}

/// Bytes of the record: registers, four flags, the note, and one that is nobody's.
const BYTES: usize = 38;
const NOTE: usize = 36;
const SPARE: usize = 37;
const GUARD: [u8; 26] = [0xA7; 26];

/// A record that is aligned as C aligns it, between bytes that no call may change.
#[repr(C, align(2))]
#[derive(Clone)]
struct Record {
    before: [u8; 26],
    bytes: [u8; BYTES],
    after: [u8; 26],
}

impl Record {
    /// Any registers but R15, which is 0, and any flags.
    fn any(rng: &mut Rng, note: u8, spare: u8) -> Self {
        let mut bytes = [0; BYTES];
        bytes[..30].iter_mut().for_each(|byte| *byte = rng.u8());
        bytes[32..NOTE].iter_mut().for_each(|flag| *flag = rng.u8() & 1);
        (bytes[NOTE], bytes[SPARE]) = (note, spare);
        Record { before: GUARD, bytes, after: GUARD }
    }

    fn set(&mut self, register: usize, value: u16) {
        self.bytes[2 * register..2 * register + 2].copy_from_slice(&value.to_le_bytes());
    }

    /// All that has a meaning.
    fn meaning(&self) -> &[u8] {
        assert_eq!([self.before, self.after], [GUARD; 2], "bytes that were not lent changed");
        &self.bytes[..SPARE]
    }

    fn step(&mut self, memory: &mut [u8]) -> u32 {
        // SAFETY: the record has the library's size and alignment, its flags are 0 or 1, and both
        // are borrowed for the call.
        unsafe { paw_step(self.bytes.as_mut_ptr(), memory.as_mut_ptr(), memory.len()) }
    }

    fn run(&mut self, memory: &mut [u8], budget: u32) -> u64 {
        // SAFETY: as for `step`.
        unsafe { paw_run(self.bytes.as_mut_ptr(), memory.as_mut_ptr(), memory.len(), budget) }
    }
}

/// What an answer tells of an access: the kind above the number, and the address above that.
fn access(kind: u32, address: u16) -> u32 {
    u32::from(address) << 16 | kind << 8
}

/// The answer of a run: the count above all that a step tells.
fn answer_of(count: u32, low: u32) -> u64 {
    u64::from(count) << 32 | u64::from(low)
}

fn memory_of(code: &[u16]) -> Vec<u8> {
    let mut memory = vec![0; MEMORY_BYTES];
    place_code(code, &mut memory);
    memory
}

/// HALT writes the byte behind the flags, and no other that has a meaning.
#[test]
fn the_note_is_the_byte_behind_the_flags() {
    let mut rng = Rng::new(801);
    let mut memory = memory_of(&[]);
    for (noted, spare) in (0..=u8::MAX).flat_map(|noted| [0, 1, 0x80, 0xFF].map(|s| (noted, s))) {
        place_code(&[noted.into()], &mut memory);
        let start = Record::any(&mut rng, !noted, spare);
        let mut expected = start.bytes;
        expected[NOTE] = noted;

        let mut stepped = start.clone();
        assert_eq!(stepped.step(&mut memory), MET_HALT);
        assert_eq!(stepped.meaning(), &expected[..SPARE]);

        let mut ran = start.clone();
        assert_eq!(ran.run(&mut memory, 1), MET_HALT.into());
        assert_eq!(ran.meaning(), &expected[..SPARE]);

        let mut spent = start.clone();
        assert_eq!(spent.run(&mut memory, 0), 0);
        assert_eq!(spent.meaning(), start.meaning());
    }
}

/// A program of which every step and end is the same, whatever stands in the byte that is nobody's.
#[test]
fn nothing_depends_on_the_last_byte() {
    let mut rng = Rng::new(802);
    // MOV R0, #200; NEG R1, R0; ADD R2, R1; STRB R2, [R0, #0]; HALT #77
    let code = [0x20C8, 0x4101, 0x440A, 0x7002, 0x004D];
    for note in 0..=u8::MAX {
        let start = Record::any(&mut rng, note, 0);
        for budget in 0..=5u32 {
            let ends = [0, 1, 0x7F, 0xFF].map(|spare| {
                let (mut record, mut memory) = (start.clone(), memory_of(&code));
                record.bytes[SPARE] = spare;
                let answer = record.run(&mut memory, budget);
                (answer, record.meaning().to_vec(), memory)
            });
            assert!(ends.iter().all(|end| *end == ends[0]), "{note} {budget}");
            let (answer, bytes, _) = &ends[0];
            let halted = budget == 5;
            let number = if halted { MET_HALT } else { 0 };
            let last = if budget < 4 { 0 } else { access(3, 200) };
            assert_eq!(*answer, answer_of(budget.min(4), last | number));
            assert_eq!(bytes[NOTE], if halted { 77 } else { note });
        }
    }
}

/// The crate's own record has that byte as padding, which comparisons and hashes pass over.
#[test]
fn machines_are_equal_by_their_fields() {
    let hash = |machine: &paw::Machine| {
        let mut hasher = DefaultHasher::new();
        machine.hash(&mut hasher);
        hasher.finish()
    };
    let machine = paw::Machine { note: 7, c: true, ..paw::Machine::default() };
    let [one, other] = [0x00, 0xFF].map(|spare| {
        let mut place = Box::new(MaybeUninit::new(machine));
        // SAFETY: the byte lies within the record, and any value may stand in its padding.
        unsafe { place.as_mut_ptr().cast::<u8>().add(SPARE).write(spare) };
        place
    });
    // SAFETY: both were made from a whole machine.
    let (one, other) = unsafe { (one.assume_init_ref(), other.assume_init_ref()) };
    assert_eq!(one, other);
    assert_eq!(hash(one), hash(other));
    assert_ne!(*one, paw::Machine { note: 8, ..*other });
}

/// LDRB, LDR, STRB and STR of R1 where R0 points, each in the place of its kind from 1 on.
const ACCESSES: [u16; 4] = [0x7801, 0x6801, 0x7001, 0x6001];

/// Addresses with bits at both ends, all of which 4 divides.
const ALIGNED: [u16; 8] = [0x0000, 0x0004, 0x00FC, 0x0100, 0x7FFC, 0x8000, 0xFF00, 0xFFFC];

/// Addresses for bytes besides.
const ASKEW: [u16; 6] = [0x0001, 0x00FF, 0x0101, 0x7FFF, 0x8001, 0xFFFF];

/// Every access at each of its addresses: its halfword, its kind and the address.
fn accesses() -> Vec<(u16, u32, u16)> {
    let mut all = Vec::new();
    for (kind, halfword) in (1..).zip(ACCESSES) {
        let of_byte = kind % 2 == 1;
        let askew = if of_byte { &ASKEW[..] } else { &[] };
        all.extend(ALIGNED.iter().chain(askew).map(|&address| (halfword, kind, address)));
    }
    all
}

/// Alone, and with each ending behind it, none of which leaves a bit of its own above the number.
#[test]
fn the_access_stands_above_the_number() {
    let mut rng = Rng::new(803);
    // HALT; undefined; LDR and STR of R1 where R2 points, which is odd.
    let behind = [(0x0000, 255), (0x00FF, 255), (0xFFFF, 19), (0x6811, 20), (0x6011, 20)];
    for (halfword, kind, address) in accesses() {
        let mut start = Record::any(&mut rng, 0x5A, 0xA5);
        start.set(0, address);
        start.set(2, 0xFFFF);
        let told = access(kind, address);
        assert_eq!(start.clone().step(&mut memory_of(&[halfword])), told);
        for (next, number) in behind {
            let code = [halfword, next];
            let at_once = start.clone().run(&mut memory_of(&code), 9);
            assert_eq!(at_once, answer_of(1, told | number), "{halfword:#06x} {next:#06x}");

            let (mut record, mut memory) = (start.clone(), memory_of(&code));
            assert_eq!(record.run(&mut memory, 0), 0);
            assert_eq!(record.run(&mut memory, 1), answer_of(1, told));
            assert_eq!(record.step(&mut memory), number);
            assert_eq!(record.run(&mut memory, 9), answer_of(0, number));
        }
    }
}

/// Nothing is left of an access behind which a step without data is completed.
#[test]
fn no_data_is_no_bit() {
    let mut rng = Rng::new(804);
    let jump = 0x469F; // MOV R15, R3
    // MOV R1, #9; CMP R0, R0; BEQ +4; BNE +4. HALT is wherever they lead.
    let others = [0x2109, 0x4140, 0xD002, 0xD102, jump];
    for (halfword, _, address) in accesses() {
        let mut start = Record::any(&mut rng, 0x5A, 0xA5);
        start.set(0, address);
        start.set(1, 0); // so that what a store puts into the code is HALT
        start.set(3, 0x4000);
        for other in others {
            let run = |budget| start.clone().run(&mut memory_of(&[halfword, other]), budget);
            assert_eq!(run(2), answer_of(2, 0), "{halfword:#06x} {other:#06x}");
            assert_eq!(run(3), answer_of(2, MET_HALT), "{halfword:#06x} {other:#06x}");
        }
        start.set(3, 0x4001);
        assert_eq!(start.run(&mut memory_of(&[halfword, jump]), 3), answer_of(2, 18));
    }
}

/// A refusal is its number alone.
#[test]
fn a_refused_memory_tells_no_access() {
    let mut rng = Rng::new(805);
    for (halfword, _, address) in accesses() {
        for length in [0, 2, 65_535, 65_537] {
            let bytes = halfword.to_le_bytes().into_iter().cycle();
            let mut memory: Vec<u8> = bytes.take(length).collect();
            let mut record = Record::any(&mut rng, 0x5A, 0xA5);
            record.set(0, address);
            assert_eq!(record.step(&mut memory), 1);
            for budget in [0, 1, u32::MAX] {
                assert_eq!(record.run(&mut memory, budget), 1);
            }
        }
    }
}

/// The number is the low 16 bits, and all above it is the length or the line, beyond 16 bits too.
#[test]
fn the_assembler_tells_halfwords_or_a_line() {
    let mut code = vec![0xA5A5; 15_936];
    for count in [1, 2, 255, 256, 257, 15_935, 15_936] {
        let text = "HALT #7\n".repeat(count);
        assert_eq!(assemble(text.as_bytes(), &mut code), (count as u64) << 16);
        assert_eq!(assemble(text.as_bytes(), &mut code[..count - 1]), 16);
    }
    assert_eq!(assemble(b"", &mut code), 15);
    assert_eq!(assemble("HALT #7\n".repeat(15_937).as_bytes(), &mut code), 15);
    for lines in [0, 1, 254, 255, 256, 20_000] {
        let labels: String = (0..lines).map(|number| format!("x{number}:\n")).collect();
        for (last, number) in
            [("HALT\n", 21), ("HALT #7", 21), ("BEQ y\n", 22), ("HALT #256\n", 23)]
        {
            let text = format!("{labels}{last}");
            let due = (lines + 1) << 16 | number;
            assert_eq!(assemble(text.as_bytes(), &mut code), due, "{last} behind {lines} lines");
        }
    }
    for lines in [65_534, 65_535, 65_536, 131_071, 200_000] {
        let text = "x:\n".repeat(lines) + "HALT\n";
        assert_eq!(assemble(text.as_bytes(), &mut code), (lines as u64 + 1) << 16 | 21);
    }
}

#[test]
fn the_lister_tells_bytes_or_an_address() {
    let mut text = vec![0xA5; 310_000];
    for count in [1, 2, 13, 14, 3_449, 3_450, 15_936] {
        let code = vec![0x67FF; count]; // STR R7, [R7, #124]
        assert_eq!(list(&code, &mut text), (19 * count as u64) << 16);
        assert_eq!(list(&code, &mut text[..19 * count - 1]), 16);
    }
    assert_eq!(list(&[], &mut text), 15);
    assert_eq!(list(&vec![0; 15_937], &mut text), 15);
    for place in [0, 1, 127, 128, 15_935] {
        let mut code = vec![0; 15_936];
        code[place] = 0xFFFF;
        assert_eq!(list(&code, &mut text), (2 * place as u64) << 16 | 9);
        code[place] = 0xD07F; // 254 bytes ahead
        let leaves = place + 127 > 15_935;
        let answer = list(&code, &mut text);
        assert_eq!(answer as u16, if leaves { 13 } else { 0 });
        assert!(!leaves || answer >> 16 == 2 * place as u64);
    }
}
