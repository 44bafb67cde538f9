//! Programs in writing: good ones, damage that may be none, and names that are hard to keep apart.

use std::collections::HashSet;

use reference::generate::Rng;

pub const CONDITIONS: [&str; 14] =
    ["EQ", "NE", "CS", "CC", "MI", "PL", "VS", "VC", "HI", "LS", "GE", "LT", "GT", "LE"];

/// One good line of each form, and some more where forms have edges. A label comes first.
pub const SAMPLE: &str = "\
x:
MOV R3, #255
CMP R7, #0
AND R0, R1
EOR R1, R2
ASR R2, R3
TST R3, R4
NEG R4, R5
CMP R5, R6
CMP R10, R6
ADD R14, R15
ADD R1, R2
loop1:
MOV R0, R1
MOV R15, R9
STR R1, [R0, #4]
LDR R7, [R6, #124]
STRB R1, [R0, #31]
LDRB R2, [R3, #10]
ADD R0, PC, #4
ADD R7, PC, #1020
BEQ x
BLE abcdefg8
BCS loop1
abcdefg8:
HALT #7
";

/// The text of lines, each with its line feed.
pub fn text_of<L: AsRef<[u8]>>(lines: &[L]) -> Vec<u8> {
    lines.iter().flat_map(|line| [line.as_ref(), b"\n"].concat()).collect()
}

/// Any good instruction but a branch.
pub fn plain_line(rng: &mut Rng) -> String {
    let [d, s] = [rng.below(8), rng.below(8)];
    let [any_d, any_s] = [rng.below(16), rng.below(16)];
    let [byte, five] = [rng.below(256), rng.below(32)];
    match rng.below(7) {
        0 => format!("{} R{d}, #{byte}", rng.pick(&["MOV", "CMP"])),
        1 => {
            let name = rng.pick(&["AND", "EOR", "ASR", "TST", "NEG", "CMP"]);
            format!("{name} R{d}, R{s}")
        }
        2 => format!("{} R{any_d}, R{any_s}", rng.pick(&["ADD", "CMP", "MOV"])),
        3 => format!("{} R{d}, [R{s}, #{}]", rng.pick(&["STR", "LDR"]), 4 * five),
        4 => format!("{} R{d}, [R{s}, #{five}]", rng.pick(&["STRB", "LDRB"])),
        5 => format!("ADD R{d}, PC, #{}", 4 * byte),
        _ => format!("HALT #{byte}"),
    }
}

/// A branch to a label.
pub fn branch_line(rng: &mut Rng, label: &str) -> String {
    format!("B{} {label}", rng.pick(&CONDITIONS))
}

/// A letter or digit of a name. A few come often, so that names are alike.
fn letter(rng: &mut Rng) -> u8 {
    let letters: &[u8] =
        if rng.flip() { b"ab01z9" } else { b"abcdefghijklmnopqrstuvwxyz0123456789" };
    rng.pick(letters)
}

/// Any name that a label may have.
pub fn name(rng: &mut Rng) -> String {
    let length = rng.between(1, 8);
    loop {
        let name: String = (0..length).map(|_| char::from(letter(rng))).collect();
        if name.starts_with(|first: char| first.is_ascii_lowercase()) {
            return name;
        }
    }
}

/// Names that [`names`] never gives: for a label far away, and for one that is not defined.
pub const FAR: &str = "far";
pub const NOWHERE: &str = "nowhere";

/// Different names.
pub fn names(rng: &mut Rng, count: usize) -> Vec<String> {
    let mut taken = HashSet::from([FAR.to_string(), NOWHERE.to_string()]);
    let mut names = Vec::with_capacity(count);
    while names.len() < count {
        let name = name(rng);
        if taken.insert(name.clone()) {
            names.push(name);
        }
    }
    names
}

/// A good program with these labels, at any places. About a third of its instructions branch, where
/// a label is near enough.
pub fn program_with(rng: &mut Rng, instructions: usize, names: &[String]) -> Vec<String> {
    let mut places: Vec<usize> = names.iter().map(|_| rng.between(0, instructions)).collect();
    places.sort_unstable();
    let mut labels = places.iter().zip(names).peekable();
    let mut lines = Vec::with_capacity(instructions + names.len());
    for number in 0..=instructions {
        while let Some((_, name)) = labels.next_if(|&(&place, _)| place == number) {
            lines.push(format!("{name}:"));
        }
        if number < instructions {
            let first = places.partition_point(|&place| place + 128 < number);
            let end = places.partition_point(|&place| place <= number + 127);
            let branches = first < end && rng.one_in(3);
            lines.push(if branches {
                let label = &names[rng.between(first, end - 1)];
                branch_line(rng, label)
            } else {
                plain_line(rng)
            });
        }
    }
    lines
}

/// A good program with so many labels.
pub fn program(rng: &mut Rng, instructions: usize, labels: usize) -> Vec<String> {
    let names = names(rng, labels);
    program_with(rng, instructions, &names)
}

/// A text with one thing changed, which may leave it good.
pub fn damaged(rng: &mut Rng, text: &[u8]) -> Vec<u8> {
    if rng.flip() {
        return with_byte_damaged(rng, text);
    }
    let mut lines: Vec<Vec<u8>> = text.split(|&byte| byte == b'\n').map(<[u8]>::to_vec).collect();
    let (one, other) = (rng.below(lines.len()), rng.below(lines.len()));
    match rng.below(9) {
        0 => lines.insert(other, lines[one].clone()),
        1 => lines.swap(one, other),
        2 => drop(lines.remove(one)),
        3 => lines[one].push(b'\r'),
        4 => lines.iter_mut().for_each(|line| line.push(b'\r')),
        5 => lines.insert(one, Vec::new()),
        6 => {
            let length = rng.between(0, lines[one].len());
            lines[one].truncate(length);
        }
        7 => {
            let half = lines[other].len() / 2;
            let tail = lines[other].split_off(half);
            lines[one].extend(tail);
        }
        _ => lengthen_number(rng, &mut lines[one]),
    }
    lines.join(&b'\n')
}

/// Puts digits behind the last one of a line, seldom thousands.
fn lengthen_number(rng: &mut Rng, line: &mut Vec<u8>) {
    if let Some(last) = line.iter().rposition(u8::is_ascii_digit) {
        let count = rng.pick(&[1, 1, 1, 2, 3, 10, 20, 30, 40, 6_000]);
        let digits: Vec<u8> = (0..count).map(|_| b'0' + rng.below(10) as u8).collect();
        line.splice(last + 1..last + 1, digits);
    }
}

fn with_byte_damaged(rng: &mut Rng, text: &[u8]) -> Vec<u8> {
    if text.is_empty() {
        return vec![rng.u8()];
    }
    let mut text = text.to_vec();
    let at = rng.below(text.len());
    let meaningful = b"RBPCHMOVAD[]#, :\t\r\n0123456789abxz";
    let byte = if rng.one_in(3) { rng.u8() } else { rng.pick(meaningful) };
    match rng.below(8) {
        0 | 1 => drop(text.remove(at)),
        2 | 3 => text.insert(at, byte),
        4 => text.truncate(at),
        _ => text[at] = byte,
    }
    text
}

/// Places of the library's table of labels.
pub const PLACES: u64 = 32_537;

/// The place at which the library looks first for a name, its bytes read as a number with the first
/// byte highest.
fn home(name: u64) -> u64 {
    name % 4_294_967_291 * 2_654_435_769 / 8_589_934_592 % PLACES
}

/// Names for which it looks at the same place first; `a0` is the first of them.
pub fn meeting_names(count: usize) -> Vec<String> {
    let letters = b"abcdefghijklmnopqrstuvwxyz0123456789";
    let number = |bytes: &[u8]| bytes.iter().fold(0, |sum, &byte| sum << 8 | u64::from(byte));
    let place = home(number(b"a0"));
    let name = |index: usize| {
        let mut bytes = *b"aaaaaa";
        let mut left = index;
        for byte in bytes[1..].iter_mut().rev() {
            *byte = letters[left % letters.len()];
            left /= letters.len();
        }
        bytes
    };
    let others = (0..letters.len().pow(5)).map(name).filter(|bytes| home(number(bytes)) == place);
    let names: Vec<Vec<u8>> = std::iter::once(b"a0".to_vec())
        .chain(others.map(|bytes| bytes.to_vec()))
        .take(count)
        .collect();
    assert_eq!(names.len(), count, "there are no more such names");
    names.into_iter().map(|name| String::from_utf8(name).expect("letters and digits")).collect()
}
