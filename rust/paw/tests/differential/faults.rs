//! Programs in writing with faults that are known beforehand, to ask in which order checks are put.

use reference::generate::Rng;
use reference::refusal::SourceRefusal;

use crate::sources::{FAR, NOWHERE, branch_line, plain_line, program, text_of};

/// Lines that check 21 refuses.
const BAD_LINES: [&str; 24] = [
    "",
    " ",
    "HALT",
    "HALT #7 ",
    "HALT #7\r",
    "HALT\t#7",
    "HALT #00",
    "halt #7",
    "MOV R8, #1",
    "MOV R0, R16",
    "MOV R01, R0",
    "MOV R0,  R1",
    "AND R0, R8",
    "ADD R0, PC",
    "ADD R0, R15, #4",
    "ADD R8, PC, #4",
    "LDR R0, [R8, #4]",
    "LDR R0, [R1]",
    "BEQ Far",
    "BEQ ninechars",
    "far :",
    "ninechars:",
    "FAR:",
    ":",
];

/// Lines that check 23 refuses.
const LARGE_VALUES: [&str; 14] = [
    "HALT #256",
    "MOV R0, #256",
    "CMP R7, #65536",
    "STR R0, [R1, #128]",
    "STR R0, [R1, #2]",
    "LDR R0, [R1, #123]",
    "LDR R0, [R1, #4294967296]",
    "STRB R0, [R1, #32]",
    "LDRB R0, [R1, #256]",
    "ADD R0, PC, #1024",
    "ADD R0, PC, #1018",
    "ADD R0, PC, #18446744073709551616",
    "HALT #340282366920938463463374607431768211456",
    "MOV R0, #100000000000000000000000000007",
];

/// What can be brought into a good program.
#[derive(Clone, Copy, Debug, PartialEq, Eq)]
pub enum Fault {
    BadLine,
    SecondDefinition,
    MissingLabel,
    LargeValue,
    FarBranch,
}

impl Fault {
    pub const ALL: [Fault; 5] = [
        Fault::BadLine,
        Fault::SecondDefinition,
        Fault::MissingLabel,
        Fault::LargeValue,
        Fault::FarBranch,
    ];
}

/// A program with faults. It knows which line fails which check without reading any.
pub struct Faulty {
    /// The lines, each with the number of the check that it fails, or 0.
    lines: Vec<(String, u8)>,
    instructions: usize,
    /// Up to here, lines that are put in are far away from the label FAR.
    front: usize,
    /// Whether the last line has its line feed.
    ended: bool,
}

impl Faulty {
    /// A program that has no fault yet. So few of its instructions have labels that a few more
    /// bring no label out of reach; behind them come so many others that FAR is.
    pub fn new(rng: &mut Rng) -> Self {
        let (instructions, labels) = (rng.between(1, 100), rng.between(1, 30));
        let mut lines = program(rng, instructions, labels);
        let front = lines.len();
        lines.extend((0..200).map(|_| plain_line(rng)));
        lines.push(format!("{FAR}:"));
        let lines = lines.into_iter().map(|line| (line, 0)).collect();
        Faulty { lines, instructions: instructions + 200, front, ended: true }
    }

    /// Brings a fault in. There may be twenty.
    pub fn bring_in(&mut self, rng: &mut Rng, fault: Fault) {
        match fault {
            Fault::BadLine => {
                let at = rng.between(0, self.lines.len());
                self.insert(at, rng.pick(&BAD_LINES).to_string(), 21);
            }
            Fault::SecondDefinition => {
                let is_first = |line: &(String, u8)| line.0.ends_with(':') && line.1 == 0;
                let labels = (0..self.lines.len()).filter(|&at| is_first(&self.lines[at]));
                let labels: Vec<usize> = labels.collect();
                let first = rng.pick(&labels);
                let at = rng.between(first + 1, self.lines.len());
                self.insert(at, self.lines[first].0.clone(), 22);
            }
            Fault::MissingLabel => {
                let at = rng.between(0, self.lines.len());
                let line = branch_line(rng, NOWHERE);
                self.insert_instruction(at, line, 22);
            }
            Fault::LargeValue => {
                let at = rng.between(0, self.lines.len());
                self.insert_instruction(at, rng.pick(&LARGE_VALUES).to_string(), 23);
            }
            Fault::FarBranch => {
                let at = rng.between(0, self.front);
                let line = branch_line(rng, FAR);
                self.insert_instruction(at, line, 23);
            }
        }
    }

    /// Takes the last line feed away, which is done last. An empty line goes with it.
    pub fn leave_open(&mut self) {
        match self.lines.last_mut() {
            Some((line, number)) if !line.is_empty() => {
                *number = 21;
                self.ended = false;
            }
            _ => drop(self.lines.pop()),
        }
    }

    /// Puts good instructions behind all others until there are so many.
    pub fn extend(&mut self, rng: &mut Rng, instructions: usize) {
        while self.instructions < instructions {
            self.insert_instruction(self.lines.len(), plain_line(rng), 0);
        }
    }

    fn insert_instruction(&mut self, at: usize, line: String, number: u8) {
        self.insert(at, line, number);
        self.instructions += 1;
    }

    fn insert(&mut self, at: usize, line: String, number: u8) {
        self.lines.insert(at, (line, number));
        self.front += usize::from(at <= self.front);
    }

    pub fn text(&self) -> Vec<u8> {
        let lines: Vec<&str> = self.lines.iter().map(|(line, _)| line.as_str()).collect();
        let mut text = text_of(&lines);
        if !self.ended {
            text.pop();
        }
        text
    }

    /// How many halfwords the program would be, or the refusal that is due, by the checks' order.
    pub fn due(&self, room: usize) -> Result<usize, SourceRefusal> {
        let first = |wanted: &[u8]| {
            let place = self.lines.iter().position(|(_, number)| wanted.contains(number));
            place.map(|place| SourceRefusal::at(self.lines[place].1, place as u64 + 1))
        };
        if let Some(refusal) = first(&[21]) {
            return Err(refusal);
        }
        if !(1..=15_936).contains(&self.instructions) {
            return Err(SourceRefusal::of(15));
        }
        match first(&[22, 23]) {
            Some(refusal) => Err(refusal),
            None if room < self.instructions => Err(SourceRefusal::of(16)),
            None => Ok(self.instructions),
        }
    }
}
