//! Prints the library's version and what its numbers say, then loads the image that the argument
//! names and runs it.

use std::error::Error;
use std::{env, fs};

use paw::Traffic::{NoData, ReadByte, ReadHalfword, WroteByte, WroteHalfword};
use paw::{Check, Condition, Machine, RunOutcome, Stop};

fn main() -> Result<(), Box<dyn Error>> {
    println!("version {}", paw::version());
    for check in Check::ALL {
        println!("{} {}", check.number(), check.complaint());
    }
    for stop in [Stop::OddPc, Stop::Undefined, Stop::Misaligned] {
        println!("{} {}", stop.number(), stop.complaint());
    }
    println!("255 {}", RunOutcome::Halted);
    for condition in Condition::ALL {
        println!("condition {} {condition}", condition.number());
    }
    for traffic in [NoData, ReadByte(7), ReadHalfword(8), WroteByte(7), WroteHalfword(8)] {
        println!("touched {traffic}");
    }

    let file = fs::read(env::args().nth(1).ok_or("no image is named")?)?;
    let mut memory = vec![0; paw::MEMORY_BYTES];
    let layout = paw::load(&file, &mut memory)?;
    for (number, halfword) in memory[layout.code()].chunks_exact(2).enumerate() {
        let instruction = paw::decode(u16::from_le_bytes([halfword[0], halfword[1]]));
        println!("{} {}", 2 * number, instruction.ok_or("undefined")?);
    }
    let run = paw::run(&mut Machine::default(), &mut memory, 1_000)?;
    println!("{} after {} steps, {}", run.outcome, run.steps, run.traffic);
    Ok(())
}
