//! Plays a trace and writes its listing (sections 8 and 9).

use crate::bottom::{Ordered, Scripted};
use crate::level::Level;
use crate::memory::Memory;
use crate::port::{Outcome, Port, Rejection};
use crate::trace::{read_setup, Bottom, LevelSetup, Reader, Record};
use std::io::{self, Write};

const RATION: u32 = 1_000_000;

/// Plays a whole trace.
pub fn play(trace: &[u8], out: &mut impl Write) -> io::Result<()> {
    let (setup, reader) = match read_setup(trace) {
        Ok(read) => read,
        Err(refusal) => {
            writeln!(out, "X 0 {}", refusal as u8)?;
            return writeln!(out, "E 0 0");
        }
    };
    match setup.bottom {
        Bottom::Ordered { latency } => {
            let memory = Ordered::new(setup.size, setup.bad_lines, latency);
            play_on(memory, setup.lower, setup.upper, reader, out)
        }
        Bottom::Scripted { script } => {
            let memory = Scripted::new(setup.size, setup.bad_lines, script);
            play_on(memory, setup.lower, setup.upper, reader, out)
        }
    }
}

/// Plays the records behind a setup on one or two levels over a bottom memory.
fn play_on(
    memory: impl Memory,
    lower: LevelSetup,
    upper: Option<LevelSetup>,
    reader: Reader,
    out: &mut impl Write,
) -> io::Result<()> {
    let level = Level::new(memory, lower.geometry, lower.rule);
    match upper {
        None => Player::new(level, reader, out).run(),
        Some(upper) => Player::new(Level::new(level, upper.geometry, upper.rule), reader, out).run(),
    }
}

struct Player<'a, M, W> {
    port: Port<M>,
    reader: Reader<'a>,
    out: &'a mut W,
    /// How many records were read, the setup among them.
    records: u64,
    steps: u64,
}

impl<'a, M: Memory, W: Write> Player<'a, M, W> {
    fn new(hierarchy: M, reader: Reader<'a>, out: &'a mut W) -> Player<'a, M, W> {
        Player { port: Port::new(hierarchy, RATION), reader, out, records: 1, steps: 0 }
    }

    fn run(mut self) -> io::Result<()> {
        loop {
            match self.reader.next() {
                Ok(Some(record)) => self.play_record(record)?,
                Ok(None) => break,
                Err(refusal) => {
                    self.write_refused(refusal as u8)?;
                    break;
                }
            }
            self.records += 1;
        }
        while self.port.out_count() > 0 {
            self.step()?;
        }
        writeln!(self.out, "E {} {}", self.port.accepted(), self.steps)
    }

    fn play_record(&mut self, record: Record) -> io::Result<()> {
        match record {
            Record::Load { size, address } => self.request(|port| port.load(size, address)),
            Record::Store { size, address, value } => self.request(|port| port.store(size, address, value)),
            Record::Pass { steps } => (0..steps).try_for_each(|_| self.step()),
            Record::Note { text } => {
                self.out.write_all(b"N ")?;
                self.out.write_all(text)?;
                self.out.write_all(b"\n")
            }
        }
    }

    /// Makes a request, after as many steps as it takes until the port has room for it.
    fn request(&mut self, make: impl Fn(&mut Port<M>) -> Result<(), Rejection>) -> io::Result<()> {
        loop {
            match make(&mut self.port) {
                Ok(()) => return Ok(()),
                Err(Rejection::Refused(code)) => return self.write_refused(code),
                Err(Rejection::NotNow) => self.step()?,
            }
        }
    }

    /// Makes a step and writes what has come by it.
    fn step(&mut self) -> io::Result<()> {
        self.port.step();
        self.steps += 1;
        if let Some((number, outcome)) = self.port.redeem_first() {
            match outcome {
                Outcome::Value(value) => writeln!(self.out, "L {number} {value}")?,
                Outcome::Done => writeln!(self.out, "S {number}")?,
                Outcome::Fault(fault) => {
                    writeln!(self.out, "F {number} {} {} {}", fault.level, fault.line, fault.cause)?;
                }
            }
        }
        Ok(())
    }

    fn write_refused(&mut self, code: u8) -> io::Result<()> {
        writeln!(self.out, "X {} {code}", self.records)
    }
}

#[cfg(test)]
mod tests {
    use super::play;

    fn listing(trace: &[u8]) -> String {
        let mut out = Vec::new();
        play(trace, &mut out).unwrap();
        String::from_utf8(out).unwrap()
    }

    #[test]
    fn the_worked_example() {
        let trace = [
            0, 4, 1, 2, 1, 3, 9, 1, 1, 1, 2, // setup
            2, 1, 5, 0xC8, 1, // store
            1, 4, 4, 1, 1, 0x10, 1, 1, 0x30, // loads
            4, 3, 0x65, 0x6E, 0x64, // note
        ];
        assert_eq!(listing(&trace), "N end\nS 1\nL 2 117884932\nL 3 16\nF 4 0 3 9\nE 4 10\n");
    }

    #[test]
    fn a_faulty_setup() {
        assert_eq!(listing(&[]), "X 0 1\nE 0 0\n");
        assert_eq!(listing(&[5]), "X 0 3\nE 0 0\n");
        assert_eq!(listing(&[1, 1, 0]), "X 0 5\nE 0 0\n");
    }
}
