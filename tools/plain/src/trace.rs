//! The records of a trace and their reader (section 7).

use crate::rule::{Geometry, RuleKind};

const LINE_LIMIT: u64 = 4_096;
const LATENCY_LIMIT: u64 = 64;
const SCRIPT_LIMIT: u64 = 64;
const BAD_LINE_LIMIT: u64 = 32;
const STEP_LIMIT: u64 = 1_000;
const NOTE_LIMIT: u64 = 60;

const SETUP: u8 = 0;
const LOAD: u8 = 1;
const STORE: u8 = 2;
const PASS: u8 = 3;
const NOTE: u8 = 4;

/// Why a record is refused, with the numbers of section 10.
#[derive(Clone, Copy, Debug, PartialEq)]
pub enum Refusal {
    Truncated = 1,
    Number = 2,
    NoKind = 3,
    Limit = 4,
    Misplaced = 5,
}

#[derive(Debug)]
pub struct BadLine {
    pub line: u32,
    pub cause: u8,
}

#[derive(Debug)]
pub enum Bottom {
    Ordered { latency: u32 },
    Scripted { script: Vec<u8> },
}

#[derive(Clone, Copy, Debug)]
pub struct LevelSetup {
    pub geometry: Geometry,
    pub rule: RuleKind,
}

#[derive(Debug)]
pub struct Setup {
    pub size: u32,
    pub bottom: Bottom,
    pub bad_lines: Vec<BadLine>,
    /// The level next to the memory.
    pub lower: LevelSetup,
    pub upper: Option<LevelSetup>,
}

/// A record behind the setup.
#[derive(Clone, Copy, Debug)]
pub enum Record<'a> {
    Load { size: u8, address: u32 },
    Store { size: u8, address: u32, value: u64 },
    Pass { steps: u32 },
    Note { text: &'a [u8] },
}

/// Reads the setup that a trace begins with, and gives a reader of the records behind it.
pub fn read_setup(trace: &[u8]) -> Result<(Setup, Reader<'_>), Refusal> {
    let mut reader = Reader { rest: trace };
    let setup = match reader.byte()? {
        SETUP => reader.setup()?,
        LOAD..=NOTE => return Err(Refusal::Misplaced),
        _ => return Err(Refusal::NoKind),
    };
    Ok((setup, reader))
}

pub struct Reader<'a> {
    rest: &'a [u8],
}

impl<'a> Reader<'a> {
    /// The next record, or none at the end of the trace. Behind a refusal nothing more can be read.
    pub fn next(&mut self) -> Result<Option<Record<'a>>, Refusal> {
        if self.rest.is_empty() {
            return Ok(None);
        }
        let record = match self.byte()? {
            LOAD => Record::Load { size: self.size()?, address: self.address()? },
            STORE => Record::Store { size: self.size()?, address: self.address()?, value: self.number()? },
            PASS => Record::Pass { steps: self.field(1, STEP_LIMIT)? as u32 },
            NOTE => Record::Note { text: self.note()? },
            SETUP => return Err(Refusal::Misplaced),
            _ => return Err(Refusal::NoKind),
        };
        Ok(Some(record))
    }

    fn setup(&mut self) -> Result<Setup, Refusal> {
        let size = self.field(1, LINE_LIMIT)? as u32;
        let bottom = match self.field(1, 2)? {
            1 => Bottom::Ordered { latency: self.field(1, LATENCY_LIMIT)? as u32 },
            _ => Bottom::Scripted { script: self.script()? },
        };
        let bad_count = self.field(0, BAD_LINE_LIMIT)?;
        let bad_lines = (0..bad_count).map(|_| self.bad_line()).collect::<Result<_, _>>()?;
        let level_count = self.field(1, 2)?;
        let lower = self.level()?;
        let upper = if level_count == 2 { Some(self.level()?) } else { None };
        Ok(Setup { size, bottom, bad_lines, lower, upper })
    }

    fn script(&mut self) -> Result<Vec<u8>, Refusal> {
        let length = self.field(1, SCRIPT_LIMIT)? as usize;
        let script = self.bytes(length)?;
        if script.iter().all(|&byte| byte == 0) {
            return Err(Refusal::Limit);
        }
        Ok(script.to_vec())
    }

    fn bad_line(&mut self) -> Result<BadLine, Refusal> {
        Ok(BadLine { line: self.field(0, LINE_LIMIT - 1)? as u32, cause: self.field(0, 255)? as u8 })
    }

    fn level(&mut self) -> Result<LevelSetup, Refusal> {
        let geometry = Geometry { sets: self.count()?, ways: self.count()? };
        let rule = match self.field(1, 2)? {
            1 => RuleKind::Lru,
            _ => RuleKind::Fifo,
        };
        Ok(LevelSetup { geometry, rule })
    }

    /// A number of sets or ways.
    fn count(&mut self) -> Result<usize, Refusal> {
        match self.number()? {
            count @ (1 | 2 | 4 | 8) => Ok(count as usize),
            _ => Err(Refusal::Limit),
        }
    }

    fn size(&mut self) -> Result<u8, Refusal> {
        Ok(self.field(0, 255)? as u8)
    }

    fn address(&mut self) -> Result<u32, Refusal> {
        Ok(self.field(0, u64::from(u32::MAX))? as u32)
    }

    fn note(&mut self) -> Result<&'a [u8], Refusal> {
        let length = self.field(0, NOTE_LIMIT)? as usize;
        let text = self.bytes(length)?;
        if !text.iter().all(|byte| (32..=126).contains(byte)) {
            return Err(Refusal::Limit);
        }
        Ok(text)
    }

    /// A number within limits.
    fn field(&mut self, least: u64, most: u64) -> Result<u64, Refusal> {
        let number = self.number()?;
        if number < least || number > most {
            return Err(Refusal::Limit);
        }
        Ok(number)
    }

    /// A number: groups of seven bits, the lowest first, all but the last with the top bit set.
    fn number(&mut self) -> Result<u64, Refusal> {
        let last = self.rest.iter().position(|byte| byte & 0x80 == 0).ok_or(Refusal::Truncated)?;
        let groups = self.bytes(last + 1)?;
        let is_shortest = last == 0 || groups[last] != 0;
        // nine groups have 63 bits, so a tenth may only be 1
        let fits = last < 9 || last == 9 && groups[last] == 1;
        if !is_shortest || !fits {
            return Err(Refusal::Number);
        }
        Ok(groups.iter().rev().fold(0, |number, group| number << 7 | u64::from(group & 0x7f)))
    }

    fn byte(&mut self) -> Result<u8, Refusal> {
        let (&first, rest) = self.rest.split_first().ok_or(Refusal::Truncated)?;
        self.rest = rest;
        Ok(first)
    }

    fn bytes(&mut self, count: usize) -> Result<&'a [u8], Refusal> {
        if count > self.rest.len() {
            return Err(Refusal::Truncated);
        }
        let (bytes, rest) = self.rest.split_at(count);
        self.rest = rest;
        Ok(bytes)
    }
}
