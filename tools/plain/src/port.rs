//! Loads and stores by number, over any memory (section 6).

use crate::memory::{Answer, Fault, Line, Memory, Refusal, Request, Ticket, LINE_SIZE};
use std::collections::VecDeque;

const OUT_LIMIT: usize = 16;

/// Why a load or a store is not accepted.
#[derive(Clone, Copy, Debug, PartialEq)]
pub enum Rejection {
    /// It is unlawful or past the ration, by the number of section 10.
    Refused(u8),
    /// It may be accepted after more steps.
    NotNow,
}

const SIZE: Rejection = Rejection::Refused(6);
const ALIGNMENT: Rejection = Rejection::Refused(7);
const RANGE: Rejection = Rejection::Refused(8);
const VALUE: Rejection = Rejection::Refused(9);
const NO_LINE: Rejection = Rejection::Refused(11);
const RATION_USED: Rejection = Rejection::Refused(22);

/// What became of a request.
#[derive(Clone, Copy, Debug, PartialEq)]
pub enum Outcome {
    Value(u64),
    Done,
    Fault(Fault),
}

/// A number that is out.
struct Out {
    number: u32,
    ticket: Ticket,
    /// Which bytes of its line the request is for.
    offset: usize,
    size: usize,
}

pub struct Port<M> {
    memory: M,
    ration: u32,
    accepted: u32,
    /// The numbers whose answers have not come.
    pending: Vec<Out>,
    /// The outcomes that have come and were not redeemed, the first first.
    come: VecDeque<(u32, Outcome)>,
}

impl<M: Memory> Port<M> {
    pub fn new(memory: M, ration: u32) -> Port<M> {
        Port {
            memory,
            ration,
            accepted: 0,
            pending: Vec::with_capacity(OUT_LIMIT),
            come: VecDeque::with_capacity(OUT_LIMIT),
        }
    }

    /// How many requests were accepted.
    pub fn accepted(&self) -> u32 {
        self.accepted
    }

    pub fn out_count(&self) -> usize {
        self.pending.len() + self.come.len()
    }

    pub fn load(&mut self, size: u8, address: u32) -> Result<(), Rejection> {
        self.check(size, address)?;
        self.request(size, address, Request::Read)
    }

    pub fn store(&mut self, size: u8, address: u32, value: u64) -> Result<(), Rejection> {
        self.check(size, address)?;
        if size < 8 && value >> (8 * size) != 0 {
            return Err(VALUE);
        }
        let (offset, size_in_line) = (offset_of(address), usize::from(size));
        let mask = ((1_u32 << size) - 1) << offset;
        let mut bytes = [0; LINE_SIZE];
        bytes[offset..][..size_in_line].copy_from_slice(&value.to_le_bytes()[..size_in_line]);
        self.request(size, address, Request::Write { mask: mask as u16, bytes })
    }

    /// The checks that loads and stores share.
    fn check(&self, size: u8, address: u32) -> Result<(), Rejection> {
        if !matches!(size, 1 | 2 | 4 | 8) {
            return Err(SIZE);
        }
        if !address.is_multiple_of(u32::from(size)) {
            return Err(ALIGNMENT);
        }
        if u64::from(address) + u64::from(size) > LINE_SIZE as u64 * u64::from(self.memory.size()) {
            return Err(RANGE);
        }
        Ok(())
    }

    fn request(&mut self, size: u8, address: u32, request: Request) -> Result<(), Rejection> {
        if self.accepted == self.ration {
            return Err(RATION_USED);
        }
        if self.out_count() == OUT_LIMIT {
            return Err(Rejection::NotNow);
        }
        let ticket = match self.memory.request(address / LINE_SIZE as u32, request) {
            Ok(ticket) => ticket,
            Err(Refusal::Busy) => return Err(Rejection::NotNow),
            Err(Refusal::NoLine) => return Err(NO_LINE),
        };
        self.accepted += 1;
        self.pending.push(Out { number: self.accepted, ticket, offset: offset_of(address), size: usize::from(size) });
        Ok(())
    }

    /// Makes one step of the memory and holds the answer that comes.
    pub fn step(&mut self) {
        let Some((ticket, answer)) = self.memory.step() else {
            return;
        };
        if let Some(index) = self.pending.iter().position(|out| out.ticket == ticket) {
            let out = self.pending.swap_remove(index);
            let outcome = match answer {
                Answer::Line(line) => Outcome::Value(value_in(&line, out.offset, out.size)),
                Answer::Done => Outcome::Done,
                Answer::Fault(fault) => Outcome::Fault(fault),
            };
            self.come.push_back((out.number, outcome));
        }
    }

    /// Redeems the number whose answer came first.
    pub fn redeem_first(&mut self) -> Option<(u32, Outcome)> {
        self.come.pop_front()
    }
}

fn offset_of(address: u32) -> usize {
    address as usize % LINE_SIZE
}

fn value_in(line: &Line, offset: usize, size: usize) -> u64 {
    let mut bytes = [0; 8];
    bytes[..size].copy_from_slice(&line[offset..][..size]);
    u64::from_le_bytes(bytes)
}
