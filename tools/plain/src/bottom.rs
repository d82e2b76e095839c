//! The two memories at the bottom (section 3): their bytes are alike, they answer in different order.

use crate::memory::{lay, Answer, Fault, Line, Memory, Refusal, Request, Ticket, Tickets, LINE_SIZE};
use crate::trace::BadLine;
use std::collections::VecDeque;

const LEVEL_NUMBER: u8 = 0;
const ORDERED_LIMIT: usize = 4;
const SCRIPTED_LIMIT: usize = 16;

/// The lines, the bad ones among them, and the open requests, oldest first.
struct Store {
    lines: Vec<Line>,
    bad_lines: Vec<BadLine>,
    open: VecDeque<(Ticket, Answer)>,
    limit: usize,
    tickets: Tickets,
}

impl Store {
    /// A store whose byte at address `a` is `a mod 251`.
    fn new(size: u32, bad_lines: Vec<BadLine>, limit: usize) -> Store {
        let mut lines = vec![[0; LINE_SIZE]; size as usize];
        for (byte, value) in lines.as_flattened_mut().iter_mut().zip((0..251).cycle()) {
            *byte = value;
        }
        Store { lines, bad_lines, open: VecDeque::with_capacity(limit), limit, tickets: Tickets::default() }
    }

    fn size(&self) -> u32 {
        self.lines.len() as u32
    }

    fn request(&mut self, line: u32, request: Request) -> Result<Ticket, Refusal> {
        if line >= self.size() {
            return Err(Refusal::NoLine);
        }
        if self.open.len() == self.limit {
            return Err(Refusal::Busy);
        }
        let answer = self.answer(line, request);
        let ticket = self.tickets.issue();
        self.open.push_back((ticket, answer));
        Ok(ticket)
    }

    fn answer(&mut self, line: u32, request: Request) -> Answer {
        if let Some(bad) = self.bad_lines.iter().find(|bad| bad.line == line) {
            return Answer::Fault(Fault { level: LEVEL_NUMBER, line, cause: bad.cause });
        }
        let contents = &mut self.lines[line as usize];
        match request {
            Request::Read => Answer::Line(*contents),
            Request::Write { mask, bytes } => {
                lay(contents, mask, &bytes);
                Answer::Done
            }
        }
    }
}

/// Answers the oldest open request each time its clock has gone round.
pub struct Ordered {
    store: Store,
    latency: u32,
    clock: u32,
}

impl Ordered {
    pub fn new(size: u32, bad_lines: Vec<BadLine>, latency: u32) -> Ordered {
        Ordered { store: Store::new(size, bad_lines, ORDERED_LIMIT), latency, clock: 0 }
    }
}

impl Memory for Ordered {
    fn size(&self) -> u32 {
        self.store.size()
    }

    fn request(&mut self, line: u32, request: Request) -> Result<Ticket, Refusal> {
        self.store.request(line, request)
    }

    fn step(&mut self) -> Option<(Ticket, Answer)> {
        if self.store.open.is_empty() {
            return None;
        }
        self.clock += 1;
        if self.clock < self.latency {
            return None;
        }
        self.clock = 0;
        self.store.open.pop_front()
    }
}

/// Answers by a script, whose bytes say which open request is next.
pub struct Scripted {
    store: Store,
    script: Vec<u8>,
    position: usize,
}

impl Scripted {
    pub fn new(size: u32, bad_lines: Vec<BadLine>, script: Vec<u8>) -> Scripted {
        Scripted { store: Store::new(size, bad_lines, SCRIPTED_LIMIT), script, position: 0 }
    }
}

impl Memory for Scripted {
    fn size(&self) -> u32 {
        self.store.size()
    }

    fn request(&mut self, line: u32, request: Request) -> Result<Ticket, Refusal> {
        self.store.request(line, request)
    }

    fn step(&mut self) -> Option<(Ticket, Answer)> {
        let chosen = self.script[self.position] as usize;
        self.position += 1;
        if self.position == self.script.len() {
            self.position = 0;
        }
        let index = chosen.min(self.store.open.len()).checked_sub(1)?;
        self.store.open.remove(index)
    }
}
