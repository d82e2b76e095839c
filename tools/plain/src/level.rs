//! A lockup-free cache level over any memory (section 5).

use crate::memory::{lay, Answer, Line, Memory, Refusal, Request, Ticket, Tickets, ALL_BYTES};
use crate::rule::{Geometry, Rule, RuleKind};
use std::collections::VecDeque;

const OPEN_LIMIT: usize = 16;
const REGISTER_LIMIT: usize = 8;
const TARGET_LIMIT: usize = 4;
const QUEUE_LIMIT: usize = 4;

#[derive(Clone, Copy)]
enum Way {
    Empty,
    Reserved,
    Holding { line: u32, bytes: Line, dirty: bool },
}

enum State {
    Waiting,
    Sent { ticket: Ticket, way: usize },
}

/// A line that is missing, and the requests that wait for it, oldest first.
struct Register {
    line: u32,
    state: State,
    targets: Vec<(Ticket, Request)>,
}

pub struct Level<M> {
    below: M,
    geometry: Geometry,
    rule: Rule,
    /// The ways of all sets, set by set.
    ways: Vec<Way>,
    /// The registers, oldest first.
    registers: Vec<Register>,
    write_backs: VecDeque<(u32, Line)>,
    ready: VecDeque<(Ticket, Answer)>,
    /// How many requests are open: the ready answers and all targets.
    open: usize,
    tickets: Tickets,
}

impl<M: Memory> Level<M> {
    pub fn new(below: M, geometry: Geometry, rule: RuleKind) -> Level<M> {
        Level {
            below,
            geometry,
            rule: Rule::new(rule, geometry),
            ways: vec![Way::Empty; geometry.sets * geometry.ways],
            registers: Vec::with_capacity(REGISTER_LIMIT),
            write_backs: VecDeque::with_capacity(QUEUE_LIMIT),
            ready: VecDeque::with_capacity(OPEN_LIMIT),
            open: 0,
            tickets: Tickets::default(),
        }
    }

    /// The set of a line. The number of sets is a power of two.
    fn set_of(&self, line: u32) -> usize {
        line as usize & (self.geometry.sets - 1)
    }

    /// The ways of a set.
    fn set(&self, set: usize) -> &[Way] {
        &self.ways[set * self.geometry.ways..][..self.geometry.ways]
    }

    fn way_mut(&mut self, set: usize, way: usize) -> &mut Way {
        &mut self.ways[set * self.geometry.ways + way]
    }

    /// The way of the set that holds the line.
    fn way_of(&self, set: usize, line: u32) -> Option<usize> {
        self.set(set).iter().position(|way| matches!(way, Way::Holding { line: held, .. } if *held == line))
    }

    /// Carries out a request on the line in a way; its answer is then ready.
    fn serve(&mut self, set: usize, way: usize, ticket: Ticket, request: Request) {
        let Way::Holding { bytes, dirty, .. } = self.way_mut(set, way) else {
            unreachable!("a way that is served holds a line");
        };
        let answer = match request {
            Request::Read => Answer::Line(*bytes),
            Request::Write { mask, bytes: new } => {
                lay(bytes, mask, &new);
                *dirty = true;
                Answer::Done
            }
        };
        self.ready.push_back((ticket, answer));
    }

    /// Takes an answer from below: that of a register ends it, any other is discarded.
    fn receive(&mut self, answered: Ticket, answer: Answer) {
        let sent = self.registers.iter().enumerate().find_map(|(index, register)| match register.state {
            State::Sent { ticket, way } if ticket == answered => Some((index, way)),
            _ => None,
        });
        let Some((index, way)) = sent else {
            return;
        };
        let Register { line, targets, .. } = self.registers.remove(index);
        let set = self.set_of(line);
        match answer {
            Answer::Line(bytes) => {
                *self.way_mut(set, way) = Way::Holding { line, bytes, dirty: false };
                self.rule.filled(set, way);
                for (ticket, request) in targets {
                    self.serve(set, way, ticket, request);
                }
            }
            Answer::Fault(_) => {
                *self.way_mut(set, way) = Way::Empty;
                self.ready.extend(targets.iter().map(|&(ticket, _)| (ticket, answer)));
            }
            Answer::Done => unreachable!("a read is not answered with done"),
        }
    }

    /// Sends at most one request below: the oldest waiting register's, or else a write-back.
    fn send(&mut self) {
        let waiting = self.registers.iter().position(|register| matches!(register.state, State::Waiting));
        if let Some(index) = waiting {
            let line = self.registers[index].line;
            if self.may_go(line) {
                if let Ok(ticket) = self.below.request(line, Request::Read) {
                    let way = self.reserve(line);
                    self.registers[index].state = State::Sent { ticket, way };
                }
                return;
            }
        }
        if let Some(&(line, bytes)) = self.write_backs.front() {
            if self.below.request(line, Request::Write { mask: ALL_BYTES, bytes }).is_ok() {
                self.write_backs.pop_front();
            }
        }
    }

    /// Whether a miss of the line may be read below.
    fn may_go(&self, line: u32) -> bool {
        self.write_backs.len() < QUEUE_LIMIT
            && self.write_backs.iter().all(|&(queued, _)| queued != line)
            && self.set(self.set_of(line)).iter().any(|way| !matches!(way, Way::Reserved))
    }

    /// Reserves a way for a line that was read below, and queues the line in it if that is dirty.
    fn reserve(&mut self, line: u32) -> usize {
        let set = self.set_of(line);
        let ways = self.set(set);
        let way = ways
            .iter()
            .position(|way| matches!(way, Way::Empty))
            .or_else(|| self.rule.pick(set, |way| !matches!(ways[way], Way::Reserved)))
            .expect("a line is read below only when its set has a way that is not reserved");
        let old = std::mem::replace(self.way_mut(set, way), Way::Reserved);
        if let Way::Holding { line: victim, bytes, dirty: true } = old {
            self.write_backs.push_back((victim, bytes));
        }
        way
    }
}

impl<M: Memory> Memory for Level<M> {
    fn size(&self) -> u32 {
        self.below.size()
    }

    fn request(&mut self, line: u32, request: Request) -> Result<Ticket, Refusal> {
        if line >= self.size() {
            return Err(Refusal::NoLine);
        }
        if self.open == OPEN_LIMIT {
            return Err(Refusal::Busy);
        }
        let set = self.set_of(line);
        let ticket;
        if let Some(way) = self.way_of(set, line) {
            ticket = self.tickets.issue();
            self.rule.used(set, way);
            self.serve(set, way, ticket, request);
        } else if let Some(register) = self.registers.iter_mut().find(|register| register.line == line) {
            if register.targets.len() == TARGET_LIMIT {
                return Err(Refusal::Busy);
            }
            ticket = self.tickets.issue();
            register.targets.push((ticket, request));
        } else {
            if self.registers.len() == REGISTER_LIMIT {
                return Err(Refusal::Busy);
            }
            ticket = self.tickets.issue();
            self.registers.push(Register { line, state: State::Waiting, targets: vec![(ticket, request)] });
        }
        self.open += 1;
        Ok(ticket)
    }

    fn step(&mut self) -> Option<(Ticket, Answer)> {
        let answer = self.ready.pop_front();
        if answer.is_some() {
            self.open -= 1;
        }
        if let Some((ticket, answer)) = self.below.step() {
            self.receive(ticket, answer);
        }
        self.send();
        answer
    }
}
