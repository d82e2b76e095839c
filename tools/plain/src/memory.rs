//! What every memory offers (sections 1 and 2).

pub const LINE_SIZE: usize = 16;

/// The mask that takes all bytes of a line.
pub const ALL_BYTES: u16 = u16::MAX;

pub type Line = [u8; LINE_SIZE];
pub type Ticket = u32;

/// Where and why a request failed.
#[derive(Clone, Copy, Debug, PartialEq)]
pub struct Fault {
    pub level: u8,
    pub line: u32,
    pub cause: u8,
}

#[derive(Clone, Copy, Debug)]
pub enum Request {
    Read,
    Write { mask: u16, bytes: Line },
}

#[derive(Clone, Copy, Debug)]
pub enum Answer {
    Line(Line),
    Done,
    Fault(Fault),
}

/// Why a memory does not take a request.
#[derive(Clone, Copy, Debug, PartialEq)]
pub enum Refusal {
    NoLine,
    Busy,
}

pub trait Memory {
    /// The number of lines.
    fn size(&self) -> u32;

    /// Takes a request for a line, or refuses it and changes nothing.
    fn request(&mut self, line: u32, request: Request) -> Result<Ticket, Refusal>;

    /// Makes one step, which may answer one open request.
    fn step(&mut self) -> Option<(Ticket, Answer)>;
}

/// Puts the bytes of `new` that the mask names on `line`.
pub fn lay(line: &mut Line, mask: u16, new: &Line) {
    for (i, (old, new)) in line.iter_mut().zip(new).enumerate() {
        if mask >> i & 1 == 1 {
            *old = *new;
        }
    }
}

/// Gives out tickets. At most 16 requests of a memory are open at once, so counting suffices.
#[derive(Default)]
pub struct Tickets {
    next: Ticket,
}

impl Tickets {
    pub fn issue(&mut self) -> Ticket {
        let ticket = self.next;
        self.next = self.next.wrapping_add(1);
        ticket
    }
}
